//! Recorded calls under branch tables, calls 7 and 8 with the base and the table's length: the list under a branch table, as `asmlist -b` prints it, and the
//! verdict on every line, as `whyline -b` does. What comes is written out from the words of docs/LANGUAGE.md, which a comment before each group
//! names; under the eleven in another order it is the Rust original's. `loaded` reads a table anew, apart from the Rattle code.
use crate::generate::{script_with_faults, Random};
use crate::reasons::PHRASES;
use crate::record;
use crate::requests::{refused, Call, LIMIT};
use crate::silence::Read;

/// the stations' eleven branch names, with their conditions.
pub const ELEVEN: [(&str, u8); 11] = [
    ("BRA", 0), ("BCC", 4), ("BCS", 5), ("BNE", 6), ("BEQ", 7), ("BPL", 8), ("BMI", 9), ("BGE", 12), ("BLT", 13), ("BGT", 14), ("BLE", 15),
];

/// The mnemonics other than the eleven that are short enough for a row.
pub const OTHERS: [&str; 12] = ["MOVE", "MULS", "ADD", "SUB", "CMP", "SUBQ", "ASL", "TST", "NOP", "JMP", "JUMP", "DBRA"];

/// A row's six bytes.
pub fn row(name: &str, condition: u8) -> Vec<u8> {
    [&[1], format!("{name:<4}").as_bytes(), &[condition]].concat()
}

/// A table of rows, with the byte that ends it.
pub fn table(rows: &[(&str, u8)]) -> Vec<u8> {
    rows.iter().flat_map(|(name, condition)| row(name, *condition)).chain([0]).collect()
}

/// A table's names and conditions, or the refusal with the offset of the first faulty command.
pub fn loaded(table: &[u8]) -> Result<Vec<([u8; 4], u8)>, (u8, usize)> {
    let mut rows: Vec<([u8; 4], u8)> = Vec::new();
    let mut rest = table;
    loop {
        let at = table.len() - rest.len();
        match rest {
            [0, ..] => return Ok(rows),
            [1, a, b, c, d, condition @ 0..=15, more @ ..] if rows.len() < 16 => {
                let name = [*a, *b, *c, *d];
                let text = String::from_utf8_lossy(&name).into_owned();
                let blank = matches!(a, 9..=13 | 32);
                let lower = name.iter().any(u8::is_ascii_lowercase);
                if blank || lower || rows.iter().any(|r| r.0 == name) || OTHERS.contains(&text.trim_end_matches(' ')) {
                    return Err((17, at));
                }
                rows.push((name, *condition));
                rest = more;
            }
            _ => return Err((16, at)),
        }
    }
}

/// All recorded calls under branch tables.
pub fn branch_calls(out: &mut Vec<Call>) {
    let mut under = |number, table: &[u8], source: &[u8], base, text: String| {
        out.push(Call { number, x: base, y: table.len() as u32, source: [table, source].concat(), text });
    };
    for (rows, source, words, verdicts) in NAMED {
        let t = table(rows);
        assert!(loaded(&t).is_ok(), "{rows:?}");
        for base in [0, 0x2000] {
            under(7, &t, source.as_bytes(), base, listed(base, words));
            under(8, &t, source.as_bytes(), base, told(verdicts));
            // "bytes after that are not read"
            let longer = [&t[..], &[1, b'x', 255]].concat();
            under(7, &longer, source.as_bytes(), base, listed(base, words));
        }
    }
    odd_names(&mut under);
    refused_tables(&mut under);
    limits(&mut under);
    eleven(&mut under);
}

/// A list's text from addresses and words without a mark.
fn listed(base: u32, words: &[(u32, u16)]) -> String {
    words.iter().map(|(address, word)| format!("{:08X} {word:04X} 0\n", base + address)).collect()
}

/// The text of verdicts, by their places in PHRASES, on lines from 1 on.
fn told(verdicts: &[u8]) -> String {
    verdicts.iter().zip(1..).map(|(v, line)| format!("{line} {}\n", PHRASES[*v as usize])).collect()
}

/// A table's rows, a script, its words and the verdicts on its lines at base 0.
type Named = (&'static [(&'static str, u8)], &'static str, &'static [(u32, u16)], &'static [u8]);

const NAMED: [Named; 15] = [
    // The rules: "Two plants use BHS and BLO"; "it then stands in place of the built-in eleven names". And: one of the eleven that isn't in it is an
    // unknown mnemonic; the table `00` is accepted and no branch emits.
    (&[("BHS", 4), ("BLO", 5)], "X: BHS X\nBLO X\nBCC X\nBCS X\nBRA X\nNOP", &[(0, 0x64FE), (2, 0x65FC), (10, 0x4E71)], &[0, 0, 2, 2, 2, 0]),
    (&[], "BRA -2\nBHS -2\nNOP\nDBRA D0,-2", &[(4, 0x4E71), (6, 0x51C8)], &[2, 2, 0, 0]),
    // The rules: the mnemonic is the part before the dot, as step 6 says, which is upper-cased; a name matches whole.
    (&[("BHS", 4)], "bhs -2\nBhS.S -2\nBH -2\nBHSX -2\nBHS.L.W +5", &[(0, 0x64FE), (2, 0x64FE), (8, 0x6405)], &[0, 0, 2, 2, 0]),
    (&[("B", 3), ("BHSX", 2)], "B -2\nBH -2\nBHSX -2\nBHSXY -2", &[(0, 0x63FE), (4, 0x62FE)], &[0, 2, 0, 2]),
    // The rules: its names count as the eleven do, one or more operands, the first other text; a label's displacement, or a signed number.
    (&[("BHS", 4)], "BHS\nBHS D0\nBHS #5\nBHS (A0)\nBHS -2,D0,#\nBHS X\nBHS +128\nBHS +\nBHS 5", &[(8, 0x64FE)], &[3, 4, 4, 4, 0, 8, 7, 5, 8]),
    (&[("BHS", 15)], "X:\nORG 126\nBHS X\nBHS X\nY: BHS Y\nBHS Z\nORG 259\nZ:", &[(126, 0x6F80), (130, 0x6FFE), (132, 0x6F7D)], &[1, 1, 0, 9, 0, 0, 1, 1]),
    (&[("BHS", 15)], "BHS Z\nORG 129\nZ:", &[(0, 0x6F7F)], &[0, 1, 1]),
    (&[("BHS", 15)], "BHS Z\nORG 130\nZ:", &[], &[9, 1, 1]),
    // The rules: one of the eleven with another condition is accepted, so is condition 1.
    (&[("BRA", 7), ("BSR", 1)], "BRA -2\nBSR -2\nBEQ -2", &[(0, 0x67FE), (2, 0x61FE)], &[0, 0, 2]),
    // The rules: `SIMH`, `MOV`, `END`, `ORG`, `LEA` are accepted. END and ORG are tried on the whole line and not after a label.
    (&[("SIMH", 1), ("MOV", 2), ("LEA", 3)], "SIMH -2\nSIMHALT\nMOV -2\nMOVE D0,D1\nLEA -2", &[(0, 0x61FE), (2, 0x4E72), (4, 0x62FE), (6, 0x3200), (8, 0x63FE)], &[0, 0, 0, 0, 0]),
    (&[("ORG", 4), ("END", 5)], "ORG -2\nX: ORG -2\nX: END -2\nEND -2\nNOP", &[(0, 0x64FE), (2, 0x65FE)], &[1, 0, 0, 1]),
    (&[("DC", 4)], "X: DC -2\nDC.S -2", &[(0, 0x64FE)], &[0, 1]),
    // Words and labels that are no branch's are as without; data too.
    (&[("BHS", 4)], "A: DC.L 4160\nMOVEQ #3,D1\nTST D1\nJMP 5\nSUBQ #8,D0", &[(0, 0), (2, 0x1040), (4, 0x7203), (6, 0x4A81), (8, 0x4EF8), (10, 0x5180)], &[0, 0, 0, 0, 0]),
    // The rules: a mnemonic other than the eleven is taken whole, and by its bytes.
    (&[("AD", 0), ("ADDS", 1), ("NO P", 2), ("NOPE", 3)], "AD -2\nADD D0,D1\nADDS -2\nNOP\nNOPE -2", &[(0, 0x60FE), (2, 0xD240), (4, 0x61FE), (6, 0x4E71), (8, 0x63FE)], &[0, 0, 0, 0, 0]),
    (&[("BHS", 4)], "", &[], &[1]),
];

/// The rules: padding is byte 32 at the end only; tabs after, spaces within, NULs and bytes over 127 are accepted, and a name with a blank or a dot
/// never matches.
fn odd_names(under: &mut impl FnMut(u8, &[u8], &[u8], u32, String)) {
    let script = b"BRA -2\nB -2\nA -2\nNOP";
    for name in [b"BRA\t", b"B  A", b"B\tA ", b"B.A ", b"B\x0b\x0c\r", b"\x80\xff B", b"\xc0\xc1\xc2\xc3", b"[`{|", b"\x08\x0e\x1f!"] {
        let t = [&[1], &name[..], &[7, 0]].concat();
        assert!(loaded(&t).is_ok(), "{name:?}");
        under(7, &t, script, 0, listed(0, &[(6, 0x4E71)]));
        under(8, &t, script, 0, told(&[2, 2, 2, 0]));
    }
    let nul = b"\x01B\0\0\0\x07\x00";
    under(7, nul, b"B\0\0\0 -2\nB\0\0 -2\nB -2", 0, listed(0, &[(0, 0x67FE)]));
    under(8, nul, b"B\0\0\0 -2\nB\0\0 -2\nB -2", 0, told(&[0, 2, 2]));
    // Conditions 0 to 15, in 16 rows.
    let names: Vec<String> = (0..16).map(|k| format!("T{k:X}")).collect();
    let rows: Vec<(&str, u8)> = names.iter().map(String::as_str).zip(0..).collect();
    let source: String = names.iter().map(|n| format!("{n} -2\n")).collect();
    let words: Vec<(u32, u16)> = (0..16).map(|k| (2 * k, 0x60FE + 0x100 * k as u16)).collect();
    under(7, &table(&rows), source.as_bytes(), 0, listed(0, &words));
    under(8, &table(&rows), source.as_bytes(), 0, told(&[&[0; 16][..], &[1]].concat()));
    let full = &table(&rows)[..96];
    // The rules: "A 17th row: 16 at 96"; and no other command stands there but the end.
    for behind in [&row("BHS", 4)[..], &row("bhs", 16), b"\x01", b"\x02", b"\xff", b""] {
        refusal(under, &[full, behind].concat(), 16, 96);
        refusal(under, &[full, behind, &[0]].concat()[..97 + behind.len()], if behind.is_empty() { 0 } else { 16 }, 96);
    }
}

/// A table that is refused so, whatever the source; 0 for one that is not.
fn refusal(under: &mut impl FnMut(u8, &[u8], &[u8], u32, String), table: &[u8], number: u8, place: usize) {
    let said = loaded(table).err().unwrap_or((0, place));
    assert_eq!(said, (number, place), "{table:?}");
    let text = |accepted: String| if number == 0 { accepted } else { refused(number, place) };
    under(7, table, b"NOP", 0, text(listed(0, &[(0, 0x4E71)])));
    under(8, table, b"NOP", 0, text(told(&[0])));
}

fn refused_tables(under: &mut impl FnMut(u8, &[u8], &[u8], u32, String)) {
    let mut refuses = |table: &[u8], number, place| refusal(under, table, number, place);
    // The rules: "on the first faulty one 16 wins over 17".
    refuses(b"\x01bhs \x04\x07", 17, 0);
    refuses(b"\x01bhs \x10", 16, 0);
    refuses(b"\x01bhs \x10\x00", 16, 0);
    refuses(b"\x01BHS \x04\x01bhs \x05\x01BLO \x10\x00", 17, 6);
    refuses(b"\x01BHS \x10\x01bhs \x05\x00", 16, 0);
    // The rules: empty bytes, no end byte, a cut row. A table cut at every byte.
    let whole = table(&[("BHS", 4), ("BLO", 5), ("BRA", 0)]);
    for n in 0..whole.len() {
        refuses(&whole[..n], 16, n / 6 * 6);
    }
    refuses(&whole, 0, 0);
    for command in [2, 3, 10, 32, 48, 49, 127, 128, 255] {
        refuses(&[command], 16, 0);
        refuses(&[&row("BHS", 4)[..], &[command], &whole].concat(), 16, 6);
    }
    // The rules: "a condition over 15".
    for condition in [0, 15, 16, 17, 128, 255] {
        let t = [row("BHS", 4), row("BLO", condition), vec![0]].concat();
        refuses(&t, if condition > 15 { 16 } else { 0 }, if condition > 15 { 6 } else { 0 });
    }
    // The rules: "a name starting with a blank". And: its first byte is 9 to 13 or 32.
    for b in (0..=255u8).filter(|b| *b < 34 || *b > 126) {
        let t = [1, b, b'H', b'S', b' ', 4, 0];
        refuses(&t, if matches!(b, 9..=13 | 32) { 17 } else { 0 }, 0);
    }
    refuses(b"\x01    \x04\x00", 17, 0);
    // The rules: "with a lower-case letter", which is a to z, in each of the four places.
    for i in 0..4 {
        for b in [b'`', b'a', b'm', b'z', b'{', b'A', b'Z'] {
            let mut name = *b"BHSX";
            name[i] = b;
            let t = [&row("BRA", 0)[..], &[1], &name, &[4, 0]].concat();
            let wrong = b.is_ascii_lowercase();
            refuses(&t, if wrong { 17 } else { 0 }, if wrong { 6 } else { 0 });
        }
    }
    // The rules: "in an earlier row". And: the same four bytes.
    refuses(&table(&[("BHS", 4), ("BHS", 4)]), 17, 6);
    refuses(&table(&[("BHS", 4), ("BLO", 5), ("BHS", 5), ("BLO", 4)]), 17, 12);
    refuses(b"\x01BHS \x04\x01BHS\t\x04\x01BHS\0\x04\x00", 0, 0);
    // The rules: "or a mnemonic other than the eleven", each of those.
    for name in OTHERS {
        refuses(&table(&[(name, 4)]), 17, 0);
        refuses(&table(&[("BHS", 4), ("BLO", 5), (name, 0)]), 17, 12);
        refuses(&[row("BHS", 4), row(name, 16), vec![0]].concat(), 16, 6);
    }
    for (name, condition) in ELEVEN {
        refuses(&table(&[(name, condition)]), 0, 0);
        refuses(&table(&[(name, 15 - condition)]), 0, 0);
    }
}

/// The rules: 16 and 17 come before everything, refusal 1 too; under an accepted table 1 to 6 are as without.
fn limits(under: &mut impl FnMut(u8, &[u8], &[u8], u32, String)) {
    let good = table(&[("BHS", 4)]);
    let labels = |n: usize| (0..n).map(|i| format!("L{i}:\n")).collect::<String>();
    let long = |n: usize| ";".repeat(n - 4) + "\nNOP";
    for (source, base, number, place) in [
        (long(32769).into_bytes(), LIMIT, 1, 32769),
        (b"NOP\n\x80\xff".to_vec(), LIMIT, 2, 4),
        ("\n".repeat(4096).into_bytes(), LIMIT, 3, 4097),
        (b"NOP".to_vec(), LIMIT, 4, 0),
        (b"NOP\nORG $40000000".to_vec(), 0, 5, 2),
        (b"BHS X\nX:".to_vec(), LIMIT - 2, 5, 1),
        (labels(257).into_bytes(), 0, 6, 257),
    ] {
        for call in [7, 8] {
            under(call, &good, &source, base, refused(number, place));
        }
        under(7, b"", &source, base, refused(16, 0));
        under(8, b"\x01bhs \x04\x00", &source, base, refused(17, 0));
    }
    under(7, &good, long(32768).as_bytes(), 0, listed(0, &[(0, 0x4E71)]));
    under(8, &good, long(32768).as_bytes(), 0, told(&[1, 0]));
    under(7, &good, b"BHS X\nX:", LIMIT - 3, listed(LIMIT - 3, &[(0, 0x6400)]));
}

/// The rules: "With those eleven and" their "conditions loaded, every answer is as without": the Rust's list, and the verdicts by it.
fn eleven(under: &mut impl FnMut(u8, &[u8], &[u8], u32, String)) {
    let mut r = Random(20261122);
    let examples = [record::BEZEL, include_str!("../../examples/bezel.s"), include_str!("../../examples/hinge.s")];
    let mut sources: Vec<String> = examples.iter().chain(&record::ODD).map(|s| s.to_string()).collect();
    sources.extend((0..150).map(|_| script_with_faults(&mut r, 10)));
    for source in sources {
        let mut rows = ELEVEN;
        for i in (1..11).rev() {
            rows.swap(i, r.below(i + 1));
        }
        let base = if r.one_in(2) { 0 } else { r.below(100_000) as u32 };
        let (list, verdicts) = match record::answered(&source, base) {
            Err((number, place)) => (refused(number, place as usize), refused(number, place as usize)),
            Ok(list) => {
                let read = Read::new(&source, base);
                let lines = (1..).take_while(|k| read.reads(*k));
                let said: Option<Vec<u8>> = lines.map(|k| read.verdict(k)).collect();
                let text = list.iter().map(|(address, word, mark)| format!("{address:08X} {word:04X} {mark}\n")).collect();
                (text, told(&said.expect("each line can be silenced")))
            }
        };
        under(7, &table(&rows), source.as_bytes(), base, list);
        under(8, &table(&rows), source.as_bytes(), base, verdicts);
    }
}
