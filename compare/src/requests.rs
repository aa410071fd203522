//! Recorded calls beside assembling, a function each; the verdicts are in verdicts.rs, the manual's call in manual.rs, branch tables in branches.rs, sums in brackets.rs, tidy copies
//! in copies.rs, runs in runs.rs, sheets in sheets.rs. Each answer is written out here from the words of docs/LANGUAGE.md and its examples, or comes from the Rust original's own label map or list
//! where that leaves no choice, or from GNU as; none is made by the Rattle code.

use crate::brackets::sums;
use crate::branches::branch_calls;
use crate::copies::copies;
use crate::generate::{script, Random};
use crate::manual::manual_lists;
use crate::runs::runs;
use crate::sheets::sheets;
use crate::verdicts::verdicts;
use crate::{oracle, record};
use std::collections::HashMap;

pub const LIMIT: u32 = 1 << 30;

/// One recorded call: its number, the two numbers that it takes, its source, and the text that it must answer.
pub struct Call {
    pub number: u8,
    pub x: u32,
    pub y: u32,
    pub source: Vec<u8>,
    pub text: String,
}

/// All recorded calls beside assembling.
pub fn calls() -> Vec<Call> {
    let mut out = Vec::new();
    nearest(&mut out);
    symbols(&mut out);
    line_numbers(&mut out);
    verdicts(&mut out);
    digit_values(&mut out);
    manual_lists(&mut out);
    branch_calls(&mut out);
    sums(&mut out);
    copies(&mut out);
    runs(&mut out);
    sheets(&mut out);
    out
}

pub fn refused(number: u8, place: usize) -> String {
    format!("refused {number} {place}\n")
}

// ---- the nearest label: call 2, with the base and the address

/// What the call must answer: the label's start and length, and the distance.
fn named(start: usize, length: usize, distance: u32) -> String {
    format!("{start} {length} {distance}\n")
}

fn nearest(out: &mut Vec<Call>) {
    let mut near = |source: &[u8], base, address, text| {
        out.push(Call { number: 2, x: base, y: address, source: source.to_vec(), text });
    };
    for (source, address, (start, length, distance)) in NAMED {
        near(source.as_bytes(), 0, address, named(start, length, distance));
        // Accepted at a base and at 0, the answer is the same for an address that is as much higher.
        near(source.as_bytes(), 0x2000, address + 0x2000, named(start, length, distance));
        near(source.as_bytes(), 0x2000, 0x1FFF, refused(12, 0));
    }
    for (source, address) in NONE_NEAR {
        near(source.as_bytes(), 0, address, refused(12, 0));
    }
    nearest_limits(&mut near);
    nearest_by_map(&mut near);
}

/// The rules' words and examples at base 0: a source, an address, and the label's start, length and distance.
const NAMED: [(&str, u32, (usize, usize, u32)); 40] = [
    // A name's start is that of its trimmed text, step 5's where the rest's text starts.
    (" x  y : NOP", 2, (1, 4, 2)),
    ("A: B : DC.L 5\nA:", 0, (3, 1, 0)),
    ("A: B : DC.L 5\nA:", 3, (3, 1, 3)),
    ("A: B : DC.L 5\nA:", 4, (14, 1, 0)),
    ("\t\u{b} A\r:", 7, (3, 1, 7)),
    ("NOP\nX   DC.L 5", 2, (4, 1, 0)),
    ("NOP ; see DC.W", 1, (0, 3, 1)),
    ("DC.L: 5", 0, (0, 4, 0)),
    // The empty name starts at its colon.
    ("NOP\n \t: NOP", 2, (6, 0, 0)),
    (":", 5, (0, 0, 5)),
    ("A:\n:", 0, (0, 1, 0)),
    (":\nA:", 0, (0, 0, 0)),
    ("A: : DC.L 5", 9, (0, 1, 9)),
    // A line that records a name twice: the last record is step 5's.
    (" A: A DC.L 5", 4, (4, 1, 4)),
    ("A: A: DC.L 5", 0, (3, 1, 0)),
    ("A: A DC.L 5\nB: NOP", 3, (3, 1, 3)),
    // A label has one address, the last recorded.
    ("ORG 8\nA:\nORG 4\nA:", 8, (15, 1, 4)),
    ("ORG 8\nA:\nORG 4\nA:", 4, (15, 1, 0)),
    ("A: NOP\nB: NOP\nA: NOP", 3, (7, 1, 1)),
    ("A: NOP\nB: NOP\nA: NOP", 4, (14, 1, 0)),
    // The greatest that does not pass the address, wherever it stands.
    ("ORG 100\nA:\nORG 50\nB:", 99, (18, 1, 49)),
    ("ORG 100\nA:\nORG 50\nB:", 100, (8, 1, 0)),
    ("ORG 100\nA:\nORG 50\nB:", 50, (18, 1, 0)),
    ("A: MOVE.L #5,D0\nB: NOP\nC:", 3, (0, 1, 3)),
    ("A: MOVE.L #5,D0\nB: NOP\nC:", 4, (16, 1, 0)),
    ("A: MOVE.L #5,D0\nB: NOP\nC:", 5, (16, 1, 1)),
    ("A: DC.B 5\nB: DS.W 1\nC:", 1, (10, 1, 0)),
    ("A: DC.B 5\nB: DS.W 1\nC:", 3, (20, 1, 0)),
    (record::BEZEL, 0x1003, (10, 3, 3)),
    (record::BEZEL, 0x100E, (25, 2, 10)),
    // Of equal addresses, the one whose last record stands first.
    ("A:\nB:\nA:", 3, (3, 1, 3)),
    ("A:\nB:\nC:\nB:\nA:", 0, (6, 1, 0)),
    ("A:\nB:", 0, (0, 1, 0)),
    ("A: B: DC.L 5", 0, (0, 1, 0)),
    ("B: A: DC.L 5\nB: NOP", 3, (3, 1, 3)),
    ("B: NOP\nORG 0\nA:", 0, (0, 1, 0)),
    // A label before a word that would end the reading or set the address, and labels after END.
    ("X: END\nY:", 9, (7, 1, 7)),
    ("X: ORG 8\nY:", 2, (9, 1, 0)),
    ("A:\nEND\nB:", 9, (0, 1, 9)),
    ("A: NOP\nend\nA: NOP", 0, (0, 1, 0)),
];

/// No label at or below an address, at base 0.
const NONE_NEAR: [(&str, u32); 13] = [
    ("", 0),
    ("", u32::MAX),
    ("NOP\nNOP", 2),
    ("; A:", 0),
    ("DC.L 5", 4),
    ("NOP\nA:", 1),
    ("ORG 8\nA:\nORG 9\nB:", 7),
    ("A: NOP\nNOP\nA: NOP", 3),
    (record::BEZEL, 0xFFF),
    // Labels that are not recorded: after END, and in front of it and of ORG, which are tried on the whole line.
    ("END\nA:", 9),
    ("NOP\nEnd\nA: NOP", u32::MAX),
    ("ENDX: NOP", 0),
    ("ORG: NOP", 0),
];

/// Addresses and refusals 1 to 6 at their limits and past them, each refusal before all that come later, and before 12.
fn nearest_limits(near: &mut impl FnMut(&[u8], u32, u32, String)) {
    for address in [LIMIT - 1, LIMIT, LIMIT + 1, u32::MAX] {
        near(b"A:", 0, address, named(0, 1, address));
        near(b"A:", LIMIT - 1, address, named(0, 1, address - (LIMIT - 1)));
    }
    near(b"A:", LIMIT - 1, LIMIT - 2, refused(12, 0));
    near(b"", LIMIT - 1, u32::MAX, refused(12, 0));

    let filled = |n: usize, end: &str| ";".repeat(n - end.len()) + end;
    near(filled(32768, "\nA:").as_bytes(), 0, 0, named(32766, 1, 0));
    let mut long = "\n".repeat(32769).into_bytes();
    long[0] = 128;
    near(&long, LIMIT, 0, refused(1, 32769));

    near(b"\x7f:", 0, 0, named(0, 1, 0));
    near(b"A:\n\x80\xff", 0, 0, refused(2, 3));
    near(b"END\n\x80", 0, 0, refused(2, 4));
    near(&[vec![b'\n'; 4096], vec![128]].concat(), LIMIT, 0, refused(2, 4096));

    near(("\n".repeat(4095) + "A:").as_bytes(), 0, 0, named(4095, 1, 0));
    near("\n".repeat(4096).as_bytes(), LIMIT, 0, refused(3, 4097));

    near(b"", LIMIT, 0, refused(4, 0));
    near(b"A:", LIMIT, u32::MAX, refused(4, 0));
    near(b"ORG $FFFFFFFF", u32::MAX, 0, refused(4, 0));

    near(b"A:\nORG $40000000", 0, 0, refused(5, 2));
    near(b"ORG $40000000", 0, 0, refused(5, 1));
    near(b"ORG $3FFFFFFF\nA:", 0, u32::MAX, named(14, 1, u32::MAX - (LIMIT - 1)));
    near(b"ORG $3FFFFFFF\nA:", 1, u32::MAX, refused(5, 1));
    near(b"ORG $3FFFFFFE\nA: DC.B 5", 0, LIMIT, named(14, 1, 2));
    near(b"ORG $3FFFFFFE\nA: NOP", 0, LIMIT, refused(5, 2));
    near(b"A: NOP\nEND\nORG $FFFFFFFF", 0, 1, named(0, 1, 1));

    let labels = |n: usize| (0..n).map(|i| format!("L{i}:\n")).collect::<String>();
    near(labels(256).as_bytes(), 0, 9, named(0, 2, 9));
    near((labels(256) + "ORG 8\nL255 DC.L 5").as_bytes(), 0, 9, named(labels(256).len() + 6, 4, 1));
    near(labels(257).as_bytes(), 1, 0, refused(6, 257));
    near((labels(256) + "ORG $3FFFFFFE\nNEW DC.L 5").as_bytes(), 0, 9, refused(6, 258));
    near((labels(256) + "ORG $40000000\nNEW DC.L 5").as_bytes(), 0, 9, refused(5, 257));
}

/// Random sources by the original's label map. It leaves no choice where no label is low enough, or one label alone is the
/// highest and its name stands once in the source; refusal 5 is the original's too.
fn nearest_by_map(near: &mut impl FnMut(&[u8], u32, u32, String)) {
    let mut r = Random(20261116);
    let mut left = 400;
    while left > 0 {
        let s = script(&mut r, 12);
        let base = if r.one_in(2) { 0 } else { r.below(100_000) as u32 };
        let answer = match record::too_high(&s, base) {
            Some(line) => Some((r.next() as u32, refused(5, line as usize))),
            None => {
                let map = oracle::labels(&oracle::rebased(&s, base).expect("no address is too high"));
                let address = address_near(&mut r, base, &map);
                by_map(&s, &map, address).map(|text| (address, text))
            }
        };
        if let Some((address, text)) = answer {
            near(s.as_bytes(), base, address, text);
            left -= 1;
        }
    }
}

/// An address to ask for: around a label's, around the base, or any.
pub fn address_near(r: &mut Random, base: u32, map: &HashMap<String, u32>) -> u32 {
    let mut known: Vec<u32> = map.values().copied().collect();
    known.sort();
    let around = match r.below(6) {
        0 => return r.next() as u32,
        1 => base,
        _ if known.is_empty() => base,
        _ => known[r.below(known.len())],
    };
    (around as i64 + r.below(24) as i64 - 8).clamp(0, u32::MAX as i64) as u32
}

fn by_map(source: &str, map: &HashMap<String, u32>, address: u32) -> Option<String> {
    let Some(highest) = map.values().filter(|a| **a <= address).max() else {
        return Some(refused(12, 0));
    };
    let names: Vec<&String> = map.iter().filter(|l| l.1 == highest).map(|l| l.0).collect();
    let [name] = names[..] else { return None };
    let stands = |i: &usize| source[*i..].starts_with(name.as_str());
    let starts: Vec<usize> = (0..source.len()).filter(stands).collect();
    let [start] = starts[..] else { return None };
    Some(named(start, name.len(), address - highest))
}

// ---- the labels: call 3, with the base

fn symbols(out: &mut Vec<Call>) {
    let mut list = |source: &[u8], base, text: String| {
        out.push(Call { number: 3, x: base, y: 0, source: source.to_vec(), text });
    };
    for (source, rows) in SYMBOLS {
        for base in [0, 0x2000] {
            let text: String = rows.iter().map(|(name, address, line)| format!("{name} {:08X} {line}\n", address + base)).collect();
            list(source.as_bytes(), base, text);
        }
    }
    for (source, base, number, place) in [
        (";".repeat(32769), LIMIT, 1, 32769),
        ("A:\n\u{80}".to_string(), LIMIT, 2, 3),
        ("\n".repeat(4096), LIMIT, 3, 4097),
        ("A:".to_string(), LIMIT, 4, 0),
        ("A:\nORG $40000000".to_string(), 0, 5, 2),
        ("A:\nORG $3FFFFFFF".to_string(), 1, 5, 2),
    ] {
        list(source.as_bytes(), base, refused(number, place));
    }
    list(b"A:", LIMIT - 1, "A 3FFFFFFF 1\n".to_string());
    let name = "x".repeat(32767);
    list((name.clone() + ":").as_bytes(), 0, name + " 00000000 1\n");
    list(("\n".repeat(4095) + "A:").as_bytes(), 0, "A 00000000 4096\n".to_string());
    let labels = |n: usize| (0..n).map(|i| format!("L{i}:\n")).collect::<String>();
    let rows = |n: usize| (0..n).map(|i| format!("L{i} 00000000 {}\n", i + 1)).collect::<String>();
    list(labels(256).as_bytes(), 0, rows(256));
    list(labels(257).as_bytes(), 0, refused(6, 257));
}

/// The rules' words and examples at base 0: a source, and each label's name, address and line in order.
const SYMBOLS: [(&str, &[(&str, u32, u32)]); 16] = [
    // In order of the line on which the address was last set, be it the same; step 4's label before step 5's.
    ("A:\nB:\nA:", &[("B", 0, 2), ("A", 0, 3)]),
    ("A: B DC.L 5\nC: A DS.B 1", &[("B", 0, 1), ("C", 4, 2), ("A", 4, 2)]),
    ("B: A DC.L 5", &[("B", 0, 1), ("A", 0, 1)]),
    ("ORG 8\nZ:\nORG 4\nY:", &[("Z", 8, 2), ("Y", 4, 4)]),
    // The same name at both steps of a line is one row.
    (" A: A DC.L 5", &[("A", 0, 1)]),
    ("A: A: DC.L 5\nB:", &[("A", 0, 1), ("B", 4, 2)]),
    // Names are the source's bytes, inner blanks as they are; the empty one too.
    (" x  y : NOP\nx y: NOP", &[("x  y", 0, 1), ("x y", 2, 2)]),
    ("NOP\n \t: NOP", &[("", 2, 2)]),
    ("a:\nA:", &[("a", 0, 1), ("A", 0, 2)]),
    // A data line without a colon names its first piece.
    ("NOP ; see DC.W", &[("NOP", 0, 1)]),
    ("DC.L 5\nDC.L: 5", &[("DC.L", 4, 2)]),
    // No label; labels after END, and in front of END and ORG.
    ("", &[]),
    ("NOP\n; A:\nMOVE.L #5,D0", &[]),
    ("A:\nEND\nB:", &[("A", 0, 1)]),
    ("ENDX: NOP\nB:", &[]),
    ("ORG: NOP\nX: ORG 8\nX: END\n\nY:", &[("X", 2, 3), ("Y", 4, 5)]),
];

// ---- what a number says: call 4, the source is a line

fn line_numbers(out: &mut Vec<Call>) {
    for (line, said) in LINE_NUMBERS {
        out.push(Call { number: 4, x: 0, y: 0, source: line.as_bytes().to_vec(), text: format!("{said}\n") });
    }
}

/// The rules' words and examples: a line, and what its number says.
const LINE_NUMBERS: [(&str, &str); 68] = [
    ("DC.L 5", "read 5"),
    ("  X: DC.W $10 ; a note", "read 16"),
    ("DC.B 0xfF", "read 255"),
    ("X DC.L +7", "read 7"),
    ("ORG $+10", "read 16"),
    ("org 00000000000000000000000000000000012", "read 12"),
    ("ORGANIC 64", "read 64"),
    ("ORG: 5", "read 5"),
    ("ORG 8 9", "read 8"),
    ("ORG 4294967295", "read 4294967295"),
    ("DC.L $FFFFFFFF", "read 4294967295"),
    ("A: B: DC.L 3", "read 3"),
    ("NOP DC.W 9", "read 9"),
    // No digits: nothing after the prefix and an allowed sign, or no piece at all.
    ("ORG", "no digits"),
    ("DC.L", "no digits"),
    ("X DC.L", "no digits"),
    ("X: DC.L", "no digits"),
    ("FOODC.L 5", "no digits"),
    ("X: DC.L: 5", "no digits"),
    ("DC.L $", "no digits"),
    ("DC.L 0x", "no digits"),
    ("DC.L 0x+", "no digits"),
    ("DC.L $+", "no digits"),
    ("ORG +", "no digits"),
    // A bad digit, however late; a sign that is not allowed, a second one, one before a prefix; no such prefix.
    ("DC.L -", "bad digit"),
    ("DC.L -1", "bad digit"),
    ("DC.L $-1", "bad digit"),
    ("DC.L ++1", "bad digit"),
    ("DC.L +-1", "bad digit"),
    ("DC.L +$10", "bad digit"),
    ("DC.L +0x10", "bad digit"),
    ("DC.L 0X10", "bad digit"),
    ("DC.L 0X", "bad digit"),
    ("DC.L $$1", "bad digit"),
    ("DC.L $0x1", "bad digit"),
    ("DC.L 3O", "bad digit"),
    ("DC.L 1A", "bad digit"),
    ("DC.L $1G", "bad digit"),
    ("DC.L $g", "bad digit"),
    ("DC.L 5,6", "bad digit"),
    ("DC.L 99999999999999O", "bad digit"),
    ("DC.L 4294967296-", "bad digit"),
    ("ORG $100000000z", "bad digit"),
    ("ORG x", "bad digit"),
    ("DC.L #5", "bad digit"),
    ("ORG [5]", "bad digit"),
    // Too large.
    ("DC.L 4294967296", "out of range"),
    ("DC.B 4294967296", "out of range"),
    ("ORG $100000000", "out of range"),
    ("ORG 99999999999999999999999999999999999999", "out of range"),
    ("DC.W +18446744073709551616", "out of range"),
    ("DC.L 0xFFFFFFFFF", "out of range"),
    ("DC.L 18446744073709551621", "out of range"),
    // A line that reads no number.
    ("", "no number"),
    (" \t", "no number"),
    ("; DC.L 5", "no number"),
    ("END", "no number"),
    ("ENDX DC.L 5", "no number"),
    ("NOP", "no number"),
    ("X:", "no number"),
    ("DC.L 5:", "no number"),
    ("DS.L 5", "no number"),
    ("X DS.B x", "no number"),
    ("X: ORG 5", "no number"),
    ("X: ; DS.L", "no number"),
    ("MOVEQ #3O,D1", "no number"),
    ("BRA +200", "no number"),
    ("JMP 70000", "no number"),
];

// ---- digits: call 4 too, for every byte after a digit

/// The byte's digit value is the Rust's own `to_digit`, and none for a byte over 127; a blank ends the number, and with a colon the
/// line is another.
fn digit_values(out: &mut Vec<Call>) {
    for (prefix, radix) in [("$", 16), ("", 10)] {
        for b in (0..=255u8).filter(|&b| b != b':') {
            let digit = if b < 128 { char::from(b).to_digit(radix) } else { None };
            let text = match digit {
                Some(d) => format!("read {}\n", radix + d),
                None if matches!(b, 9..=13 | 32) => "read 1\n".to_string(),
                None => "bad digit\n".to_string(),
            };
            let source = [b"DC.L ", prefix.as_bytes(), &[b'1', b]].concat();
            out.push(Call { number: 4, x: 0, y: 0, source, text });
        }
    }
}
