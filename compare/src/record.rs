//! Recorded answers: what the replay program runs through the Rattle code. Accepted lists and refusal 5 come from
//! the Rust original; refusals 1 to 4, 6 and 7 are the rules' conditions at their limits, written out here. Calls beside assembling, and where
//! their answers come from, are in requests.rs.
//!
//! A record, numbers with the low byte first: the number of the call that it records (1 byte), and how many bytes follow (4).
//! Call 1 assembles a source at a base. Its terms: the source's length (4), the base (4), the lengths of the three slices lent
//! (4 each), the answer's number, 0 for accepted (1), and the count or the place (4). Then the source; and for an accepted
//! source `count` times an address (4), a word (2) and a mark (1).
//! The calls from 2 on are the others. Each has two numbers whose meaning it says (4 each), the source's length (4), the source, and to
//! the record's end the text that it must answer.

use crate::generate::{script, Random};
use crate::oracle;
use crate::requests::{self, Call};

const LIMIT: u32 = 1 << 30;

/// The number of the call that assembles a source at a base.
const ASSEMBLE: u8 = 1;

/// One recorded call: its input, and the answer it must give.
pub struct Record {
    pub source: Vec<u8>,
    pub base: u32,
    pub lent: [u32; 3],
    pub number: u8,
    pub place: u32,
    pub list: Vec<(u32, u16, u8)>,
}

/// The line of refusal 5, if the original's address is too high after one.
pub fn too_high(source: &str, base: u32) -> Option<u32> {
    let lines: Vec<&str> = source.split('\n').collect();
    for k in 1..=lines.len() {
        let t = lines[k - 1].trim().to_uppercase();
        if t.starts_with("END") {
            break;
        }
        // The address after line k is that of a NOP put after it.
        let probe = oracle::rebased(&(lines[..k].join("\n") + "\nNOP"), base);
        let after = probe.map(|p| oracle::rust(&p).last().unwrap().0);
        if after.map_or(true, |a| a >= LIMIT) {
            return Some(k as u32);
        }
    }
    None
}

/// The stations' answer for a source within the limits of bytes, lines and labels, by the original alone.
pub fn answered(source: &str, base: u32) -> Result<Vec<(u32, u16, u8)>, (u8, u32)> {
    match too_high(source, base) {
        Some(line) => Err((5, line)),
        None => Ok(oracle::listed(source, base).expect("two bases give lists of one length")),
    }
}

fn accepted(source: &str, base: u32, more: [i64; 3]) -> Record {
    let (number, place, list) = match answered(source, base) {
        Ok(list) => (0, list.len() as u32, list),
        Err((n, p)) => (n, p, Vec::new()),
    };
    let lent = more.map(|m| (place as i64 + m).max(0) as u32);
    Record { source: source.as_bytes().to_vec(), base, lent, number, place, list }
}

fn refused(source: Vec<u8>, base: u32, number: u8, place: u32) -> Record {
    Record { source, base, lent: [8192; 3], number, place, list: Vec::new() }
}

/// Refusal 7: a slice one short, each of the three in turn; and all of them just long enough.
fn one_short(source: &str, out: &mut Vec<Record>) {
    for i in 0..3 {
        let mut more = [0i64; 3];
        more[i] = -1;
        let mut r = accepted(source, 0, more);
        assert!(r.number == 0 && r.place > 0);
        r.number = 7;
        r.list.clear();
        out.push(r);
    }
    out.push(accepted(source, 0, [0; 3]));
}

/// Every refusal at its limit and one past it.
fn limits(out: &mut Vec<Record>) {
    let long = |n: usize| "NOP\n".repeat(4000) + &"; long".repeat(4000)[..n - 16000];
    out.push(accepted(&long(32768), 0, [1; 3]));
    out.push(refused(long(32769).into_bytes(), 0, 1, 32769));
    for (i, b) in [(0, 128), (3, 255), (7, 200)] {
        let mut s = b"NOP\nNOP\n".to_vec();
        s[i] = b;
        out.push(refused(s, 0, 2, i as u32));
    }
    out.push(accepted("\u{7f}\nNOP", 0, [1; 3]));
    out.push(accepted(&"\n".repeat(4095), 0, [0; 3]));
    out.push(refused(vec![b'\n'; 4096], 0, 3, 4097));
    out.push(accepted(&("DC.B 1\n".repeat(4095) + "NOP"), 0, [0; 3]));
    let labels = |n: usize| (0..n).map(|i| format!("L{i}:\n")).collect::<String>();
    out.push(accepted(&labels(256), 0, [0; 3]));
    out.push(accepted(&(labels(255) + ": NOP"), 0, [0; 3]));
    out.push(accepted(&(labels(256) + "L7: NOP\nMOVE.L L7,D0\nL255 DC.L 5"), 0, [0; 3]));
    out.push(refused(labels(257).into_bytes(), 0, 6, 257));
    for (line, at) in [("Z: NOP", 257), (": NOP", 257), ("Z DC.L 5", 257), ("L0: Z DS.B 1", 257), ("NOP\nNEW DC.L 5", 258)] {
        out.push(refused((labels(256) + line).into_bytes(), 0, 6, at));
    }
    // Refusal 6 comes before refusal 5 of the same line, and after refusal 5 of a line before.
    for line in ["Z: NOP", "NEW DC.L 5", "L0: Z DC.L 5"] {
        out.push(refused((labels(256) + "ORG $3FFFFFFE\n" + line).into_bytes(), 0, 6, 258));
    }
    out.push(accepted(&(labels(256) + "ORG $3FFFFFFE\nL0: NOP"), 0, [0; 3]));
    out.push(accepted(&(labels(256) + "ORG $40000000\nNEW DC.L 5"), 0, [0; 3]));
    out.push(accepted("", LIMIT - 1, [0; 3]));
    out.push(accepted("A:", LIMIT - 1, [0; 3]));
    out.push(accepted("NOP", LIMIT - 1, [0; 3]));
    out.push(accepted("NOP", LIMIT - 3, [0; 3]));
    out.push(refused(b"NOP".to_vec(), LIMIT, 4, 0));
    out.push(refused(b"NOP".to_vec(), u32::MAX, 4, 0));
    for s in ["ORG $3FFFFFFF", "ORG $40000000", "ORG $3FFFFFFE\nDC.B 5", "ORG $3FFFFFFF\nDC.B 5", "ORG $FFFFFFFF\nNOP", "NOP\nEND\nORG $FFFFFFFF"] {
        out.push(accepted(s, 0, [0; 3]));
        out.push(accepted(s, 1, [0; 3]));
    }
    one_short(BEZEL, out);
    one_short("NOP", out);
}

pub const BEZEL: &str =
    "ORG $1000\nLIM: DC.L 4160\nGO: MOVEQ #3,D1\nMOVE.L LIM,D2\nCMP.L #4160,D2\nBNE GO\nNOP\nEND";

/// Odd readings that the station examples miss, one script each.
pub const ODD: [&str; 41] = [
    // The rules: "The old call still emits it."
    "BRA -1\nBRA -2\nBNE -1\nDBRA D0,-1",
    "A:\nNOP\nA:\nBRA A",
    "A: DC.L 1\nA DC.L 2\nMOVE.L A,D0",
    "X: END\nNOP",
    "X: ORG 8\nNOP",
    "X: ; note\nNOP",
    "ENDX: NOP\nNOP",
    "end\nNOP",
    "A:DC.X\u{b}NOP\nNOP",
    "DC.X 5\nNOP",
    "XDC.W 5\nNOP",
    "DC.L:DS.B 7\nNOP",
    "A: B DC.L 5\nMOVE.L A,D0\nMOVE.L B,D1",
    "A: B: DC.L 5\nMOVE.L A,D0\nMOVE.L B,D1",
    ": DC.L 5\nMOVEA.L #,A1",
    "A: : DC.L 5\nMOVEA.L #,A1",
    "x  y: NOP\nMOVE.L x y,D0\nMOVE.L x  y,D1",
    "x y: NOP\nMOVE.L x   \t y,D0",
    "DBRA D0,NOWHERE\nNOP",
    "DBRA D1,+5\nDBRA D1,+128\nNOP",
    "+5: NOP\nORG 400\nBRA +5\nJMP +5",
    "-129: NOP\nORG 400\nBRA -129",
    "ORG 300\n+9: NOP\nBRA +9",
    "JMP 65535\nJMP 65536\n65536: NOP\nJMP 65536",
    "JMP $FFFF\nJMP 0x10000\nJMP 0X10\n0X10: NOP\nJMP 0X10",
    "JUMP X\nX: JMP X\njmp x",
    "#X: NOP\nMOVE.L #X,D0\nMOVE.L D0,#X\nCMP #X,D0",
    "D0: NOP\nMOVE D0,D0\nMOVE.L D8,D0\nD8: NOP",
    "MOVE.L (A1),D2\nMOVE.L D2,(A1)\nMOVE.L (A8),D2\nMOVE.L ( A1),D2",
    "MOVE.L X,D0,D1\nMOVE.L X,,D0\nX: MOVE.L ,X,D0,",
    "MULS #5,D0\nMULS.W #-1,D0\nMULS D1,D2\nmuls #7,D3\nNOP",
    "CMP.L #5,D0\nCMP #5,D0\nCMP.l #5,D0\nNOP",
    "MOVE.L Q,Q\nNOP\nMOVEA.L Q,A0\nNOP\nMOVE.L D0,Q\nNOP",
    "MOVE..L #5,D0\nNOP\nMOVE.L.W #5,D0\nNOP",
    "NOP 1,2,3\nSIMHALT x\nnop.w",
    "BRA\nBNE +1,x,y\nBEQ -128\nBLT -129\nBLE +127\nBGT +128\nBGE 5\nBMI -0\nBPL +",
    "ORG\nORG x\nORG 8 9\nNOP\nORG $10\nNOP\nORG 0x20\nNOP\nORG +48\nNOP\nORG -1\nNOP",
    "ORGANIC 64\nNOP",
    "ORG: NOP\nNOP",
    "TST D0\nTST D0,D1\nTST A0\nTST.L D7",
    "a:b:c: NOP\nMOVE.L a,D0\nMOVE.L b:c,D0",
];

/// Sums, which the original does not read: each list is written out from the words of docs/LANGUAGE.md.
fn sums(out: &mut Vec<Record>) {
    for (source, list) in SUMS {
        for base in [0, 0x2000] {
            let moved = |&(address, word, mark): &(u32, u16, u8)| (address + base, word + mark as u16 * base as u16, mark);
            let place = list.len() as u32;
            out.push(Record { source: source.as_bytes().to_vec(), base, lent: [place; 3], number: 0, place, list: list.iter().map(moved).collect() });
        }
    }
}

const SUMS: [(&str, &[(u32, u16, u8)]); 7] = [
    ("LIM: DC.L [2+3*4]\nMOVE.L LIM,D0", &[(0, 0, 0), (2, 14, 0), (4, 0x2078, 0), (6, 0, 1)]),
    ("DC.B [65536*2+1]\nNOP", &[(0, 2, 0), (2, 1, 0), (1, 0x4E71, 0)]),
    // No value: no word, and the size all the same.
    ("DC.W [1-2+3]\nNOP", &[(2, 0x4E71, 0)]),
    ("DC.L [\nNOP", &[(4, 0x4E71, 0)]),
    ("X: DC.L [5]", &[(0, 0, 0), (2, 5, 0)]),
    // In DC only: as an immediate and in ORG nothing is read.
    ("ORG [8]\nNOP", &[(0, 0x4E71, 0)]),
    ("MOVEQ #[5],D0\nNOP", &[(2, 0x4E71, 0)]),
];

/// All records of call 1: the limits, the rules' examples, and `count` random scripts.
pub fn records(count: usize) -> Vec<Record> {
    let mut out = Vec::new();
    limits(&mut out);
    sums(&mut out);
    for base in [0, 0x2000, 65536, 12345] {
        out.push(accepted(BEZEL, base, [0; 3]));
        for s in ODD {
            out.push(accepted(s, base, [3; 3]));
        }
    }
    for d in -131i64..=130 {
        // A branch whose label lies d away, forwards or back.
        let at = 200i64;
        out.push(accepted(&format!("ORG {at}\nBNE X\nORG {}\nX:", at + 2 + d), 0, [0; 3]));
    }
    let mut r = Random(20261115);
    while out.len() < count {
        let s = script(&mut r, 16);
        let base = if r.one_in(2) { 0 } else { r.below(100000) as u32 };
        let more = [r.below(3) as i64, r.below(3) as i64, 0];
        out.push(accepted(&s, base, more));
    }
    out
}

/// A record, in the form that the head of this file gives.
fn put(call: u8, body: &[u8], out: &mut Vec<u8>) {
    out.push(call);
    out.extend((body.len() as u32).to_le_bytes());
    out.extend(body);
}

/// The record of a call that assembles.
fn put_record(record: &Record, out: &mut Vec<u8>) {
    let mut body = Vec::new();
    body.extend((record.source.len() as u32).to_le_bytes());
    body.extend(record.base.to_le_bytes());
    for n in record.lent {
        body.extend(n.to_le_bytes());
    }
    body.push(record.number);
    body.extend(record.place.to_le_bytes());
    body.extend(&record.source);
    for (address, word, mark) in &record.list {
        body.extend(address.to_le_bytes());
        body.extend(word.to_le_bytes());
        body.push(*mark);
    }
    put(ASSEMBLE, &body, out);
}

/// The record of a call beside assembling.
fn put_call(call: &Call, out: &mut Vec<u8>) {
    let mut body = Vec::new();
    for n in [call.x, call.y, call.source.len() as u32] {
        body.extend(n.to_le_bytes());
    }
    body.extend(&call.source);
    body.extend(call.text.as_bytes());
    put(call.number, &body, out);
}

/// Writes the records to a file, and says what they hold.
pub fn write(file: &str, count: usize) {
    let (records, calls) = (records(count), requests::calls());
    let mut out = Vec::new();
    for r in &records {
        put_record(r, &mut out);
    }
    for c in &calls {
        put_call(c, &mut out);
    }
    std::fs::write(file, &out).expect("the file is written");
    let accepted = records.iter().filter(|r| r.number == 0).count();
    let words: usize = records.iter().map(|r| r.list.len()).sum();
    let marks = records.iter().flat_map(|r| &r.list).filter(|p| p.2 == 1).count();
    println!("{} records, {accepted} accepted, {words} words, {marks} marks, {} bytes", records.len(), out.len());
    for n in 1..=7 {
        println!("refusal {n}: {}", records.iter().filter(|r| r.number == n).count());
    }
    for n in 2..=calls.iter().map(|c| c.number).max().unwrap_or(1) {
        println!("call {n}: {}", calls.iter().filter(|c| c.number == n).count());
    }
}
