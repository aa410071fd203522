//! Recorded calls of the manual's call, call 6 with the base: lists by the manual's own words, as `manlist` prints them. What a script comes to is
//! written out from the words of docs/LANGUAGE.md, which a comment before each group names; the words of random scripts are GNU
//! as's, and the marks stand where two of its images differ.
use crate::generate::Random;
use crate::gnu::{script, words, Forms, Gnu};
use crate::record;
use crate::requests::{refused, Call, LIMIT};

/// All recorded calls of the manual's call.
pub fn manual_lists(out: &mut Vec<Call>) {
    let mut list = |source: &[u8], base, text| out.push(Call { number: 6, x: base, y: 0, source: source.to_vec(), text });
    for &(source, said) in LISTS {
        list(source.as_bytes(), 0, lines(0, said));
    }
    for &(source, number, place) in REFUSED {
        // The rules: 14 and 15 don't depend on the base.
        for base in [0, 0x2000] {
            list(source.as_bytes(), base, refused(number, place));
        }
    }
    list(MOVED.0.as_bytes(), 0x12340, lines(0x12340, MOVED.1));
    list(MOVED.0.as_bytes(), 0x3FFC_4567, lines(0x3FFC_4567, MOVED.2));
    limits(&mut list);
    by_gnu(&mut list);
}

/// A list's text from words in hexadecimal, each with its mark after a dot where it is not 0, at address after address from the base;
/// `@` sets how far after the base the next one stands.
fn lines(base: u32, said: &str) -> String {
    let (mut at, mut text) = (base, String::new());
    for part in said.split_whitespace() {
        if let Some(offset) = part.strip_prefix('@') {
            at = base + u32::from_str_radix(offset, 16).unwrap();
            continue;
        }
        let (word, mark) = part.split_once('.').unwrap_or((part, "0"));
        text.push_str(&format!("{at:08X} {word} {mark}\n"));
        at += 2;
    }
    text
}

/// Scripts that are accepted, with their lists at base 0.
const LISTS: &[(&str, &str)] = &[
    ("", ""),
    // The rules: the words, by form; long immediates "in two extension words".
    ("MOVE.L #5,D0", "203C 0000 0005"),
    ("MOVE.L #$89ABCDEF,D7", "2E3C 89AB CDEF"),
    ("MOVE.L #4294967295,D1", "223C FFFF FFFF"),
    ("X: MOVE.L X,D2", "2439 0000.2 0000.3"),
    ("X: MOVE.L D3,X", "23C3 0000.2 0000.3"),
    ("X: MOVEA.L #X,A4", "287C 0000.2 0000.3"),
    (": MOVEA.L #,A0", "207C 0000.2 0000.3"),
    ("CMP.L #4160,D5", "0C85 0000 1040"),
    ("JMP 65541", "4EF9 0001 0005"),
    ("JUMP $+10", "4EF9 0000 0010"),
    ("X: JMP X", "4EF9 0000.2 0000.3"),
    ("X: JUMP X", "4EF9 0000.2 0000.3"),
    ("ORG $12340\nX: DBRA D6,X", "@12340 51CE FFFE"),
    ("DBRA D7,-1", "51CF FFFF"),
    ("DBRA D0,+0", "51C8 0000"),
    ("DBRA D1,+32767\nDBRA D1,-32768", "51C9 7FFF 51C9 8000"),
    ("BPL -2\nBMI +4", "6AFE 6B04"),
    // The rules: sizes are those of the forms equal to the manual: all other words are the stations'.
    ("MOVEQ #-1,D1\nMOVE.L (A2),D3\nMOVE.L D4,(A5)\nMOVE.W D6,D7", "72FF 2612 2A84 3E06"),
    ("MULS.W #$FFFF,D0\nMULS.W D1,D2\nADD.W D3,D4\nSUB.W D5,D6\nCMP.W D7,D0", "C1FC FFFF C5C1 D843 9C45 B047"),
    ("TST.L D1\nSUBQ.L #8,D2\nASL.L #1,D3\nNOP", "4A81 5182 E383 4E71"),
    ("BRA -2\nBCC -2\nBCS -2\nBNE -2\nBEQ -2\nBGE -2\nBLT -2\nBGT -2\nBLE -2", "60FE 64FE 65FE 66FE 67FE 6CFE 6DFE 6EFE 6FFE"),
    // The rules: the suffix as written, the mnemonic in any case, the second part of the first piece.
    ("move.L #5,D0", "203C 0000 0005"),
    ("MOVE.L.W (A1),D0", "2011"),
    // The rules: `d0`, `D8`, `12`, `$10` are other text and name labels, but for JMP a number stays one, unmarked.
    ("d0: MOVE.L d0,D1\nD8: MOVE.L D1,D8", "2239 0000.2 0000.3 23C1 0000.2 0006.3"),
    ("$1000: MOVE.L $1000,D0", "2039 0000.2 0000.3"),
    ("12: MOVE.L 12,D0", "2039 0000.2 0000.3"),
    ("$10:JMP $10", "4EF9 0000 0010"),
    ("+5: JMP +5", "4EF9 0000.2 0000.3"),
    // The rules: the stations' fall-through; here a displacement of 0 is out of range.
    ("+5:NOP\nORG 1000\nBRA +5", "4E71 @3E8 6005"),
    ("BRA +5\n+5:NOP", "6005 4E71"),
    ("-2: NOP\nORG 1000\nDBRA D0,-2", "4E71 @3E8 51C8 FC16"),
    ("-2: NOP\nORG 40000\nDBRA D0,-2", "4E71 @9C40 51C8 FFFE"),
    // The rules: −1 is out of range for a branch, as 0 is, so here too the fall-through; DBRA keeps it; −2 stays.
    ("BRA +5\nORG 1\n+5:", "6005"),
    ("DBRA D0,X\nORG 1\nX:", "51C8 FFFF"),
    ("X: BRA X\nBNE -2", "60FE 66FE"),
    // The rules: empties are removed before counting.
    ("NOP ,\nBRA -2,", "4E71 60FE"),
    // The rules: data lines are the stations'; ORG and DC without a readable number stay silent; data words come first.
    ("NOP\nDC.L 4160\nBRA -2", "@2 0000 1040 @0 4E71 @6 60FE"),
    ("ORG\nORG x\nDC.L x\nDS.B 4\nNOP", "@5 4E71"),
    // The rules: the size "is the length of its words": each form before a label that stands after it.
    ("MOVE.L #5,D0\nX: JMP X", "203C 0000 0005 4EF9 0000.2 0006.3"),
    ("JMP X\nX: DBRA D0,Y\nY: JMP Y", "4EF9 0000.2 0006.3 51C8 0002 4EF9 0000.2 000A.3"),
    ("MULS.W #1,D0\nX: JMP X", "C1FC 0001 4EF9 0000.2 0004.3"),
    ("BRA X\nMOVEA.L #X,A0\nCMP.L #0,D0\nX:", "600C 207C 0000.2 000E.3 0C80 0000 0000"),
    // A label out of a byte's reach is in reach of DBRA; 127 and -128 are within a branch's.
    ("DBRA D2,X\nORG 32769\nX:", "51CA 7FFF"),
    ("BRA X\nORG 129\nX:", "607F"),
    ("X:\nORG 126\nBRA X", "@7E 6080"),
];

/// Scripts that are refused, with number and place: 14 and 15 "both with the line as place".
const REFUSED: &[(&str, u8, usize)] = &[
    // The rules: a suffix that the form has not.
    ("MOVE.L D0,D1", 14, 1), ("MULS D0,D1", 14, 1), ("move.l #5,D0", 14, 1), ("x:BRA.S x", 14, 1), ("CMPI.L #5,D0", 14, 1), ("NOP.", 14, 1),
    ("MOVE.W (A0),D0", 14, 1), ("TST D0", 14, 1), ("ADD.L D0,D1", 14, 1), ("MOVEQ.L #1,D0", 14, 1), ("x:JMP.L x", 14, 1), ("CMP.W #5,D0", 14, 1),
    // The rules: numbers that are not read, or out of range, are 14, never 15.
    ("MOVE.L #-1,D0", 14, 1), ("MOVE.L #4294967296,D0", 14, 1), ("SUBQ.L #9,D0", 14, 1), ("SUBQ.L #0,D0", 14, 1), ("ASL.L #-1,D0", 14, 1),
    ("JMP 4294967296", 14, 1), ("JMP $G", 14, 1), ("MULS.W #65536,D0", 14, 1), ("MOVEQ #128,D0", 14, 1), ("MOVEQ #-129,D0", 14, 1),
    // The rules: only other text names a label, or what follows MOVEA's `#`.
    ("D0:MOVE.L D0,D1", 14, 1), ("MOVE.L $1000,D0", 14, 1), ("x:MOVE.L #x,D0", 14, 1), ("A0: JMP A0", 14, 1), ("(A1): BRA (A1)", 14, 1),
    ("#x: JMP #x", 14, 1), ("MOVEA.L #5,A0", 14, 1), ("x: MOVEA.L x,A0", 14, 1),
    // The rules: signed numbers of any length; what is no number and no label is 14.
    ("BRA +128", 15, 1), ("BRA +0", 15, 1), ("BRA -129", 15, 1), ("BRA +99999999999", 15, 1), ("DBRA D0,+32768", 15, 1), ("DBRA D0,-32769", 15, 1),
    ("BRA +", 14, 1), ("BRA +1x", 14, 1), ("BRA -$10", 14, 1), ("BRA +5x", 14, 1), ("BRA 5", 14, 1),
    ("+5x:NOP\nORG 1000\nBRA +5x", 15, 3), ("BRA x\nx:", 15, 1), ("x:\nORG 1000\nBRA x", 15, 3), ("BRA x\nORG 130\nx:", 15, 1),
    // The rules: "In the manual's call −1 is out of range for the eleven branches."
    ("BRA -1", 15, 1), ("BCC -1", 15, 1), ("BCS -1", 15, 1), ("BNE -1", 15, 1), ("BEQ -1", 15, 1), ("BPL -1", 15, 1), ("BMI -1", 15, 1),
    ("BGE -1", 15, 1), ("BLT -1", 15, 1), ("BGT -1", 15, 1), ("BLE -1", 15, 1), ("BRA X\nORG 1\nX:", 15, 1), ("BRA -001", 15, 1),
    // The rules: 15 needs the only fault.
    ("BRA.S far\nORG 1000\nfar:NOP", 14, 1), ("BRA far,x\nORG 1000\nfar:NOP", 14, 1), ("DBRA A0,far\nORG 40000\nfar:NOP", 14, 1),
    ("BRA far", 14, 1), ("MOVE.L far,D0", 14, 1), ("JMP far", 14, 1), ("DBRA D0,far\nORG 40000\nfar:", 15, 1),
    // The rules: everything that reaches step 6 is an instruction, and one without a form has size 0.
    ("FOO", 14, 1), ("x: ; note", 14, 1), ("x: END", 14, 1), ("x:y:NOP", 14, 1), ("SIMHALT", 14, 1), ("NOP x", 14, 1), ("TST.L D0,D1", 14, 1),
    ("BRA x\nFOO\nx:NOP", 15, 1), ("x: NOP\nFOO\nBRA x,y", 14, 2), ("NOP\n\nBRA +0\nFOO", 15, 3),
    // The rules: nothing that follows END is read.
    ("NOP\nFOO\nEND\nBRA +0", 14, 2),
];

/// One script at two bases.
const MOVED: (&str, &str, &str) = (
    "X:MOVE.L #$89ABCDEF,D1\nMOVE.L X,D2\nMOVE.L D3,X\nMOVEA.L #X,A4\nCMP.L #4160,D5\nJMP X\nJUMP 65541\nDBRA D6,X\nBPL X\nBMI +4",
    "223C 89AB CDEF 2439 0001.2 2340.3 23C3 0001.2 2340.3 287C 0001.2 2340.3 0C85 0000 1040 4EF9 0001.2 2340.3 4EF9 0001 0005 51CE FFD4 6AD0 6B04",
    "223C 89AB CDEF 2439 3FFC.2 4567.3 23C3 3FFC.2 4567.3 287C 3FFC.2 4567.3 0C85 0000 1040 4EF9 3FFC.2 4567.3 4EF9 0001 0005 51CE FFD4 6AD0 6B04",
);

/// Refusals 1 to 6 at their limits and one past, and before 14 and 15, with this call's sizes.
fn limits(list: &mut impl FnMut(&[u8], u32, String)) {
    let nops = |n: usize| vec!["NOP"; n].join("\n");
    let words = |n: usize| (0..n).map(|i| format!("{:08X} 4E71 0\n", 2 * i)).collect::<String>();
    list(format!("FOO ;{}", "x".repeat(32_763)).as_bytes(), 0, refused(14, 1));
    list(format!("FOO ;{}", "x".repeat(32_764)).as_bytes(), 0, refused(1, 32_769));
    list(b"FOO\x80", 0, refused(2, 3));
    list(nops(4_096).as_bytes(), 0, words(4_096));
    list(nops(4_097).as_bytes(), 0, refused(3, 4_097));
    list(b"FOO", LIMIT, refused(4, 0));
    // The rules: "With size 0, `FOO` at 2^30 - 1 is 14 where the stations' call says 5."
    list(b"FOO", LIMIT - 1, refused(14, 1));
    list(b"NOP", LIMIT - 1, refused(5, 1));
    list(b"FOO\nNOP", LIMIT - 2, refused(5, 2));
    // the longest form that still ends below 2^30, and one byte on
    list(b"JMP 0", LIMIT - 7, lines(LIMIT - 7, "4EF9 0000 0000"));
    list(b"JMP 0", LIMIT - 6, refused(5, 1));
    let labels = |n: usize| (0..n).map(|i| format!("L{i}:\n")).collect::<String>();
    list((labels(256) + "FOO").as_bytes(), 0, refused(14, 257));
    list((labels(257) + "FOO").as_bytes(), 0, refused(6, 257));
    list(record::BEZEL.as_bytes(), 0, lines(0, "@1000 0000 1040 7203 2439 0000.2 1000.3 0C82 0000 1040 66F0 4E71"));
}

/// Random scripts of instructions: the words by GNU as and ld. At bases 65,540 apart both words of each pair differ, and no other.
fn by_gnu(list: &mut impl FnMut(&[u8], u32, String)) {
    let mut r = Random(20261120);
    let gnu = Gnu::new();
    for _ in 0..150 {
        let (ours, theirs) = script(&mut r, Forms::Instructions);
        let base = 4 * r.below(1 << 20) as u32;
        let [here, there] = gnu.images(&theirs, [base, base + 65_540]).map(|image| words(&image));
        let mut text = String::new();
        let mut after_high = false;
        for (i, (w, v)) in here.iter().zip(&there).enumerate() {
            let mark = if w == v { 0 } else if after_high { 3 } else { 2 };
            after_high = mark == 2;
            text.push_str(&format!("{:08X} {w:04X} {mark}\n", base + 2 * i as u32));
        }
        list(ours.trim_end().as_bytes(), base, text);
    }
}
