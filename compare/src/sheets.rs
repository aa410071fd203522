//! Recorded sheets, call 11 with how many sources were accepted and refused before. The classes of lines are written out from the
//! words of docs/LANGUAGE.md; words, marked words and labels are the Rust original's. For random scripts the classes are sheet.rs's.
use crate::generate::{script, Random};
use crate::requests::{refused, Call};
use crate::sheet::{count, ACCEPTED, LABELS, MARKED, REFUSED, WORDS};
use crate::{oracle, record};

const NAMES: [&str; 12] =
    ["skipped", "org", "label", "data", "word", "wordless", "end", "words", "marked", "labels", "accepted", "refused"];

/// A sheet as `plantsheet` prints it.
fn text(totals: &[u64; 12]) -> String {
    let rows: String = NAMES.iter().zip(totals).map(|(name, n)| format!("{name} {n}\n")).collect();
    // "The mean of words per script is given as two whole numbers, words and accepted scripts."
    format!("{rows}mean {} {}\n", totals[WORDS], totals[ACCEPTED])
}

/// All recorded sheets.
pub fn sheets(out: &mut Vec<Call>) {
    let mut add = |source: &[u8], before: [u32; 2], text| {
        out.push(Call { number: 11, x: before[0], y: before[1], source: source.to_vec(), text });
    };
    for (source, classes) in SHEETS {
        let list = record::answered(source, 0).expect("an accepted source");
        let mut totals = [0; 12];
        totals[..7].copy_from_slice(&classes);
        totals[WORDS] = list.len() as u64;
        totals[MARKED] = list.iter().filter(|p| p.2 == 1).count() as u64;
        totals[LABELS] = oracle::labels(source).len() as u64;
        totals[ACCEPTED] = 1;
        assert!(classes.iter().sum::<u64>() as usize == source.split('\n').count(), "each line in one class: {source:?}");
        let mut told = [0; 12];
        count(source, &mut told);
        assert!(told == totals, "{source:?}: {told:?}");
        add(source.as_bytes(), [0, 0], text(&totals));
    }
    refusals(&mut add);
    let mut r = Random(20261117);
    for _ in 0..400 {
        let (source, mut totals) = (script(&mut r, 24), [0; 12]);
        let before = [r.below(1_000_000) as u32, 0];
        totals[ACCEPTED] = before[0] as u64;
        count(&source, &mut totals);
        add(source.as_bytes(), before, text(&totals));
    }
}

/// "A source refused by 1 to 6 adds only to the count of refused ones", at each limit and one past it; and 20 before the others. At base 0
/// there is no 4.
fn refusals(add: &mut impl FnMut(&[u8], [u32; 2], String)) {
    let only = |place: usize, n: u64, accepted: u64, refused: u64| {
        let mut totals = [0; 12];
        totals[place] = n;
        totals[ACCEPTED] = accepted;
        totals[REFUSED] = refused;
        text(&totals)
    };
    let labels = |n: usize| (0..n).map(|i| format!("L{i}:")).collect::<Vec<_>>().join("\n");
    let spaces = |n: usize| " ".repeat(n).into_bytes();
    let none = [0, 0];
    add(&spaces(32768), none, only(0, 1, 1, 0));
    add(&spaces(32769), none, only(0, 0, 0, 1));
    add(b"\x7f", none, only(5, 1, 1, 0));
    add(b"\x80", none, only(0, 0, 0, 1));
    add("\n".repeat(4095).as_bytes(), none, only(0, 4096, 1, 0));
    add("\n".repeat(4096).as_bytes(), none, only(0, 0, 0, 1));
    add(b"ORG $3FFFFFFF", none, only(1, 1, 1, 0));
    add(b"ORG $40000000", none, only(0, 0, 0, 1));
    add(labels(257).as_bytes(), none, only(0, 0, 0, 1));
    let mut most = [0; 12];
    (most[2], most[LABELS], most[ACCEPTED]) = (256, 256, 1);
    add(labels(256).as_bytes(), none, text(&most));
    // "one source more; place 1,000,000; before the others": the source is not looked at, and no sum of the two wraps.
    add(b"", [999_999, 0], only(0, 1, 1_000_000, 0));
    add(b"\x80", [0, 999_999], only(0, 0, 0, 1_000_000));
    for before in [[1_000_000, 0], [0, 1_000_000], [400_000, 600_000], [u32::MAX, u32::MAX], [u32::MAX, 1]] {
        add(b"NOP", before, refused(20, 1_000_000));
        add(b"\x80", before, refused(20, 1_000_000));
    }
}

/// A source, and its lines by the seven classes: skipped, ORG, label only, data, instructions with a word, instructions without, and END
/// together with what follows.
const SHEETS: [(&str, [u64; 7]); 43] = [
    // The rules: what follows the first colon decides.
    ("X: END", [0, 0, 0, 0, 0, 1, 0]),
    ("X: ; n", [0, 0, 0, 0, 0, 1, 0]),
    ("A: B:", [0, 0, 0, 0, 0, 1, 0]),
    ("X: ; DC.L 4", [0, 0, 0, 1, 0, 0, 0]),
    ("NOP:", [0, 0, 1, 0, 0, 0, 0]),
    ("DC.L:", [0, 0, 1, 0, 0, 0, 0]),
    (":", [0, 0, 1, 0, 0, 0, 0]),
    ("ORG: X", [0, 1, 0, 0, 0, 0, 0]),
    ("ENDX: NOP", [0, 0, 0, 0, 0, 0, 1]),
    // "The END class is the END line and every later line."
    ("NOP\nEND\nNOP\n; note\n", [0, 0, 0, 0, 1, 0, 4]),
    ("X: END\nNOP", [0, 0, 0, 0, 1, 1, 0]),
    ("\tend ; all\n\n", [0, 0, 0, 0, 0, 0, 3]),
    ("end:", [0, 0, 0, 0, 0, 0, 1]),
    ("; END\nNOP", [1, 0, 0, 0, 1, 0, 0]),
    // Skipped lines, and the empty source, which has one.
    ("", [1, 0, 0, 0, 0, 0, 0]),
    ("\n", [2, 0, 0, 0, 0, 0, 0]),
    (" \t; DC.L 5\n\r", [2, 0, 0, 0, 0, 0, 0]),
    // ORG, whether its number can be read or not; after a label it is an instruction.
    ("ORG 8\norg\nORG $X\nORGAN", [0, 4, 0, 0, 0, 0, 0]),
    ("X: ORG 8", [0, 0, 0, 0, 0, 1, 0]),
    // Labels alone; a name twice is one label.
    ("A:\n B : \nA:", [0, 0, 3, 0, 0, 0, 0]),
    ("DC.L 5:", [0, 0, 1, 0, 0, 0, 0]),
    ("; A:\nA: ", [1, 0, 1, 0, 0, 0, 0]),
    // Data, with a value and without, with step 5's label too; `DC.` anywhere in the last part.
    ("DC.L 5\nDC.B 5\nDS.W 1", [0, 0, 0, 3, 0, 0, 0]),
    ("DC.L Q\nDC.L\nDC.L [2-3]", [0, 0, 0, 3, 0, 0, 0]),
    ("A: B DC.L 5\nA: B : dc.w 5", [0, 0, 0, 2, 0, 0, 0]),
    ("NOP ; see DC.L", [0, 0, 0, 1, 0, 0, 0]),
    ("DC.L: NOP", [0, 0, 0, 0, 1, 0, 0]),
    ("DC.L: DS.B 7", [0, 0, 0, 1, 0, 0, 0]),
    ("x:END DS.", [0, 0, 0, 1, 0, 0, 0]),
    // Instructions with a word and without.
    ("NOP\nMOVEQ #3,D1\nMOVE.L #5,D0", [0, 0, 0, 0, 3, 0, 0]),
    ("X: MOVE X,D0\nBRA X\nJMP X", [0, 0, 0, 0, 3, 0, 0]),
    ("MOVE X,D0\nBRA X\nLEA X,A0", [0, 0, 0, 0, 0, 3, 0]),
    ("X: BRA X\nORG $100\nBRA X", [0, 1, 0, 0, 1, 1, 0]),
    ("NOP D0\nTST\nADD.W D0", [0, 0, 0, 0, 1, 2, 0]),
    ("X:X: NOP", [0, 0, 0, 0, 0, 1, 0]),
    ("X: : NOP", [0, 0, 0, 0, 0, 1, 0]),
    (": NOP", [0, 0, 0, 0, 1, 0, 0]),
    // A marked word is a label's address: one of each MOVE here, none of the DC.
    ("X: DC.L 4096\nMOVE X,D0\nMOVE D0,X\nMOVEA.L #X,A0", [0, 0, 0, 1, 3, 0, 0]),
    // the stations' own scripts.
    (record::BEZEL, [0, 1, 0, 1, 5, 0, 1]),
    ("X: MOVE X,D0\nEND\nNOP", [0, 0, 0, 0, 1, 0, 2]),
    ("A:\nNOP\nB: NOP", [0, 0, 1, 0, 2, 0, 0]),
    ("A: NOP\n;\nORG 4\nB:\nDC.L 1\nBHS A\nEND\nA", [1, 1, 1, 1, 1, 1, 2]),
    ("\u{b} NOP \u{c}\n\u{1c}", [0, 0, 0, 0, 1, 1, 0]),
];
