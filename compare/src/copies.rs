//! Recorded tidy copies, call 9 with the room lent. Copies are written out from the words of docs/LANGUAGE.md, which a comment before
//! each group names; for random scripts copied.rs follows the rules' words, and the Rust original sees that the copy has the same list and labels.
use crate::copied::{blanked, copied};
use crate::generate::{script, Random};
use crate::requests::{refused, Call};
use crate::{oracle, record};

/// Room for every copy.
const ROOM: u32 = 32768;

/// All recorded tidy copies.
pub fn copies(out: &mut Vec<Call>) {
    let mut tidy = |source: &str, room, text: String| {
        out.push(Call { number: 9, x: room, y: 0, source: source.as_bytes().to_vec(), text });
    };
    for (source, copy) in COPIES {
        assert!(copied(source.as_bytes()) == copy.as_bytes(), "{source:?}");
        let length = copy.len() as u32;
        // "a copy of the copy is itself"; room for it is enough, and a byte less is 18, with the length needed.
        for s in [source, copy] {
            tidy(s, ROOM, copy.to_string());
            tidy(s, length, copy.to_string());
            if length > 0 {
                tidy(s, length - 1, refused(18, copy.len()));
            }
        }
    }
    limits(&mut tidy);
    of_scripts(&mut tidy);
    // Bytes over 127, which no text of Rust's has alone.
    for (source, place) in [(&b"\x80"[..], 0), (b"x \xff", 2), (b"END\n\x80", 4)] {
        out.push(Call { number: 9, x: 0, y: 0, source: source.to_vec(), text: refused(2, place) });
    }
}

/// At a limit and one past it: 1, 2, 3, then 18, and never 4 to 6.
fn limits(tidy: &mut impl FnMut(&str, u32, String)) {
    let long = |n: usize| "x".repeat(n);
    tidy(&" ".repeat(32768), 0, String::new());
    tidy(&long(32768), ROOM, long(32768));
    tidy(&long(32768), ROOM - 1, refused(18, 32768));
    tidy(&long(32769), 0, refused(1, 32769));
    tidy(&(long(32768) + "\u{80}"), ROOM, refused(1, 32770));
    tidy("\u{7f}", u32::MAX, "\u{7f}".to_string());
    tidy(&("\n".repeat(4096) + "\u{80}"), 0, refused(2, 4096));
    tidy(&"\n".repeat(4095), 0, String::new());
    tidy(&"\n".repeat(4096), 0, refused(3, 4097));
    tidy(&"x\n".repeat(4095), 8189, "x\n".repeat(4094) + "x");
    tidy(&"x\n".repeat(4095), 8188, refused(18, 8189));
    tidy(&"x\n".repeat(4096), 0, refused(3, 4097));
    tidy("ORG  $40000000", ROOM, "ORG $40000000".to_string());
    let labels: Vec<String> = (0..257).map(|i| format!("L{i}:")).collect();
    tidy(&labels.join(" \n"), ROOM, labels.join("\n"));
}

/// Random scripts with more blanks than they come with.
fn of_scripts(tidy: &mut impl FnMut(&str, u32, String)) {
    let mut r = Random(20261117);
    let mut left = 400;
    while left > 0 {
        let plain = script(&mut r, 12);
        let source = blanked(&mut r, &plain);
        if record::too_high(&source, 0).is_some() {
            continue;
        }
        let copy = String::from_utf8(copied(source.as_bytes())).unwrap();
        assert_eq!(oracle::listed_with_labels(&copy), oracle::listed_with_labels(&source), "{source:?}");
        tidy(&source, source.len() as u32, copy);
        left -= 1;
    }
}

/// A source and its copy.
const COPIES: [(&str, &str); 34] = [
    // The rules: "All skipped: an empty copy."
    ("", ""),
    (" \n\n;x : y\n", ""),
    ("\t;", ""),
    // The rules: "Outer blanks go and blank runs become one space", "none at the end". And: "A lone tab becomes a space."
    ("NOP", "NOP"),
    ("\n\tNOP  x\t y \n", "NOP x y"),
    ("a\tb", "a b"),
    ("a\u{b}\u{c}\rb", "a b"),
    ("NOP\r\n NOP\r\n", "NOP\nNOP"),
    ("NOP\n\n;n\n RTS\n", "NOP\nRTS"),
    // The rules: "blanks inside the name before the first colon are kept and those around that colon go".
    ("x  y\t: NOP", "x  y:NOP"),
    (" x\ty : ", "x\ty:"),
    (" : ", ":"),
    ("x : : y", "x:: y"),
    // The rules: "The second colon is treated so only where the rest is data." And: judged on the rest; "A third colon is text."
    ("x : y  z : DC.L   5", "x:y  z:DC.L 5"),
    (":NOP  :", ":NOP :"),
    ("DC.:NOP :", "DC.:NOP :"),
    ("DC.L : NOP  :  5", "DC.L:NOP : 5"),
    ("x : y  z : DC  L   5", "x:y z : DC L 5"),
    ("x : y  z  ds.l   5", "x:y z ds.l 5"),
    ("x : DC.L  5  :  7", "x:DC.L  5:7"),
    ("DC.L  5 :  7", "DC.L  5:7"),
    ("x  y DC.L  5", "x y DC.L 5"),
    ("x: : : DC.L  5", "x::: DC.L 5"),
    ("x : y : z  : DC.L 5", "x:y:z : DC.L 5"),
    // The rules: "The END line is tidied like any other, whole; its colon, and an ORG line's, is not treated".
    ("ENDX  :  NOP", "ENDX : NOP"),
    ("NOP\nend \t x : y\nNOP", "NOP\nend x : y"),
    ("x : END  y\nNOP", "x:END y\nNOP"),
    ("ORG  5 : 6", "ORG 5 : 6"),
    ("orgx :  6", "orgx : 6"),
    // The rules: "Notes after an instruction stay."
    ("NOP ;  a", "NOP ; a"),
    ("x : ; n  m", "x:; n m"),
    ("a  b ; c : d", "a  b ; c:d"),
    ("x: DC.L 5 ;  see : y", "x:DC.L 5 ;  see:y"),
    // the stations' first example.
    (
        "ORG $1000\nLIM: DC.L 4160\nGO: MOVEQ #3,D1\nMOVE.L LIM,D2\nCMP.L #4160,D2\nBNE GO\nNOP\nEND",
        "ORG $1000\nLIM:DC.L 4160\nGO:MOVEQ #3,D1\nMOVE.L LIM,D2\nCMP.L #4160,D2\nBNE GO\nNOP\nEND",
    ),
];
