//! Recorded calls on sums: what a line's number says (call 4), and that the other calls read sums too. Each answer is written out
//! from the words of docs/LANGUAGE.md.
use crate::reasons::PHRASES;
use crate::requests::Call;

/// All recorded calls on sums.
pub fn sums(out: &mut Vec<Call>) {
    let mut say = |text: &str, said: &str| {
        for line in [format!("DC.L {text}"), format!("  X: dc.b {text} ; a note")] {
            out.push(Call { number: 4, x: 0, y: 0, source: line.into_bytes(), text: format!("{said}\n") });
        }
    };
    for (text, said) in SUMS {
        say(text, said);
    }
    for (depth, said) in [(15, "read 1"), (16, "read 1"), (17, "bad digit"), (18, "bad digit")] {
        let around = |inner: &str| format!("[{}{inner}{}]", "(".repeat(depth), ")".repeat(depth));
        say(&around("1"), said);
        // Depth counts what is open: parentheses side by side do not nest.
        say(&around("(0)+1").replacen('(', "", 1).replacen("))", ")", 1), said);
    }
    say(&format!("[{}0]", "(1)+".repeat(40)), "read 40");
    let mut say_line = |line: &str, said: &str| {
        out.push(Call { number: 4, x: 0, y: 0, source: line.as_bytes().to_vec(), text: format!("{said}\n") });
    };
    for (line, said) in SUM_LINES {
        say_line(line, said);
    }
    // As long as a source: chained and nested, and not closed.
    for (item, value) in [("1+2*3-", 5), ("((((((((((((((((1))))))))))))))))+", 1)] {
        let items = (32_768 - 8) / item.len();
        let line = format!("DC.L [{}1", item.repeat(items));
        say_line(&(line.clone() + "]"), &format!("read {}", 1 + value * items));
        say_line(&line, "bad digit");
    }
    for (number, x, y, source, text) in ELSEWHERE {
        out.push(Call { number, x, y, source: source.as_bytes().to_vec(), text: format!("{text}\n") });
    }
}

/// The rules' words and examples: a text in DC, and what it says.
const SUMS: [(&str, &str); 75] = [
    ("[2+3*4]", "read 14"),
    ("[(2+3)*4]", "read 20"),
    ("[7-2-1]", "read 4"),
    ("[1-2+3]", "out of range"),
    // Equal rank from the left; `*` first; parentheses.
    ("[7-2+1]", "read 6"),
    ("[7-(2+1)]", "read 4"),
    ("[7-(2-1)]", "read 6"),
    ("[2*3*4]", "read 24"),
    ("[2*3+4]", "read 10"),
    ("[20-2*3-4*2]", "read 6"),
    ("[2*(3+4)*5]", "read 70"),
    ("[((2))+(3)]", "read 5"),
    ("[(1)]", "read 1"),
    ("[5]", "read 5"),
    ("[0]", "read 0"),
    ("[3-3]", "read 0"),
    // Numbers as in DC, without a sign.
    ("[0x10*$2]", "read 32"),
    ("[$fF+0xFf]", "read 510"),
    ("[0010+$0A]", "read 20"),
    ("[+1]", "bad digit"),
    ("[-1]", "bad digit"),
    ("[1+-1]", "bad digit"),
    ("[1++1]", "bad digit"),
    ("[2*-3]", "bad digit"),
    ("[$+1]", "bad digit"),
    ("[0x-1]", "bad digit"),
    ("[10x1]", "bad digit"),
    ("[0X1]", "bad digit"),
    ("[3O]", "bad digit"),
    ("[1A]", "bad digit"),
    ("[#5]", "bad digit"),
    ("[X]", "bad digit"),
    ("[D0]", "bad digit"),
    // Malformed; never no digits.
    ("[", "bad digit"),
    ("[]", "bad digit"),
    ("[$]", "bad digit"),
    ("[0x]", "bad digit"),
    ("[()]", "bad digit"),
    ("[1+]", "bad digit"),
    ("[*1]", "bad digit"),
    ("[1*]", "bad digit"),
    ("[1**2]", "bad digit"),
    ("[(1]", "bad digit"),
    ("[1)]", "bad digit"),
    ("[(1]+2)", "bad digit"),
    ("[1", "bad digit"),
    ("[1]]", "bad digit"),
    ("[[1]]", "bad digit"),
    ("[[1]+2]", "bad digit"),
    ("[1][2]", "bad digit"),
    ("[1]+2", "bad digit"),
    ("[1],2", "bad digit"),
    ("[1,2]", "bad digit"),
    ("[2(3)]", "bad digit"),
    ("[(2)3]", "bad digit"),
    ("[(2)(3)]", "bad digit"),
    ("[1/2]", "bad digit"),
    ("[1.5]", "bad digit"),
    ("[1_0]", "bad digit"),
    // A number or a step out of range, whatever follows.
    ("[4294967295]", "read 4294967295"),
    ("[4294967296]", "out of range"),
    ("[4294967296-1]", "out of range"),
    ("[$100000000*0]", "out of range"),
    ("[4294967294+1]", "read 4294967295"),
    ("[4294967295+1]", "out of range"),
    ("[4294967295+1-1]", "out of range"),
    ("[65535*65537]", "read 4294967295"),
    ("[65536*65536]", "out of range"),
    ("[4294967295*4294967295]", "out of range"),
    ("[0*(1-2)]", "out of range"),
    ("[0-1+1]", "out of range"),
    ("[99999999999999999999999999-99999999999999999999999999]", "out of range"),
    // A bad digit, however late, comes first.
    ("[1-2]x", "bad digit"),
    ("[1-2+x]", "bad digit"),
    ("[4294967296+(]", "bad digit"),
];

/// Sums stand in DC only; a blank cuts the piece, a colon the line.
const SUM_LINES: [(&str, &str); 10] = [
    ("DC.L [1 +2]", "bad digit"),
    ("DC.L [1+2] 3", "read 3"),
    ("X DC.W [2*3]", "read 6"),
    ("X: DC.L [1:2]", "no digits"),
    ("DC.L X [1]", "bad digit"),
    ("ORG [2]", "bad digit"),
    ("ORG [", "bad digit"),
    ("DS.L [5]", "no number"),
    ("MOVEQ #[5],D0", "no number"),
    ("X: ; DC.L [4]", "read 4"),
];

/// A sum in the calls of the nearest label, the labels, the verdicts and the manual, with the two numbers that each takes.
const ELSEWHERE: [(u8, u32, u32, &str, &str); 9] = [
    (2, 0, 5, "DC.L [2+3*4]\nX: NOP", "13 1 1"),
    (3, 0, 0, "DC.L [2+3*4]\nX: DC.W [1-2]\nY: NOP", "X 00000004 2\nY 00000006 3"),
    // A DC line with a value has words; one without is no instruction; an immediate is no sum.
    (5, 0, 1, "DC.L [2+3*4]", PHRASES[0]),
    (5, 0, 1, "DC.L [1-2+3]", PHRASES[1]),
    (5, 0, 1, "DC.L [2+3", PHRASES[1]),
    (5, 0, 1, "MOVEQ #[5],D0", PHRASES[6]),
    (6, 0, 0, "LIM: DC.L [2+3*4]\nMOVE.L LIM,D0", "00000000 0000 0\n00000002 000E 0\n00000004 2039 0\n00000006 0000 2\n00000008 0000 3"),
    (6, 0x2000, 0, "DC.B [65536*2+1]\nNOP", "00002000 0002 0\n00002002 0001 0\n00002001 4E71 0"),
    (6, 0, 0, "DC.W [1-2+3]\nNOP", "00000002 4E71 0"),
];
