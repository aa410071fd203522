//! Sums in DC: random texts, good and damaged, against `./exact`, which has Python's own parser and whole numbers.
use crate::generate::Random;
use crate::library::{assemble, line_number, Slices};
use std::io::{BufRead, BufReader, Write};
use std::process::{Command, Stdio};

const NUMBERS: [&str; 16] = [
    "0", "1", "2", "3", "7", "10", "0010", "$A", "$10", "0x10", "0xFF", "65535", "65536", "4294967295", "4294967296", "$100000000",
];

/// A number: mostly small, so that many sums stay in range.
fn number(r: &mut Random, out: &mut String) {
    match r.below(5) {
        0 => out.push_str(&format!("{}", r.next() as u32 >> r.below(32))),
        1 => out.push_str(&format!("${:x}", r.below(600))),
        2 => out.push_str(r.pick(&NUMBERS)),
        _ => out.push_str(&format!("{}", r.below(40))),
    }
}

/// Items with operators between them, parentheses at most `depth` deep.
fn sum(r: &mut Random, depth: usize, out: &mut String) {
    let items = 1 + r.below(4);
    for i in 0..items {
        if i > 0 {
            out.push_str(r.pick(&["+", "+", "-", "*"]));
        }
        if depth > 0 && r.one_in(3) {
            out.push('(');
            sum(r, depth - 1, out);
            out.push(')');
        } else {
            number(r, out);
        }
    }
}

/// Parentheses around a sum, about as many as may nest.
fn nested(r: &mut Random) -> String {
    let (n, mut inner) = (14 + r.below(5), String::new());
    sum(r, 1, &mut inner);
    let behind = r.pick(&["", "+1", "*2", "-(1)"]);
    format!("[{}{inner}{}{behind}]", "(".repeat(n), ")".repeat(n))
}

/// A few bytes changed, taken out or put in: no blank and no colon, which would cut the piece or the line.
fn damaged(r: &mut Random, text: &str) -> String {
    let mut bytes = text.as_bytes().to_vec();
    for _ in 0..1 + r.below(3) {
        let byte = if r.one_in(3) { 33 + r.below(94) as u8 } else { b"[]()+-*$x0129Fg"[r.below(15)] };
        let at = r.below(bytes.len() + 1);
        match r.below(3) {
            0 if at < bytes.len() => bytes[at] = byte,
            1 if at < bytes.len() => {
                bytes.remove(at);
            }
            _ => bytes.insert(at, byte),
        }
    }
    bytes.retain(|b| *b != b':');
    String::from_utf8(bytes).unwrap()
}

/// A text whose first byte is `[`.
fn text(r: &mut Random) -> String {
    let mut out = String::from("[");
    if r.one_in(12) {
        out = nested(r);
    } else {
        let depth = r.below(5);
        sum(r, depth, &mut out);
        out.push(']');
    }
    if r.one_in(3) {
        out = damaged(r, &out);
    }
    if out.starts_with('[') { out } else { String::from("[") + &out }
}

/// What our two calls say of a text: the line's number, and that the list has the value's two words, or no word.
fn ours(text: &str, x: &mut Slices) -> String {
    let line = format!("X: DC.L {text}");
    let (number, value) = line_number(line.as_bytes());
    let said = match number {
        0 => format!("read {value}"),
        2 => "bad digit".to_string(),
        3 => "out of range".to_string(),
        n => format!("answer {n}"),
    };
    let answer = assemble(line.as_bytes(), 0, x);
    let words = [(0, (value >> 16) as u16, 0), (2, value as u16, 0)];
    let listed = if number == 0 { answer == (0, 2) && x.list(2) == words } else { answer == (0, 0) };
    if listed { said } else { format!("{said}, but its list is not so: {answer:?}") }
}

pub fn compare(texts: usize, seed: u64) {
    let mut r = Random(seed);
    let asked: Vec<String> = (0..texts).map(|_| text(&mut r)).collect();
    let mut exact = Command::new("./exact").stdin(Stdio::piped()).stdout(Stdio::piped()).spawn().expect("./exact");
    let mut to = exact.stdin.take().unwrap();
    let lines = asked.join("\n") + "\n";
    let writer = std::thread::spawn(move || to.write_all(lines.as_bytes()).expect("./exact reads"));
    let mut x = Slices::old([8192; 3]);
    let (mut read, mut bad, mut far, mut differ, mut answers) = (0usize, 0usize, 0usize, 0usize, 0usize);
    for (text, wanted) in asked.iter().zip(BufReader::new(exact.stdout.take().unwrap()).lines()) {
        let wanted = wanted.expect("./exact answers");
        answers += 1;
        match wanted.as_str() {
            "bad digit" => bad += 1,
            "out of range" => far += 1,
            _ => read += 1,
        }
        let got = ours(text, &mut x);
        if got != wanted {
            differ += 1;
            eprintln!("differs: {text:?}: {got}, not {wanted}");
        }
    }
    writer.join().unwrap();
    exact.wait().expect("./exact ends");
    println!("{answers} of {texts} texts answered: {read} read, {bad} bad digit, {far} out of range; {differ} differ");
}
