//! Why an instruction has no word, by the rules written anew: over the mnemonic and the operands that the Rust original
//! reads in it, its label map and the instruction's address there.
use crate::heard::Instruction;
use std::collections::HashMap;

/// The verdicts, in its order; a number with what failed in it.
pub const PHRASES: [&str; 10] = [
    "word emitted",
    "not an instruction",
    "unknown mnemonic",
    "wrong operand count",
    "operand kinds",
    "number: no digits",
    "number: bad digit",
    "number: out of range",
    "label not recorded",
    "displacement out of range",
];

/// The kind of an operand by its text: `#`, `d` Dn, `a` An, `i` (An), `t` other text.
fn kind(operand: &str) -> char {
    match operand.as_bytes() {
        [b'#', ..] => '#',
        [b'D', b'0'..=b'7'] => 'd',
        [b'A', b'0'..=b'7'] => 'a',
        [b'(', b'A', b'0'..=b'7', b')'] => 'i',
        _ => 't',
    }
}

/// The forms of a mnemonic, each by the kinds of its operands. A branch is judged by its first operand.
fn forms(mnemonic: &str) -> &'static [&'static str] {
    match mnemonic {
        "MOVE" => &["#d", "id", "di", "dd", "td", "dt"],
        "MOVEA" => &["#a"],
        "MULS" | "CMP" => &["#d", "dd"],
        "ADD" | "SUB" => &["dd"],
        "MOVEQ" | "SUBQ" | "ASL" => &["#d"],
        "DBRA" => &["dt"],
        "TST" => &["d"],
        "JMP" | "JUMP" => &["t"],
        "NOP" | "SIMHALT" => &[""],
        _ => &["t"],
    }
}

/// What fails in a number of so many bits: nothing, or its place in PHRASES. The bounds are what a value is below, and a negative
/// one's amount at most, none where no − is allowed.
fn failure(text: &str, prefixes: bool, below: u64, down: Option<u64>) -> Option<u8> {
    let hexadecimal = text.strip_prefix('$').or_else(|| text.strip_prefix("0x")).filter(|_| prefixes);
    let (radix, rest) = hexadecimal.map_or((10, text), |rest| (16, rest));
    let negative = down.is_some() && rest.starts_with('-');
    let digits = if negative { &rest[1..] } else { rest.strip_prefix('+').unwrap_or(rest) };
    if digits.is_empty() {
        return Some(5);
    }
    if !digits.chars().all(|c| c.is_digit(radix)) {
        return Some(6);
    }
    let worth = digits.chars().fold(0u64, |n, c| (n * radix as u64 + c.to_digit(radix).unwrap() as u64).min(1 << 40));
    let fits = if negative { worth <= down.unwrap() } else { worth < below };
    (!fits).then_some(7)
}

/// What fails in the number of an operand, if it is one.
fn number(mnemonic: &str, kind: char, operand: &str) -> Option<u8> {
    let digits_only = || operand.bytes().all(|b| b.is_ascii_digit());
    match (mnemonic, kind) {
        ("MOVE" | "MULS" | "CMP", '#') => failure(&operand[1..], true, 65536, None),
        ("MOVEQ" | "SUBQ" | "ASL", '#') => failure(&operand[1..], true, 128, Some(128)),
        ("JMP" | "JUMP", 't') if operand.starts_with('$') || operand.starts_with("0x") || digits_only() => {
            failure(operand, true, 65536, None)
        }
        ("MOVE" | "JMP" | "JUMP", _) => None,
        (_, 't') if operand.starts_with(['+', '-']) => failure(operand, false, 128, Some(128)),
        _ => None,
    }
}

/// The first reason that holds for an instruction that has no word, its place in PHRASES; 0 if none does.
pub fn first_reason(instruction: &Instruction, address: u32, labels: &HashMap<String, u32>) -> u8 {
    let (m, operands) = (instruction.mnemonic.as_str(), &instruction.operands);
    if !instruction.known {
        return 2;
    }
    let forms = forms(m);
    let count = forms[0].len();
    let branch = m.starts_with('B');
    if if branch { operands.is_empty() } else { count > 0 && operands.len() != count } {
        return 3;
    }
    let judged = &operands[..count];
    let kinds: String = judged.iter().map(|o| kind(o)).collect();
    if !forms.contains(&kinds.as_str()) {
        return 4;
    }
    let mut numbers = judged.iter().zip(kinds.chars()).filter_map(|(o, k)| number(m, k, o));
    if let Some(failed) = numbers.next() {
        return failed;
    }
    // The name that the form takes: all after MOVEA's `#`, or its other text.
    let name = match m {
        "MOVEA" => Some(&judged[0][1..]),
        _ => kinds.find('t').map(|i| judged[i].as_str()),
    };
    match name.map(|n| labels.get(n)) {
        None => 0,
        Some(None) => 8,
        Some(Some(label)) if branch || m == "DBRA" => {
            let displacement = *label as i64 - (address as i64 + 2);
            if (-128..=127).contains(&displacement) { 0 } else { 9 }
        }
        Some(Some(_)) => 0,
    }
}
