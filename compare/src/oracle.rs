//! The Rust original as the oracle: its list at base 0, and its list at any other base by rewriting the source.

// The original's messages, silenced: it is compiled unchanged, and this macro stands before the library's.
#[allow(unused_macros)]
macro_rules! println {
    ($($t:tt)*) => {{}};
}

use std::collections::HashMap;

include!(concat!(env!("OUT_DIR"), "/original.rs"));

/// What `Assembler::assemble` gives for the lines of a source.
pub fn rust(source: &str) -> Vec<(u32, u16)> {
    let lines: Vec<&str> = source.split('\n').collect();
    original::Assembler::new().assemble(&lines)
}

/// What the original makes of a source: its list, and its label map.
pub fn listed_with_labels(source: &str) -> (Vec<(u32, u16)>, HashMap<String, u32>) {
    let lines: Vec<&str> = source.split('\n').collect();
    let mut assembler = original::Assembler::new();
    let list = assembler.assemble(&lines);
    let mut printed = String::new();
    assembler.print_assembly_to_string(&mut printed);
    (list, printed_labels(&printed))
}

/// The label map that the original has made of a source.
pub fn labels(source: &str) -> HashMap<String, u32> {
    listed_with_labels(source).1
}

/// A label map as the original prints it itself: a line for each label, the address in hexadecimal after a colon. No name has a
/// colon or a line's end in it.
pub fn printed_labels(printed: &str) -> HashMap<String, u32> {
    let listed = printed.split_once("\n=== Labels ===\n").map_or("", |parts| parts.1);
    let label = |line: &str| {
        let (name, address) = line.rsplit_once(": ")?;
        Some((name.to_string(), u32::from_str_radix(address, 16).expect("an address")))
    };
    listed.split('\n').filter_map(label).collect()
}

/// The source with a first line `ORG base` and every ORG number raised by the base: what the original, which has
/// no base, must be given so that its list is the one at that base. None where a raised number leaves 32 bits.
pub fn rebased(source: &str, base: u32) -> Option<String> {
    let mut out = format!("ORG {base}");
    let mut reading = true;
    for line in source.split('\n') {
        out.push('\n');
        let t = line.trim();
        let u = t.to_uppercase();
        if reading && u.starts_with("END") {
            reading = false;
        }
        if reading && !t.starts_with(';') && u.starts_with("ORG") {
            if let Some(v) = org_number(t) {
                out.push_str(&format!("ORG {}", v.checked_add(base)?));
                continue;
            }
        }
        out.push_str(line);
    }
    Some(out)
}

/// The number of an ORG line, read as the original's `parse_org_directive` reads it.
fn org_number(line: &str) -> Option<u32> {
    let piece = line.split_whitespace().nth(1)?;
    if let Some(hex) = piece.strip_prefix('$').or_else(|| piece.strip_prefix("0x")) {
        u32::from_str_radix(hex, 16).ok()
    } else {
        piece.parse().ok()
    }
}

/// The list at a base with its marks: a word is a label's address exactly if it differs between two bases that are
/// not a multiple of 65,536 apart.
pub fn listed(source: &str, base: u32) -> Option<Vec<(u32, u16, u8)>> {
    let here = if base == 0 { rust(source) } else { rust(&rebased(source, base)?) };
    let there = rust(&rebased(source, base + 4097)?);
    if here.len() != there.len() {
        return None;
    }
    Some(here.iter().zip(&there).map(|(h, t)| (h.0, h.1, (h.1 != t.1) as u8)).collect())
}
