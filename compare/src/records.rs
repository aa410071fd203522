//! Where each name of a source was recorded last: a search apart from the Rattle code and from the Rust original. Whoever uses it
//! sees that it finds the names of the Rust's own label map and no other.
use crate::generate::Random;
use std::collections::HashMap;

/// The names that a line records, in their order: what stands before its first colon, and the label of data.
fn names(line: &str) -> Vec<&str> {
    let mut out = Vec::new();
    let mut rest = line;
    if let Some((name, behind)) = line.split_once(':') {
        out.push(name.trim_end());
        rest = behind.trim();
    }
    let upper = rest.to_uppercase();
    if upper.contains("DC.") || upper.contains("DS.") {
        let pieces: Vec<&str> = rest.split_whitespace().collect();
        let label = match rest.split_once(':') {
            Some((label, _)) => label.trim_end(),
            None if pieces.len() > 1 && !upper.starts_with("DC") && !upper.starts_with("DS") => pieces[0],
            None => "",
        };
        if !label.is_empty() {
            out.push(label);
        }
    }
    out
}

/// Where each name starts in the source that was recorded, the last time.
pub fn last_records(source: &str) -> HashMap<&str, usize> {
    let mut out = HashMap::new();
    for line in source.split('\n').map(str::trim).filter(|t| !t.is_empty() && !t.starts_with(';')) {
        let upper = line.to_uppercase();
        if upper.starts_with("END") {
            break;
        }
        if !upper.starts_with("ORG") {
            for name in names(line) {
                out.insert(name, name.as_ptr() as usize - source.as_ptr() as usize);
            }
        }
    }
    out
}

/// A base: mostly low, now and then at or past the limit.
pub fn base(r: &mut Random) -> u32 {
    match r.below(12) {
        0 => r.below(1 << 30) as u32,
        1 => (1 << 30) - 1 - r.below(3000) as u32,
        2 => (1 << 30) + r.below(3) as u32,
        3..=6 => r.below(200_000) as u32,
        _ => 0,
    }
}
