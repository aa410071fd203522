//! The symbols of a source against the Rust original's own label map: every name with its address, once and no other. Lines and
//! the order have no witness in the Rust; they are held against where `records` finds each name's last record.
use crate::generate::{script, Random};
use crate::library::{symbols, Rows};
use crate::records::{base, last_records};
use crate::{oracle, record};

/// A row as it must be: start, length, address and line.
type Row = (u32, u32, u32, u32);

/// The rows by the map, in the order of the last records. None if the search finds other names than the map has.
fn by_map(source: &str, base: u32) -> Option<Vec<Row>> {
    let map = oracle::labels(&oracle::rebased(source, base)?);
    let records = last_records(source);
    if records.len() != map.len() {
        return None;
    }
    let mut rows = Vec::new();
    for (name, address) in &map {
        let start = *records.get(name.as_str())?;
        let line = 1 + source[..start].matches('\n').count();
        rows.push((start as u32, name.len() as u32, *address, line as u32));
    }
    rows.sort();
    Some(rows)
}

pub fn compare(sources: usize, seed: u64) {
    let mut r = Random(seed);
    let (mut listed, mut refused, mut short, mut differ) = (0usize, 0usize, 0usize, 0usize);
    for _ in 0..sources {
        let s = script(&mut r, 24);
        let base = base(&mut r);
        let early = if base >> 30 != 0 { Some((4, 0)) } else { record::too_high(&s, base).map(|line| (5, line as usize)) };
        let wanted = if early.is_some() { Some(Vec::new()) } else { by_map(&s, base) };
        let count = wanted.as_ref().map_or(0, Vec::len);
        // Slices that are just long enough, longer, or one of them too short.
        let mut lengths = [0; 4].map(|_: usize| count + r.below(3));
        if count > 0 && r.one_in(4) {
            lengths[r.below(4)] = r.below(count);
        }
        let mut x = Rows::old(lengths);
        let old = x.clone();
        let got = symbols(s.as_bytes(), base, &mut x);
        let same = if let Some(refusal) = early {
            refused += 1;
            got == refusal && x == old
        } else if lengths.iter().any(|n| *n < count) {
            short += 1;
            got == (7, count) && x == old
        } else {
            listed += count;
            got == (0, count) && Some(x.rows(count)) == wanted && x.past(count) == old.past(count)
        };
        if !same {
            differ += 1;
            eprintln!("differs: {s:?} at {base}");
        }
    }
    println!("{sources} sources, {listed} symbols, {refused} refused 4 or 5, {short} refused 7, {differ} differ");
}
