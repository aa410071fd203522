//! The label nearest to an address against the Rust original's own label map. The map has names and addresses; where
//! a name was recorded last is found by `records`.
use crate::generate::{script, Random};
use crate::library::{nearest, Nearest};
use crate::records::{base, last_records};
use crate::requests::address_near;
use crate::{oracle, record};
use std::collections::HashMap;

fn refused(number: u8, place: usize) -> Nearest {
    Nearest { number, place, start: 0, length: 0, distance: 0 }
}

/// The answer by the map; of the labels with the greatest address the one whose last record stands first.
fn by_map(map: &HashMap<String, u32>, records: &HashMap<&str, usize>, address: u32) -> Nearest {
    let Some(highest) = map.values().copied().filter(|a| *a <= address).max() else {
        return refused(12, 0);
    };
    let there = map.iter().filter(|l| *l.1 == highest).map(|l| l.0.as_str());
    let (start, name) = there.map(|n| (records[n], n)).min().expect("a label is there");
    Nearest { number: 0, place: 0, start, length: name.len(), distance: address - highest }
}

pub fn compare(sources: usize, seed: u64) {
    let mut r = Random(seed);
    let (mut calls, mut named, mut ties, mut refusals, mut differ) = (0usize, 0usize, 0usize, [0usize; 13], 0usize);
    for _ in 0..sources {
        let s = script(&mut r, 24);
        let base = base(&mut r);
        let early = if base >> 30 != 0 { Some((4, 0)) } else { record::too_high(&s, base).map(|line| (5, line as usize)) };
        let map = if early.is_some() { HashMap::new() } else { oracle::labels(&oracle::rebased(&s, base).unwrap()) };
        let records = last_records(&s);
        let mut same = early.is_some() || (records.len() == map.len() && map.keys().all(|n| records.contains_key(n.as_str())));
        for _ in 0..4 {
            let address = address_near(&mut r, base, &map);
            let wanted = early.map_or_else(|| by_map(&map, &records, address), |(n, p)| refused(n, p));
            let got = nearest(s.as_bytes(), base, address);
            calls += 1;
            same &= got == wanted;
            refusals[wanted.number as usize] += 1;
            if same && got.number == 0 {
                // By the map alone: the name that the answer shows is a label at that address.
                let name = &s[got.start..got.start + got.length];
                same &= map.get(name) == Some(&(address - got.distance));
                named += 1;
                ties += (map.values().filter(|a| **a == address - got.distance).count() > 1) as usize;
            }
        }
        if !same {
            differ += 1;
            eprintln!("differs: {s:?} at {base}");
        }
    }
    println!("{sources} sources, {calls} calls, {named} name a label, {ties} of them one of several at its address, {} refused 4, {} refused 5, {} refused 12, {differ} differ", refusals[4], refusals[5], refusals[12]);
}
