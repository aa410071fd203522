//! Lists at base 0 against the Rust original: every address and word, the marks that two of its lists show, and
//! refusal 5 by probing it.
use crate::generate::{script, Random};
use crate::library::{assemble, Slices};
use crate::{oracle, record};

pub fn compare(sources: usize, seed: u64) {
    let mut r = Random(seed);
    let (mut words, mut marks, mut refused, mut differ) = (0usize, 0usize, 0usize, 0usize);
    let mut x = Slices::old([8192; 3]);
    for _ in 0..sources {
        let s = script(&mut r, 24);
        let (number, place) = assemble(s.as_bytes(), 0, &mut x);
        let same = if number == 0 {
            let list = x.list(place);
            words += list.len();
            marks += list.iter().filter(|p| p.2 == 1).count();
            oracle::listed(&s, 0) == Some(list)
        } else {
            refused += 1;
            record::answered(&s, 0) == Err((number, place as u32))
        };
        if !same {
            differ += 1;
            eprintln!("differs: {s:?}");
        }
    }
    println!("{sources} sources, {words} words, {marks} marks, {refused} refused, {differ} differ");
}
