//! The manual's call against GNU as: random scripts of its forms, assembled by GNU as and linked by GNU ld at two bases. Every word of
//! our list is held against the image at its base, our moved list against the image at the other; the forms that are equal to the
//! manual's go through the stations' call as well.
use crate::generate::Random;
use crate::gnu::{script, words, Forms, Gnu};
use crate::library::{assemble, assemble_manual, relocate, Answer, Slices};

const PLACES: usize = 12_288;

/// Whether a list is the image at a base: each word stands there, and there are as many words as the image has.
fn is_image(list: &[(u32, u16, u8)], image: &[u8], base: u32) -> bool {
    let words = words(image);
    list.len() == words.len() && list.iter().all(|p| p.0 >= base && words.get(((p.0 - base) / 2) as usize) == Some(&p.1))
}

/// Refusal 7 where the k-th slice is one short of the count, with nothing written.
fn refuses_short(call: Call, ours: &[u8], base: u32, count: usize, k: usize) -> bool {
    let mut lengths = [count; 3];
    lengths[k] -= 1;
    let mut x = Slices::old(lengths);
    call(ours, base, &mut x) == (7, count) && x == Slices::old(lengths)
}

/// One call's list against the images: at both bases, and moved from the one to the other.
fn agrees(call: Call, ours: &[u8], bases: [u32; 2], images: &[Vec<u8>; 2]) -> Option<usize> {
    let mut lists = bases.map(|base| {
        let mut x = Slices::old([PLACES; 3]);
        let answer = call(ours, base, &mut x);
        (answer, x)
    });
    let count = lists[0].0 .1;
    if lists.iter().any(|l| l.0 .0 != 0) || lists[1].0 .1 != count {
        return None;
    }
    if !(0..2).all(|k| is_image(&lists[k].1.list(count), &images[k], bases[k])) {
        return None;
    }
    if !(0..3).all(|k| refuses_short(call, ours, bases[0], count, k)) {
        return None;
    }
    let distance = (bases[1] as i64 - bases[0] as i64) as i32;
    let moved = relocate(&mut lists[0].1, count, distance);
    (moved == (0, count) && lists[0].1 == lists[1].1).then_some(count)
}

type Call = fn(&[u8], u32, &mut Slices) -> Answer;

/// The words of a script that every call has as the images have them; none, and the script shown, where one differs.
fn tried(r: &mut Random, gnu: &Gnu, forms: Forms, calls: &[Call]) -> Option<usize> {
    let (ours, theirs) = script(r, forms);
    let bases = [4 * r.below(1 << 27) as u32, 4 * r.below(1 << 14) as u32];
    let images = gnu.images(&theirs, bases);
    let counts: Option<Vec<usize>> = calls.iter().map(|&call| agrees(call, ours.trim_end().as_bytes(), bases, &images)).collect();
    if counts.is_none() {
        println!("differs at {bases:x?}:\n{ours}");
    }
    counts.map(|n| n[0])
}

pub fn compare(count: usize, seed: u64) {
    let mut r = Random(seed);
    let gnu = Gnu::new();
    let (mut words, mut listed, mut differ) = (0, 0, 0);
    for _ in 0..count {
        match tried(&mut r, &gnu, Forms::All, &[assemble_manual]) {
            Some(n) => words += n,
            None => differ += 1,
        }
        match tried(&mut r, &gnu, Forms::Listed, &[assemble, assemble_manual]) {
            Some(n) => listed += n,
            None => differ += 1,
        }
    }
    println!("{count} scripts of the manual's forms, {words} words by its call; {count} of the forms equal to the manual, {listed} words by both");
    println!("each at two bases, and moved from the one to the other; {differ} differ");
}
