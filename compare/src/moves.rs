//! Moves: the moved list for b against the list for c, and chains of moves against the tally, written here anew; lists with pairs too.
use crate::generate::{script, Random};
use crate::library::{assemble, relocate, Slices};

const LIMIT: i64 = 1 << 30;

/// The tally's answer to a distance: refusal 8 or 11, or 0 and the count.
fn tally(list: &[(u32, u16, u8)], total: i64, distance: i32) -> (u8, usize) {
    if (distance as i64).abs() >= LIMIT {
        return (8, 0);
    }
    for (i, p) in list.iter().enumerate() {
        let moved = p.0 as i64 + total + distance as i64;
        if moved < 0 || moved > LIMIT + 1 {
            return (11, i);
        }
    }
    (0, list.len())
}

/// The first list at a total: a word with mark 1 by itself, marks 2 and 3 as one number.
fn at_total(list: &[(u32, u16, u8)], total: i64) -> Vec<(u32, u16, u8)> {
    let mut moved: Vec<_> = list.iter().map(|p| ((p.0 as i64 + total) as u32, p.1, p.2)).collect();
    for (i, p) in list.iter().enumerate() {
        if p.2 == 1 {
            moved[i].1 = (p.1 as i64 + total).rem_euclid(1 << 16) as u16;
        }
        if p.2 == 2 {
            let number = ((p.1 as i64) << 16) + list[i + 1].1 as i64;
            let sum = (number + total).rem_euclid(1 << 32);
            moved[i].1 = (sum >> 16) as u16;
            moved[i + 1].1 = sum as u16;
        }
    }
    moved
}

/// The first of the marks that is over 3, a 2 without its 3 or a 3 without its 2.
fn bad_mark(marks: &[u8]) -> Option<usize> {
    (0..marks.len()).find(|&i| match marks[i] {
        0 | 1 => false,
        2 => marks.get(i + 1) != Some(&3),
        3 => i == 0 || marks[i - 1] != 2,
        _ => true,
    })
}

fn base(r: &mut Random) -> u32 {
    match r.below(4) {
        0 => r.below(1 << 30) as u32,
        1 => (1 << 30) - 1 - r.below(3000) as u32,
        _ => r.below(200_000) as u32,
    }
}

fn distance(r: &mut Random) -> i32 {
    match r.below(6) {
        0 => r.next() as i32,
        1 => [i32::MIN, i32::MAX, 1 << 30, -(1 << 30), (1 << 30) - 1, 1 - (1 << 30)][r.below(6)],
        2 => r.below(1 << 30) as i32,
        3 => -(r.below(1 << 30) as i32),
        _ => r.below(20_000) as i32 - 10_000,
    }
}

/// A damaged call: a count or a mark that is refused, with the answer it must get.
fn damaged(r: &mut Random, x: &Slices, count: usize) -> bool {
    let mut y = x.clone();
    let short = r.below(3);
    let (count, answer) = if count > 0 && r.one_in(2) {
        let i = r.below(count);
        y.marks[i] = 2 + r.below(254) as u8;
        (count, (10, i))
    } else {
        let n = count + 1 + r.below(3);
        match short {
            0 => y.addresses.truncate(count),
            1 => y.words.truncate(count),
            _ => y.marks.truncate(count),
        }
        (n, (9, n))
    };
    let before = y.clone();
    let d = r.below(20_000) as i32 - 10_000;
    relocate(&mut y, count, d) == answer && y == before
}

/// Slices of lengths around the count, each one short to two long: refusal 9 if any is short, else a move as ever.
fn around(r: &mut Random, x: &Slices, count: usize) -> bool {
    let mut length = || (count + r.below(4)).saturating_sub(1);
    let (a, w, m) = (length(), length(), length());
    let mut y = Slices { addresses: x.addresses[..a].to_vec(), words: x.words[..w].to_vec(), marks: x.marks[..m].to_vec() };
    let before = y.clone();
    let d = r.below(20_000) as i32 - 10_000;
    let got = relocate(&mut y, count, d);
    if a.min(w).min(m) < count {
        return got == (9, count) && y == before;
    }
    let list = before.list(count);
    let wanted = tally(&list, 0, d);
    let moved = at_total(&list, if wanted.0 == 0 { d as i64 } else { 0 });
    let past = y.addresses[count..] == before.addresses[count..] && y.words[count..] == before.words[count..];
    got == wanted && y.list(count) == moved && past && y.marks == before.marks
}

/// A list with pairs, in slices that go on after it: for the most part well paired, else with any marks up to 4.
fn paired(r: &mut Random) -> (Slices, usize) {
    let length = r.below(24);
    let mut marks = Vec::new();
    let any = r.one_in(3);
    while marks.len() < length {
        match r.below(if any { 8 } else { 4 }) {
            0 => marks.push(0),
            1 => marks.push(1),
            n @ 4..=7 => marks.push(n as u8 - 3),
            _ => marks.extend([2, 3]),
        }
    }
    let low = r.below(200_000);
    let word = |r: &mut Random| [0, 1, 0x7FFF, 0xFFFE, 0xFFFF, r.next() as u16][r.below(6)];
    let count = if r.one_in(4) { r.below(marks.len() + 1) } else { marks.len() };
    let addresses = (0..marks.len()).map(|i| (low + 2 * i) as u32).collect();
    let words = (0..marks.len()).map(|_| word(r)).collect();
    (Slices { addresses, words, marks }, count)
}

/// Moves of such a list, one after another; whether all went as the tally says, how many there were, and how many of them 10 refused.
fn move_pairs(r: &mut Random) -> (bool, usize, usize) {
    let (mut y, count) = paired(r);
    let first = y.list(count);
    let bad = bad_mark(&y.marks[..count]);
    let (mut same, mut moves, mut broken, mut total) = (true, 0, 0, 0i64);
    for _ in 0..1 + r.below(5) {
        let d = distance(r);
        let wanted = match (tally(&first, total, d), bad) {
            ((8, _), _) => (8, 0),
            (_, Some(i)) => (10, i),
            (answer, None) => answer,
        };
        let before = y.clone();
        same &= relocate(&mut y, count, d) == wanted;
        moves += 1;
        broken += (wanted.0 == 10) as usize;
        if wanted.0 == 0 {
            total += d as i64;
            same &= y.list(count) == at_total(&first, total);
            same &= y.addresses[count..] == before.addresses[count..] && y.words[count..] == before.words[count..] && y.marks == before.marks;
        } else {
            same &= y == before;
        }
    }
    (same, moves, broken)
}

pub fn compare(sources: usize, seed: u64) {
    let mut r = Random(seed);
    let (mut pair_moves, mut broken, mut pairs_differ) = (0usize, 0usize, 0usize);
    for _ in 0..sources {
        let (same, moves, refused) = move_pairs(&mut r);
        pair_moves += moves;
        broken += refused;
        pairs_differ += !same as usize;
    }
    println!("{sources} lists with pairs, {pair_moves} moves, {broken} of them refused by 10, {pairs_differ} lists differ");
    let (mut pairs, mut moves, mut refused, mut damages, mut differ) = (0usize, 0usize, 0usize, 0usize, 0usize);
    for _ in 0..sources {
        let s = script(&mut r, 16);
        let (b, c) = (base(&mut r), base(&mut r));
        let mut xb = Slices::old([40 + r.below(3), 40 + r.below(3), 40 + r.below(3)]);
        let mut xc = Slices::old([40; 3]);
        let (nb, count) = assemble(s.as_bytes(), b, &mut xb);
        let (nc, other) = assemble(s.as_bytes(), c, &mut xc);
        if nb != 0 {
            continue;
        }
        let first = xb.list(count);
        let mut same = true;
        if nc == 0 {
            let mut y = xb.clone();
            pairs += 1;
            moves += 1;
            same &= relocate(&mut y, count, (c as i64 - b as i64) as i32) == (0, count);
            same &= y.list(count) == xc.list(other) && count == other;
            same &= y.addresses[count..] == xb.addresses[count..] && y.words[count..] == xb.words[count..];
        }
        let (mut y, mut total) = (xb.clone(), 0i64);
        for _ in 0..r.below(6) {
            let d = distance(&mut r);
            let wanted = tally(&first, total, d);
            let before = y.clone();
            let got = relocate(&mut y, count, d);
            moves += 1;
            same &= got == wanted;
            if wanted.0 == 0 {
                total += d as i64;
            } else {
                refused += 1;
                same &= y == before;
            }
            same &= y.list(count) == at_total(&first, total);
        }
        damages += 2;
        same &= damaged(&mut r, &xb, count) && around(&mut r, &xb, count);
        if !same {
            differ += 1;
            eprintln!("differs: {s:?} at {b} and {c}");
        }
    }
    println!("{sources} sources, {pairs} moved between bases, {moves} moves, {refused} of them refused, {damages} calls with damaged marks, counts or lengths around the count, {differ} differ");
}
