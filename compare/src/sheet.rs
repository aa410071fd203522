//! Totals of random series against the Rust original: words and marked words from its own lists, labels from its own label map,
//! refusals by probing it, and so (silence.rs) whether an instruction has a word. The other classes of lines are told by the line's text, as
//! the rules say them. The sheets of two parts of a series, joined, are that of the whole.
#[cfg(linked)]
use crate::generate::{script, Random};
#[cfg(linked)]
use crate::library::{sheet_add, sheet_join};
use crate::silence::Read;
use crate::{oracle, record};

/// Where the totals stand, in the order of the C interface.
const WORDED: usize = 4;
const WORDLESS: usize = 5;
const ENDED: usize = 6;
pub const WORDS: usize = 7;
pub const MARKED: usize = 8;
pub const LABELS: usize = 9;
pub const ACCEPTED: usize = 10;
pub const REFUSED: usize = 11;

/// The class of a line that stands before END, by its text; an instruction is `WORDLESS`, whether it has a word or not.
fn class(line: &str) -> usize {
    let line = line.trim();
    let upper = line.to_uppercase();
    if line.is_empty() || line.starts_with(';') {
        return 0;
    }
    if upper.starts_with("END") {
        return ENDED;
    }
    if upper.starts_with("ORG") {
        return 1;
    }
    let last = line.split_once(':').map_or(line, |parts| parts.1.trim());
    let upper = last.to_uppercase();
    if last.is_empty() {
        2
    } else if upper.contains("DC.") || upper.contains("DS.") {
        3
    } else {
        WORDLESS
    }
}

/// What a source adds.
pub fn count(source: &str, totals: &mut [u64; 12]) {
    let Ok(list) = record::answered(source, 0) else {
        totals[REFUSED] += 1;
        return;
    };
    let read = Read::new(source, 0);
    let mut ended = false;
    for (k, line) in source.split('\n').enumerate() {
        assert!(read.reads(k + 1) != ended, "what stands behind END is not read");
        let mut class = class(line);
        ended |= class == ENDED;
        if !ended && class == WORDLESS && read.place(k + 1).is_some() {
            class = WORDED;
        }
        totals[if ended { ENDED } else { class }] += 1;
    }
    totals[WORDS] += list.len() as u64;
    totals[MARKED] += list.iter().filter(|p| p.2 == 1).count() as u64;
    totals[LABELS] = totals[LABELS].max(oracle::labels(source).len() as u64);
    totals[ACCEPTED] += 1;
}

/// Totals that are handed in too high, and the refusal.
#[cfg(linked)]
fn over(r: &mut Random) -> ([u64; 12], (u8, usize)) {
    let mut t = [0; 12].map(|_: u64| r.next() % ((1 << 33) + 1));
    t[ACCEPTED] = r.next() % 1_000_000;
    t[REFUSED] = r.next() % (1_000_000 - t[ACCEPTED]);
    match r.below(3) {
        0 => t[ACCEPTED] = 1_000_000 - t[REFUSED],
        1 => t[ACCEPTED + r.below(2)] = 1 << 63,
        _ => {
            t[r.below(10)] = (1 << 33) + 1 + (r.next() >> 31);
            return (t, (21, 0));
        }
    }
    (t, (20, 1_000_000))
}

#[cfg(linked)]
pub fn compare(series: usize, seed: u64) {
    let mut r = Random(seed);
    let (mut sources, mut words, mut refused, mut stopped, mut differ) = (0usize, 0u64, 0u64, 0usize, 0usize);
    for _ in 0..series {
        let (mut got, mut wanted, mut parts) = ([0; 12], [0; 12], [[0; 12]; 2]);
        for _ in 0..r.below(9) {
            let s = script(&mut r, 24);
            count(&s, &mut wanted);
            let answer = sheet_add(s.as_bytes(), &mut got);
            sources += 1;
            if answer != (0, 0) || got != wanted {
                differ += 1;
                eprintln!("differs: {s:?}: {answer:?} {got:?}, not {wanted:?}");
                break;
            }
            sheet_add(s.as_bytes(), &mut parts[sources % 2]);
        }
        let [first, mut both] = parts;
        if sheet_join(&first, &mut both) != (0, 0) || both != got {
            differ += 1;
            eprintln!("joined: {parts:?}: {both:?}, not {got:?}");
        }
        words += got[WORDS];
        refused += got[REFUSED];
        if r.one_in(4) {
            let (t, refusal) = over(&mut r);
            let mut x = t;
            stopped += 1;
            let mut one = [0; 12];
            one[ACCEPTED] = 1;
            let (other, mut y) = (one, one);
            let answers = [sheet_add(script(&mut r, 4).as_bytes(), &mut x), sheet_join(&other, &mut x), sheet_join(&t, &mut y)];
            if answers != [refusal; 3] || x != t || y != other {
                differ += 1;
                eprintln!("not refused {refusal:?}: {t:?}: {answers:?}");
            }
        }
    }
    println!("{series} series, {sources} sources, {words} words, {refused} refused sources, {stopped} calls refused 20 or 21, {differ} differ");
}
