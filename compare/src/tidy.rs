//! Tidy copies through the static library, byte for byte against copied.rs, which follows the rules' words by itself; the copy's list and
//! labels by the Rust original are the source's, at a base too, and both assembling calls of the library answer them alike.
use crate::copied::{blanked, copied};
use crate::generate::{script, Random};
use crate::library::{assemble, assemble_manual, tidy, Answer, Slices};
use crate::oracle;
use crate::record::too_high;
use crate::records::base;

/// What every byte of a lent slice holds before a call.
const OLD: u8 = 0xAA;

/// A source's bytes: now and then with a byte over 127, or about as long, or of as many lines, as it may be.
fn source(r: &mut Random, script: &str) -> Vec<u8> {
    let mut s = script.as_bytes().to_vec();
    match r.below(400) {
        0..=9 => s.insert(r.below(s.len() + 1), 128 + r.below(128) as u8),
        10 => s.splice(0..0, vec![b' '; 32768 + r.below(3) - 1 - s.len()]).for_each(drop),
        11 => s.extend(vec![b'\n'; 4095 + r.below(3) - 1 - script.matches('\n').count()]),
        _ => {}
    }
    s
}

/// The refusal of a source by itself, 1 to 3.
fn refusal(s: &[u8]) -> Option<Answer> {
    let lines = 1 + s.iter().filter(|b| **b == 10).count();
    if s.len() > 32768 {
        return Some((1, s.len()));
    }
    s.iter().position(|b| *b > 127).map(|i| (2, i)).or((lines > 4096).then_some((3, lines)))
}

/// What a call must answer with so much room, and what it must leave in the slice.
fn wanted(s: &[u8], copy: &[u8], room: usize) -> (Answer, Vec<u8>) {
    let mut out = vec![OLD; room];
    let answer = match refusal(s) {
        Some(refused) => refused,
        None if room < copy.len() => (18, copy.len()),
        None => {
            out[..copy.len()].copy_from_slice(copy);
            (0, copy.len())
        }
    };
    (answer, out)
}

/// What an assembling call of the library makes of a source: its list, if it is accepted.
fn list(call: impl Fn(&[u8], u32, &mut Slices) -> Answer, s: &[u8], base: u32) -> Option<Vec<(u32, u16, u8)>> {
    let mut x = Slices::old([512; 3]);
    let (number, count) = call(s, base, &mut x);
    (number == 0).then(|| x.list(count))
}

/// The copy's list and labels are those of the source, by the Rust original; and its lists by the library's two calls.
fn same_lists(s: &str, copy: &str, base: u32) -> bool {
    let by_rust = |t: &str| oracle::rebased(t, base).map(|t| oracle::listed_with_labels(&t));
    let kept = |of: &dyn Fn(&str) -> Option<Vec<(u32, u16, u8)>>| of(s).is_none() || of(copy) == of(s);
    by_rust(copy) == by_rust(s)
        && kept(&|t| list(assemble, t.as_bytes(), base))
        && kept(&|t| list(assemble_manual, t.as_bytes(), base))
}

pub fn compare(sources: usize, seed: u64) {
    let mut r = Random(seed);
    let (mut copies, mut short, mut refused, mut lists, mut differ) = (0, 0, 0, 0, 0);
    for _ in 0..sources {
        let plain = script(&mut r, 24);
        let script = blanked(&mut r, &plain);
        let s = source(&mut r, &script);
        let copy = copied(&s);
        // Room that is just enough, more, as much as the source is long, or too little.
        let room = match r.below(4) {
            0 => copy.len(),
            1 => copy.len() + r.below(9),
            2 => s.len(),
            _ => r.below(copy.len() + 1),
        };
        let mut out = vec![OLD; room];
        let answer = tidy(&s, &mut out);
        let mut same = (answer, out) == wanted(&s, &copy, room);
        match answer.0 {
            0 => {
                copies += 1;
                let mut again = vec![OLD; copy.len()];
                same = same && copy.len() <= s.len() && tidy(&copy, &mut again) == (0, copy.len()) && again == copy;
            }
            18 => short += 1,
            _ => refused += 1,
        }
        let base = base(&mut r);
        if refusal(&s).is_none() && s.len() < 4096 && base >> 30 == 0 && too_high(&script, base).is_none() {
            lists += 1;
            same = same && same_lists(&script, std::str::from_utf8(&copy).unwrap(), base);
        }
        if !same {
            differ += 1;
            eprintln!("differs: {:?} with room {room}, at {base}", String::from_utf8_lossy(&s));
        }
    }
    println!("{sources} sources, {copies} copies, {short} refused 18, {refused} refused 1 to 3; {lists} lists and label maps; {differ} differ");
}
