//! Why a line has no word, asked for every line of random sources: against the Rust original's list without that line, and
//! the reasons written anew over what the original reads in it.
use crate::generate::{script_with_faults, Random};
use crate::library::{assemble, explain, Explained, Slices};
use crate::reasons::PHRASES;
use crate::records::base;
use crate::silence::Read;

/// The answer for a line of an accepted source; None if it cannot be silenced.
fn answer(read: &Read, line: usize) -> Option<Explained> {
    if !read.reads(line) {
        return Some(Explained { number: 13, verdict: 255, place: line });
    }
    read.verdict(line).map(|verdict| Explained { number: 0, verdict, place: 0 })
}

/// A source past a limit of bytes, lines or labels, or near the last.
fn spoiled(r: &mut Random, source: &str) -> Vec<u8> {
    let mut bytes = source.as_bytes().to_vec();
    match r.below(4) {
        0 => bytes.resize(32769 + r.below(40), b';'),
        1 => bytes.insert(r.below(source.len() + 1), 128 + r.below(128) as u8),
        2 => bytes.resize(source.len() + 4096, b'\n'),
        _ => return ((0..249 + r.below(9)).map(|i| format!("L{i}:\n")).collect::<String>() + source).into_bytes(),
    }
    bytes
}

/// What was asked, and how often each answer came.
#[derive(Default)]
struct Tally {
    verdicts: [usize; 10],
    refusals: [usize; 14],
    unsilenced: usize,
    differ: usize,
}

impl Tally {
    /// Asks for a line, and compares the answer.
    fn ask(&mut self, source: &[u8], base: u32, line: usize, wanted: Option<Explained>) {
        let got = explain(source, base, line);
        let Some(wanted) = wanted else {
            self.unsilenced += 1;
            eprintln!("cannot be silenced: line {line} of {:?} at {base}", String::from_utf8_lossy(source));
            return;
        };
        if wanted.number == 0 {
            self.verdicts[wanted.verdict as usize] += 1;
        } else {
            self.refusals[wanted.number as usize] += 1;
        }
        if got != wanted {
            self.differ += 1;
            eprintln!("differs: line {line} of {:?} at {base}: {got:?}, not {wanted:?}", String::from_utf8_lossy(source));
        }
    }
}

pub fn compare(sources: usize, seed: u64) {
    let mut r = Random(seed);
    let mut tally = Tally::default();
    let mut lent = Slices::old([8192; 3]);
    for _ in 0..sources {
        let s = script_with_faults(&mut r, 24);
        let base = base(&mut r);
        let source = if r.one_in(100) { spoiled(&mut r, &s) } else { s.into_bytes() };
        let count = source.split(|b| *b == b'\n').count();
        // What the stations' call refuses by 1 to 6 is refused here alike, whatever line is asked for.
        let (number, place) = assemble(&source, base, &mut lent);
        if number != 0 {
            for line in [0, 1 + r.below(count), count + 1] {
                tally.ask(&source, base, line, Some(Explained { number, verdict: 255, place }));
            }
            continue;
        }
        let read = Read::new(std::str::from_utf8(&source).expect("all ASCII"), base);
        for line in (0..=count + 1).chain([usize::MAX]) {
            tally.ask(&source, base, line, answer(&read, line));
        }
    }
    let said: Vec<String> = PHRASES.iter().zip(tally.verdicts).map(|(phrase, n)| format!("{n} {phrase}")).collect();
    let refused: Vec<String> = (1..14).filter(|i| tally.refusals[*i] > 0).map(|i| format!("{} refused {i}", tally.refusals[i])).collect();
    println!(
        "{sources} sources, {} lines read: {}; {}; {} lines not silenced, {} differ",
        tally.verdicts.iter().sum::<usize>(),
        said.join(", "),
        refused.join(", "),
        tally.unsilenced,
        tally.differ
    );
}
