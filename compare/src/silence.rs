//! Whether a line emits, by the Rust original alone: exactly if its list loses words when the line is silenced. The names that a
//! silenced line records stay recorded at its address, the address after it is set by ORG, and nothing else is changed. Which lines
//! are read, and the addresses between them, the original shows by labels put there.
use crate::reasons::first_reason;
use crate::{heard, oracle};
use std::collections::HashMap;

/// What the names of labels of our own start with: operands are cut at commas, so that none can name them.
const OWN: &str = ",own";

/// A source at a base as the original reads it.
pub struct Read {
    /// Line 0 sets the base, and the source's lines follow.
    lines: Vec<String>,
    /// The address after each line that reading goes on from.
    after: Vec<u32>,
    list: Vec<(u32, u16)>,
    labels: HashMap<String, u32>,
}

/// The original's list, and its label map without labels of our own.
fn shown(source: &str) -> (Vec<(u32, u16)>, HashMap<String, u32>) {
    let (list, mut labels) = oracle::listed_with_labels(source);
    labels.retain(|name, _| !name.starts_with(OWN));
    (list, labels)
}

impl Read {
    /// For an accepted source.
    pub fn new(source: &str, base: u32) -> Read {
        let rebased = oracle::rebased(source, base).expect("no address is too high");
        let lines: Vec<String> = rebased.split('\n').map(str::to_string).collect();
        let (list, labels) = shown(&rebased);
        // A label after each line has the address after it, if it is reached.
        let probed: String = lines.iter().enumerate().map(|(k, l)| format!("{l}\n{OWN}{k}:\n")).collect();
        let (same, probes) = oracle::listed_with_labels(&probed);
        assert!(same == list, "labels of our own change nothing");
        let after = (0..lines.len()).map_while(|k| probes.get(&format!("{OWN}{k}")).copied()).collect();
        Read { lines, after, list, labels }
    }

    /// Whether a line is read, the one that ends the reading too.
    pub fn reads(&self, k: usize) -> bool {
        0 < k && k < self.lines.len() && k <= self.after.len()
    }

    /// The source with a line silenced. The line that ends the reading goes with all that follows.
    fn silenced(&self, k: usize, names: &HashMap<String, u32>) -> String {
        let mut out = self.lines[..k].to_vec();
        if k < self.after.len() {
            for name in names.keys() {
                // Behind a label and before data: so a name like ENDX or `;` is recorded too, and one with DC. in it has no value.
                out.push(if name.is_empty() { ":".to_string() } else { format!("{OWN}:{name}:DS.B") });
                out.push(format!("ORG {}", self.after[k - 1]));
            }
            out.push(format!("ORG {}", self.after[k]));
            out.extend_from_slice(&self.lines[k + 1..]);
        }
        out.join("\n")
    }

    /// A line, the address at which it is read, and the address of a label.
    pub fn line(&self, k: usize) -> &str {
        &self.lines[k]
    }

    pub fn address(&self, k: usize) -> u32 {
        self.after[k - 1]
    }

    pub fn label(&self, name: &str) -> Option<u32> {
        self.labels.get(name).copied()
    }

    /// Where the words stand in the list that it loses with a line silenced, and how many. None if anything changes but words at that
    /// line's address.
    fn lost_words(&self, k: usize, names: &HashMap<String, u32>) -> Option<(usize, usize)> {
        let (list, labels) = shown(&self.silenced(k, names));
        let lost = self.list.len().checked_sub(list.len())?;
        let before = self.list.iter().zip(&list).take_while(|(a, b)| a == b).count();
        let address = self.after[k - 1];
        let own = |i: usize| self.list[i..i + lost].iter().zip([address, address + 2]).all(|(word, a)| word.0 == a);
        let place = (0..=before).find(|&i| own(i) && self.list[i + lost..] == list[i..])?;
        (labels == self.labels && lost <= 2).then_some((place, lost))
    }

    /// The place in the list of the first word of a line that has one.
    pub fn place(&self, k: usize) -> Option<usize> {
        let (place, lost) = self.lost_words(k, &heard::alone(&self.lines[k]).0)?;
        (lost > 0).then_some(place)
    }

    /// The verdict on a line that is read, its place in PHRASES; None if the line cannot be silenced.
    pub fn verdict(&self, k: usize) -> Option<u8> {
        let (names, instruction) = heard::alone(&self.lines[k]);
        Some(match (self.lost_words(k, &names)?.1 > 0, instruction) {
            (true, _) => 0,
            (false, None) => 1,
            (false, Some(instruction)) => first_reason(&instruction, self.after[k - 1], &self.labels),
        })
    }
}
