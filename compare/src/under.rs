//! Random branch tables and scripts through the static library: tables against `branches::loaded`; lists and verdicts against the Rust
//! original, which is given the script with each of the table's names as the built-in name of its condition.
use crate::branches::{loaded, row, table, ELEVEN, OTHERS};
use crate::generate::{script_with_faults, Random};
use crate::library::{assemble_branches, explain_branches, Answer, Explained, Slices};
use crate::record;
use crate::records::base;
use crate::silence::Read;
use std::collections::HashMap;

/// Names that no script has of itself; none starts like END, ORG, a register or data.
const NAMES: [&str; 20] = [
    "BHS", "BLO", "BHI", "BLS", "BVC", "BVS", "BRA", "BCC", "BNE", "BEQ", "B", "BR", "BX2", "JHS", "JLO", "GOTO", "WENN", "LBRA", "SIMH", "QBRA",
];

/// A mnemonic that nobody knows.
const NOBODY: &str = "QQQ";

/// A table of rows with conditions that the eleven have, each once.
fn some_table(r: &mut Random) -> Vec<(&'static str, u8)> {
    let (mut names, mut conditions) = (NAMES.to_vec(), ELEVEN.to_vec());
    let rows = r.below(12);
    (0..rows).map(|_| (names.swap_remove(r.below(names.len())), conditions.swap_remove(r.below(conditions.len())).1)).collect()
}

/// Bytes at the limits of what is a command, a blank, a letter or a condition.
const BYTES: [u8; 20] = [0, 1, 2, 8, 9, 10, 11, 12, 13, 14, 15, 16, 31, 32, 33, b'`', b'a', b'z', b'{', 128];

/// A table with a byte changed, cut off or put in, a row twice, a name that is taken, or 15 to 18 rows.
fn damaged(r: &mut Random, rows: &[(&str, u8)]) -> Vec<u8> {
    let mut t = table(rows);
    let at = r.below(t.len());
    match r.below(8) {
        0 => t.truncate(at),
        1 => t[at] = r.below(256) as u8,
        2 => t[at] = BYTES[r.below(20)],
        3 => t.insert(at, BYTES[r.below(20)]),
        4 => {
            let many: Vec<(&str, u8)> = NAMES[..15 + r.below(4)].iter().map(|n| (*n, r.below(16) as u8)).collect();
            t = table(&many);
            t.truncate(t.len() - r.below(3));
        }
        5 => t = [&row(r.pick(&OTHERS), 3)[..], &t].concat(),
        6 => t = [&t[..t.len() - 1], &row(r.pick(&NAMES), r.below(20) as u8), &[r.below(3) as u8]].concat(),
        _ => t = [&t[..t.len() - 1], &t[..t.len() - 1], &t[..]].concat(),
    }
    t
}

/// A script with each of the eleven's names, and of the table's, made another by the map, in its case.
fn renamed(script: &str, to: &HashMap<&str, &str>) -> String {
    let mut out = String::new();
    let mut rest = script;
    while !rest.is_empty() {
        let n = rest.find(|c: char| !c.is_ascii_alphanumeric()).unwrap_or(rest.len());
        let (word, behind) = rest.split_at(n);
        match to.get(word.to_uppercase().as_str()) {
            Some(name) if word.bytes().all(|b| !b.is_ascii_uppercase()) => out.push_str(&name.to_lowercase()),
            Some(name) => out.push_str(name),
            None => out.push_str(word),
        }
        let m = behind.chars().next().map_or(0, char::len_utf8);
        out.push_str(&behind[..m]);
        rest = &behind[m..];
    }
    out
}

/// The script for the table, and the script for the original.
fn both(script: &str, rows: &[(&'static str, u8)]) -> (String, String) {
    let (mut ours, mut rusts): (HashMap<&str, &str>, HashMap<&str, &str>) = NAMES.iter().map(|n| ((*n, NOBODY), (*n, NOBODY))).unzip();
    for (name, condition) in ELEVEN {
        let found = rows.iter().find(|row| row.1 == condition);
        ours.insert(name, found.map_or(NOBODY, |row| row.0));
        rusts.insert(name, if found.is_some() { name } else { NOBODY });
    }
    (renamed(script, &ours), renamed(script, &rusts))
}

/// What was asked, and how often each answer came.
#[derive(Default)]
struct Tally {
    words: usize,
    verdicts: usize,
    refusals: [usize; 18],
    unsilenced: usize,
    differ: usize,
}

impl Tally {
    fn differs(&mut self, table: &[u8], source: &str, base: u32, what: &str) {
        self.differ += 1;
        eprintln!("differs: {what} of {source:?} at {base} under {table:?}");
    }

    /// A call that must be refused: nothing is written, and no line has a verdict.
    fn refuse(&mut self, table: &[u8], source: &str, base: u32, wanted: Answer) {
        self.refusals[wanted.0 as usize] += 1;
        let old = Slices::old([64; 3]);
        let mut lent = old.clone();
        if assemble_branches(table, source.as_bytes(), base, &mut lent) != wanted || lent != old {
            self.differs(table, source, base, "the refusal");
        }
        for line in [0, 1] {
            if explain_branches(table, source.as_bytes(), base, line) != (Explained { number: wanted.0, verdict: 255, place: wanted.1 }) {
                self.differs(table, source, base, "the refusal of a line");
            }
        }
    }

    /// A call that the original decides.
    fn ask(&mut self, table: &[u8], source: &str, rusts: &str, base: u32) {
        let list = match record::answered(rusts, base) {
            Err((number, place)) => return self.refuse(table, source, base, (number, place as usize)),
            Ok(list) => list,
        };
        let mut lent = Slices::old([list.len() + 1; 3]);
        let answer = assemble_branches(table, source.as_bytes(), base, &mut lent);
        if answer != (0, list.len()) || lent.list(list.len()) != list {
            self.differs(table, source, base, "the list");
        }
        self.words += list.len();
        let read = Read::new(rusts, base);
        for line in 0..=rusts.split('\n').count() + 1 {
            let wanted = match read.reads(line) {
                false => Some(Explained { number: 13, verdict: 255, place: line }),
                true => read.verdict(line).map(|verdict| Explained { number: 0, verdict, place: 0 }),
            };
            let Some(wanted) = wanted else {
                self.unsilenced += 1;
                continue;
            };
            self.verdicts += 1;
            if explain_branches(table, source.as_bytes(), base, line) != wanted {
                self.differs(table, source, base, &format!("line {line}"));
            }
        }
    }
}

pub fn compare(count: usize, seed: u64) {
    let mut r = Random(seed);
    let mut tally = Tally::default();
    for _ in 0..count {
        let rows = some_table(&mut r);
        let script = script_with_faults(&mut r, 12);
        let (ours, rusts) = both(&script, &rows);
        let base = base(&mut r);
        let t = if r.one_in(3) { damaged(&mut r, &rows) } else { [table(&rows), vec![1; r.below(3)]].concat() };
        match loaded(&t) {
            Err(wanted) => tally.refuse(&t, &ours, base, wanted),
            Ok(named) if named.len() == rows.len() && named.iter().zip(&rows).all(|(a, b)| (a.0, a.1) == named_by(b)) => {
                if base >= 1 << 30 {
                    tally.refuse(&t, &ours, base, (4, 0));
                } else {
                    tally.ask(&t, &ours, &rusts, base);
                }
            }
            // A damaged table that is accepted has other names: only that it is accepted is asked.
            Ok(_) => {
                if assemble_branches(&t, b"", 0, &mut Slices::old([0; 3])) != (0, 0) {
                    tally.differs(&t, "", 0, "acceptance");
                }
            }
        }
    }
    let refused: Vec<String> = (1..18).filter(|n| tally.refusals[*n] > 0).map(|n| format!("{} refused {n}", tally.refusals[n])).collect();
    println!(
        "{count} tables and scripts, {} words, {} lines; {}; {} lines not silenced, {} differ",
        tally.words,
        tally.verdicts,
        refused.join(", "),
        tally.unsilenced,
        tally.differ
    );
}

/// A row's four bytes and condition.
fn named_by(row: &(&str, u8)) -> ([u8; 4], u8) {
    let mut four = [b' '; 4];
    four[..row.0.len()].copy_from_slice(row.0.as_bytes());
    (four, row.1)
}
