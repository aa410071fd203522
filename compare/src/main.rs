//! Compares the Rattle code with the Rust original. Run it by ./run, which builds the static library first.
//!
//!   compare record FILE [COUNT]     write the recorded answers that the program `replay` runs
//!   compare lists N [SEED]          N random sources at base 0 against the original
//!   compare speed                   the time of both on the inputs of docs/SPEED.md
//!   compare calls I N [sheet]       N calls on input I of these, from 0, for ./counts: the stations' call, or the sheet's
//!   compare moves N [SEED]          N random sources moved between bases, and chains of moves against the tally
//!   compare nearest N [SEED]        N random sources: the label nearest to an address against the original's label map
//!   compare symbols N [SEED]        N random sources: the symbols with their lines against the original's label map
//!   compare explain N [SEED]        N random sources: why each line has no word, against the original's list without that line
//!   compare lands N [SEED]          N random sources: each branch word to a label in reach leads there, also after moves
//!   compare branches N [SEED]       N random branch tables and scripts, against a second reading of the table and the original
//!   compare tidy N [SEED]           N random sources: the tidy copy, byte for byte, and its list and labels by the original
//!   compare sheet N [SEED]          N random series of sources: their totals against the original's lists and label maps
//!   compare gas N [SEED]            N random scripts of the manual's call, and N of the stations' listed forms, against GNU as and ld
//!   compare sums N [SEED]           N random sums, good and damaged, against Python's own parser and whole numbers
mod brackets;
mod branches;
mod copied;
mod copies;
#[cfg(linked)]
mod explain;
#[cfg(linked)]
mod gas;
mod generate;
mod gnu;
mod heard;
#[cfg(linked)]
mod interpreter;
#[cfg(linked)]
mod lands;
#[cfg(linked)]
mod library;
#[cfg(linked)]
mod lists;
mod manual;
#[cfg(linked)]
mod moves;
#[cfg(linked)]
mod nearest;
mod oracle;
mod reasons;
mod record;
#[cfg(linked)]
mod records;
mod requests;
mod runs;
mod sheet;
mod sheets;
mod silence;
#[cfg(linked)]
mod speed;
#[cfg(linked)]
mod sums;
#[cfg(linked)]
mod symbols;
#[cfg(linked)]
mod tidy;
#[cfg(linked)]
mod under;
mod verdicts;

fn main() {
    let args: Vec<String> = std::env::args().collect();
    let number = |i: usize, default: u64| args.get(i).map_or(default, |n| n.parse().expect("a number"));
    match args.get(1).map(String::as_str) {
        Some("record") if args.len() >= 3 => record::write(&args[2], number(3, 2400) as usize),
        #[cfg(linked)]
        Some("lists") => lists::compare(number(2, 100_000) as usize, number(3, 20261115)),
        #[cfg(linked)]
        Some("speed") => speed::table(),
        #[cfg(linked)]
        Some("calls") => speed::calls(number(2, 0) as usize, number(3, 0), args.get(4).is_some_and(|a| a == "sheet")),
        #[cfg(linked)]
        Some("moves") => moves::compare(number(2, 100_000) as usize, number(3, 20261116)),
        #[cfg(linked)]
        Some("nearest") => nearest::compare(number(2, 100_000) as usize, number(3, 20261117)),
        #[cfg(linked)]
        Some("symbols") => symbols::compare(number(2, 100_000) as usize, number(3, 20261118)),
        #[cfg(linked)]
        Some("explain") => explain::compare(number(2, 100_000) as usize, number(3, 20261119)),
        #[cfg(linked)]
        Some("lands") => lands::compare(number(2, 100_000) as usize, number(3, 20261121)),
        #[cfg(linked)]
        Some("branches") => under::compare(number(2, 100_000) as usize, number(3, 20261123)),
        #[cfg(linked)]
        Some("tidy") => tidy::compare(number(2, 100_000) as usize, number(3, 20261123)),
        #[cfg(linked)]
        Some("sheet") => sheet::compare(number(2, 100_000) as usize, number(3, 20261122)),
        #[cfg(linked)]
        Some("gas") => gas::compare(number(2, 1_000) as usize, number(3, 20261120)),
        #[cfg(linked)]
        Some("sums") => sums::compare(number(2, 100_000) as usize, number(3, 20261122)),
        _ => eprintln!("usage: compare record FILE [COUNT] | lists N [SEED] | moves N [SEED] | nearest N [SEED] | symbols N [SEED] | explain N [SEED] | gas N [SEED] | lands N [SEED] | branches N [SEED] | sums N [SEED] | tidy N [SEED] | sheet N [SEED] | speed; all but record want the static library: see ./run"),
    }
}
