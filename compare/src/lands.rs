//! Branches land: of random sources, each branch word whose operand is a recorded label in reach leads to that label's address in
//! the Rust original's own label map, at the base and after moves, which take the label along. Which lines are branches, their
//! operands and addresses, and which word is a line's, the original says too.
use crate::generate::{script_with_faults, Random};
use crate::heard;
use crate::library::{assemble, relocate, Slices};
use crate::records::base;
use crate::silence::Read;

/// The eleven branches.
const BRANCHES: [&str; 11] = ["BRA", "BCC", "BCS", "BNE", "BEQ", "BPL", "BMI", "BGE", "BLT", "BGT", "BLE"];

/// The label in reach that line k branches to, if it is such a line: its address.
fn target(read: &Read, k: usize) -> Option<u32> {
    let instruction = heard::alone(read.line(k)).1?;
    if !BRANCHES.contains(&instruction.mnemonic.as_str()) {
        return None;
    }
    let label = read.label(instruction.operands.first()?)?;
    let displacement = label as i64 - (read.address(k) as i64 + 2);
    (-128..=127).contains(&displacement).then_some(label)
}

/// Where the branch word at a place of a list leads: its byte's signed reading, added to the address plus 2.
fn leads(x: &Slices, i: usize) -> i64 {
    x.addresses[i] as i64 + 2 + (x.words[i] & 0xFF) as u8 as i8 as i64
}

pub fn compare(sources: usize, seed: u64) {
    let mut r = Random(seed);
    let (mut words, mut moved, mut differ) = (0, 0, 0);
    for _ in 0..sources {
        let source = script_with_faults(&mut r, 24);
        let base = base(&mut r);
        let mut x = Slices::old([8192; 3]);
        let (0, count) = assemble(source.as_bytes(), base, &mut x) else { continue };
        let read = Read::new(&source, base);
        let lines = source.split('\n').count();
        let landing: Vec<(usize, u32)> =
            (1..=lines).filter(|k| read.reads(*k)).filter_map(|k| Some((read.place(k)?, target(&read, k)?))).collect();
        let mut total = 0;
        for step in 0..4 {
            for &(i, label) in &landing {
                let good = x.words[i] >> 12 == 6 && x.marks[i] == 0 && leads(&x, i) == label as i64 + total;
                if !good {
                    differ += 1;
                    eprintln!("differs: place {i} of {source:?} at {base}, moved by {total}");
                }
            }
            if step == 0 {
                words += landing.len();
            } else {
                moved += landing.len();
            }
            let distance = if r.one_in(3) { r.next() as i32 } else { r.below(200_000) as i32 - 100_000 };
            if relocate(&mut x, count, distance).0 == 0 {
                total += distance as i64;
            }
        }
    }
    println!("{sources} sources, {words} branch words to a label in reach, {moved} of them after moves; {differ} differ");
}
