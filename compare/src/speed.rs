//! Speed: the same inputs through the Rust original and through the static library, in one run. Each figure is the
//! median of many repetitions, taken in turns; the ratio, the original's time over ours, is the median of its own.
use crate::copied::copied;
use crate::library::{assemble, assemble_manual, relocate, sheet_add, tidy, Slices};
use crate::{interpreter, library, oracle, record};
use std::hint::black_box;
use std::time::Instant;

/// How many calls take about a millisecond.
fn batch(f: &mut impl FnMut()) -> usize {
    f();
    let start = Instant::now();
    f();
    let once = start.elapsed().as_nanos().max(1) as f64;
    ((1_000_000.0 / once) as usize).clamp(1, 10_000)
}

/// The time of a call in a batch, in nanoseconds.
fn timed(f: &mut impl FnMut(), batch: usize) -> f64 {
    let start = Instant::now();
    for _ in 0..batch {
        f();
    }
    start.elapsed().as_nanos() as f64 / batch as f64
}

fn median(mut times: Vec<f64>) -> f64 {
    times.sort_by(|a, b| a.total_cmp(b));
    times[times.len() / 2]
}

/// The median times of a call of each, and of their ratio: batches of the two take turns, so that what else the machine
/// does meets both.
fn medians(mut f: impl FnMut(), mut g: impl FnMut()) -> [f64; 3] {
    let (m, n) = (batch(&mut f), batch(&mut g));
    let turns: Vec<[f64; 2]> = (0..201).map(|_| [timed(&mut f, m), timed(&mut g, n)]).collect();
    let of = |h: &dyn Fn(&[f64; 2]) -> f64| median(turns.iter().map(h).collect());
    [of(&|t| t[0]), of(&|t| t[1]), of(&|t| t[0] / t[1])]
}

/// Lines repeated while they fit into a source.
fn filled(head: &str, lines: &[String], most_lines: usize) -> String {
    let mut out = head.to_string();
    let mut n = out.split('\n').count();
    for line in lines.iter().cycle() {
        if out.len() + line.len() + 1 > 32_768 || n >= most_lines {
            return out;
        }
        out.push_str(line);
        out.push('\n');
        n += 1;
    }
    out
}

fn inputs() -> Vec<(&'static str, String)> {
    let hinge = include_str!("../../examples/hinge.s").to_string();
    let forms: Vec<String> = [
        "LIM: DC.L 4160", "GO: MOVEQ #3,D1", "        MOVE.L LIM,D2", "        MOVE.L D2,LIM", "        MOVE.L (A1),D2",
        "        MOVE.L D2,(A1)", "        MOVE.W D1,D2", "        MOVE.L #900,D3", "        MOVEA.L #LIM,A1", "        MULS #5,D0",
        "        MULS D1,D2", "        ADD.W D1,D2", "        SUB.W D1,D2", "        CMP.L #4160,D2", "        CMP.W D1,D2",
        "        SUBQ.L #1,D1", "        ASL.L #2,D1", "        TST.L D2", "        NOP", "        JMP LIM", "        DBRA D1,GO",
        "        BNE GO", "        BRA +4", "; a note", "        DS.W 1",
    ]
    .map(String::from)
    .to_vec();
    let many: Vec<String> = (0..256).map(|i| format!("L{i}: NOP")).collect();
    let looked: Vec<String> = (0..256).map(|i| format!("MOVE.L L{i},D1")).collect();
    let name = |i: usize| format!("{}{:03}", "A_VERY_LONG_NAME_OF_A_LABEL_", i);
    let long: Vec<String> = (0..256).map(|i| format!("{}: NOP", name(i))).collect();
    let sought: Vec<String> = (0..256).map(|i| format!("MOVE.L {},D1", name(i))).collect();
    let mut high = filled("", &forms, 4096).into_bytes();
    let last = high.len() - 1;
    high[last] = 0x7F;
    vec![
        ("bezel script", record::BEZEL.to_string()),
        ("hinge script", hinge),
        ("40 lines, every form", filled("", &forms, 40)),
        ("200 lines, every form", filled("", &forms, 200)),
        ("32 KB, every form", filled("", &forms, 4096)),
        ("256 labels, each looked up", filled(&(many.join("\n") + "\n"), &looked, 4096)),
        ("long names, last byte differs", filled(&(long.join("\n") + "\n"), &sought, 4096)),
        ("4,096 short lines", "NOP\n".repeat(4095)),
        ("one line of 32 KB", format!("MOVE.L {},D1", "A ".repeat(16_000))),
        ("refused 5 at the last line", filled("", &forms, 4000)[..32_000].rsplit_once('\n').unwrap().0.to_string() + "\nORG $40000000"),
        ("refused 1", "NOP\n".repeat(9000)),
    ]
}

/// Scripts that both assembling calls accept: every line of these forms has its suffix, and every branch reaches.
fn manual_inputs() -> Vec<(&'static str, String)> {
    let forms = [
        "LIM: DC.L 4160", "GO: MOVEQ #3,D1", "        MOVE.L LIM,D2", "        MOVE.L D2,LIM", "        MOVE.L (A1),D2",
        "        MOVE.L D2,(A1)", "        MOVE.W D1,D2", "        MOVE.L #900,D3", "        MOVEA.L #LIM,A1", "        MULS.W #5,D0",
        "        MULS.W D1,D2", "        ADD.W D1,D2", "        SUB.W D1,D2", "        CMP.L #4160,D2", "        CMP.W D1,D2",
        "        SUBQ.L #1,D1", "        ASL.L #2,D1", "        TST.L D2", "        NOP", "        JMP LIM", "        DBRA D1,-6",
        "        BNE -6", "        BRA +4", "; a note", "        DS.W 1",
    ]
    .map(String::from);
    vec![
        ("bezel script", record::BEZEL.to_string()),
        ("hinge script", include_str!("../../examples/hinge68000.s").to_string()),
        ("40 lines, every form", filled("", &forms, 40)),
        ("32 KB, every form", filled("", &forms, 4096)),
    ]
}

/// So many calls on one input, the stations' or the sheet's, and its name.
pub fn calls(input: usize, count: u64, sheet: bool) {
    let inputs = inputs();
    let Some((name, s)) = inputs.get(input) else { return };
    let mut x = Slices::old([8192; 3]);
    for _ in 0..count {
        if sheet {
            black_box(sheet_add(black_box(s.as_bytes()), &mut [0; 12]));
        } else {
            black_box(assemble(black_box(s.as_bytes()), 0, &mut x));
        }
    }
    println!("{name}");
}

fn row(name: &str, [rust, ours, ratio]: [f64; 3]) {
    println!("| {name} | {:.2} µs | {:.2} µs | {ratio:.1} |", rust / 1000.0, ours / 1000.0);
}

/// A plain loop in Rust over the same slices: the checks, then the move.
fn plain_move(x: &mut Slices, count: usize, distance: i32) -> bool {
    let d = distance as i64;
    if d.abs() >= 1 << 30 || x.addresses.len() < count || x.words.len() < count || x.marks.len() < count {
        return false;
    }
    if x.marks[..count].iter().any(|m| *m > 1) {
        return false;
    }
    if x.addresses[..count].iter().any(|a| !(0..=(1 << 30) + 1).contains(&(*a as i64 + d))) {
        return false;
    }
    for i in 0..count {
        x.addresses[i] = (x.addresses[i] as i64 + d) as u32;
        if x.marks[i] == 1 {
            x.words[i] = x.words[i].wrapping_add(d as u16);
        }
    }
    true
}

/// The rules' call against the original.
fn rust_table() {
    println!("| input | Rust original | Lagvettu | times as fast |");
    println!("|---|---|---|---|");
    let mut x = Slices::old([8192; 3]);
    for (name, s) in inputs() {
        let rust = || {
            black_box(oracle::rust(black_box(&s)));
        };
        let ours = || {
            black_box(assemble(black_box(s.as_bytes()), 0, &mut x));
        };
        row(name, medians(rust, ours));
    }
}

/// The manual's call against the stations' on the same scripts.
fn manual_table() {
    println!("| input | the stations' call | the manual's call | times the stations' |");
    println!("|---|---|---|---|");
    let (mut x, mut y) = (Slices::old([8192; 3]), Slices::old([12_288; 3]));
    for (name, s) in manual_inputs() {
        assert!(assemble_manual(s.as_bytes(), 0, &mut y).0 == 0, "{name}");
        let manual = || {
            black_box(assemble_manual(black_box(s.as_bytes()), 0, &mut y));
        };
        let ruled = || {
            black_box(assemble(black_box(s.as_bytes()), 0, &mut x));
        };
        let [manual, ruled, times] = medians(manual, ruled);
        println!("| {name} | {:.2} µs | {:.2} µs | {times:.2} |", ruled / 1000.0, manual / 1000.0);
    }
}

/// Sums: a line of 32 KB takes about twice as long as one of 16 KB.
fn sums_table() {
    println!("| one line of sums | 16 KB | 32 KB | times as long |");
    println!("|---|---|---|---|");
    let (mut x, mut y) = (Slices::old([8192; 3]), Slices::old([8192; 3]));
    for (name, item) in [("chained", "1+2*3-"), ("nested", "((((((((((((((((1))))))))))))))))+")] {
        let line = |n: usize| format!("DC.L [{}1]", item.repeat((n - 8) / item.len()));
        let (half, whole) = (line(16_384), line(32_768));
        for s in [&half, &whole] {
            assert!(assemble(s.as_bytes(), 0, &mut y) == (0, 2), "{name}: the sum is read");
        }
        let short = || {
            black_box(assemble(black_box(half.as_bytes()), 0, &mut x));
        };
        let long = || {
            black_box(assemble(black_box(whole.as_bytes()), 0, &mut y));
        };
        let [long, short, times] = medians(long, short);
        println!("| {name} | {:.2} µs | {:.2} µs | {times:.2} |", short / 1000.0, long / 1000.0);
    }
}

/// Tidy copies: a source takes about twice as long as its first half, with room for the source and with just enough.
fn copies_table() {
    println!("| tidy copy | of the first half | of the whole | times as long |");
    println!("|---|---|---|---|");
    let long = ["32 KB, every form", "4,096 short lines", "one line of 32 KB"];
    for (name, s) in inputs().iter().filter(|(name, _)| long.contains(name)) {
        let (half, whole) = (&s.as_bytes()[..s.len() / 2], s.as_bytes());
        for (room, apart) in [("", false), (", made apart", true)] {
            let lent = |t: &[u8]| vec![0u8; if apart { copied(t).len() } else { t.len() }];
            let (mut x, mut y) = (lent(half), lent(whole));
            if apart && y.len() == whole.len() {
                continue;
            }
            assert!(tidy(half, &mut x).0 == 0 && tidy(whole, &mut y).0 == 0, "{name}: there is room");
            let short = || {
                black_box(tidy(black_box(half), &mut x));
            };
            let long = || {
                black_box(tidy(black_box(whole), &mut y));
            };
            let [long, short, times] = medians(long, short);
            println!("| {name}{room} | {:.2} µs | {:.2} µs | {times:.2} |", short / 1000.0, long / 1000.0);
        }
    }
}

/// The sheet's call against the stations' on the same scripts: it encodes every instruction, and writes no list.
fn sheet_table() {
    println!("| input | the stations' call | a source more on a sheet | times the stations' |");
    println!("|---|---|---|---|");
    let mut x = Slices::old([8192; 3]);
    for (name, s) in inputs() {
        let added = || {
            let mut totals = [0u64; 12];
            black_box(sheet_add(black_box(s.as_bytes()), &mut totals));
            black_box(totals);
        };
        let ruled = || {
            black_box(assemble(black_box(s.as_bytes()), 0, &mut x));
        };
        let [added, ruled, times] = medians(added, ruled);
        println!("| {name} | {:.2} µs | {:.2} µs | {times:.2} |", ruled / 1000.0, added / 1000.0);
    }
}

/// `plantsheet` on 100,000 small files, the hinge script each, if it is built.
fn plant_row() {
    let program = std::path::Path::new(env!("CARGO_MANIFEST_DIR")).join("../target/bin/plantsheet");
    if !program.exists() {
        println!("plantsheet: not built (tools/build plantsheet)");
        return;
    }
    let folder = std::env::temp_dir().join(format!("lagvettu-plant-{}", std::process::id()));
    std::fs::create_dir_all(&folder).expect("a folder");
    let mut names = String::new();
    for i in 0..100_000 {
        let file = folder.join(format!("{i}.s"));
        std::fs::write(&file, include_str!("../../examples/hinge.s")).expect("a file");
        names += &format!("{}\n", file.display());
    }
    std::fs::write(folder.join("names"), &names).expect("a file");
    let start = Instant::now();
    let out = std::process::Command::new(program).stdin(std::fs::File::open(folder.join("names")).expect("the names")).output().expect("plantsheet");
    let time = start.elapsed().as_secs_f64();
    let accepted = String::from_utf8_lossy(&out.stdout).lines().find(|l| l.starts_with("accepted")).unwrap_or("nothing").to_string();
    std::fs::remove_dir_all(&folder).expect("the folder");
    println!("plantsheet, 100,000 files: {time:.2} s, {accepted}");
}

fn mover_table() {
    println!("| mover, places | plain Rust loop | Lagvettu | times as fast |");
    println!("|---|---|---|---|");
    for count in [9usize, 256, 8192] {
        let list = |n: usize| Slices {
            addresses: (0..n as u32).map(|i| 4096 + 2 * i).collect(),
            words: (0..n as u32).map(|i| i as u16).collect(),
            marks: (0..n).map(|i| (i % 5 == 0) as u8).collect(),
        };
        let (mut a, mut b) = (list(count), list(count));
        let (mut d, mut e) = (2, 2);
        let plain = || {
            d = -d;
            black_box(plain_move(black_box(&mut a), count, d));
        };
        let moved = || {
            e = -e;
            black_box(relocate(black_box(&mut b), count, e));
        };
        let [rust, ours, ratio] = medians(plain, moved);
        println!("| {count} | {rust:.0} ns | {ours:.0} ns | {ratio:.2} |");
    }
}

/// Programs for the bench that run on, from address 0.
fn programs() -> Vec<(&'static str, Vec<u16>)> {
    vec![
        ("two forms: SUBQ, BNE", vec![0x5380, 0x66FC, 0x60FA]),
        ("MULS #", vec![0xC1FC, 0x0003, 0x60FA]),
        // MOVEQ; MOVE.L (A0),D1; ADD; SUB; CMP; BGE +2; NOP; MOVE.W; MULS; ASL; TST; SUBQ; MOVE.L D5,(A1); BRA back
        (
            "every form but MULS #",
            vec![0x7405, 0x2210, 0xD441, 0x9842, 0xB441, 0x6C02, 0x4E71, 0x3602, 0xCDC3, 0xE586, 0x4A86, 0x5385, 0x2285, 0x60E4],
        ),
    ]
}

/// The bench's steps against those of a plain interpreter on the same list; both fill the memory first.
fn bench_table() {
    println!("| bench, 100,000 steps of | plain interpreter, steps a second | Lagvettu | times its time |");
    println!("|---|---|---|---|");
    let (a, limit) = ([0x1000, 0x1004, 0, 0, 0, 0, 0, 0], 100_000);
    for (name, mut words) in programs() {
        let mut addresses: Vec<u32> = (0..words.len() as u32).map(|i| 2 * i).collect();
        addresses.extend([0x1000, 0x1002]);
        words.extend([0x1234, 0x5678]);
        assert!(interpreter::run(&addresses, &words, &a, 0, limit) == library::run(&addresses, &words, &a, 0, limit), "{name}");
        let ours = || {
            black_box(library::run(black_box(&addresses), &words, &a, 0, limit));
        };
        let plain = || {
            black_box(interpreter::run(black_box(&addresses), &words, &a, 0, limit));
        };
        let [ours, plain, times] = medians(ours, plain);
        let millions = |t: f64| limit as f64 / t * 1000.0;
        println!("| {name} | {:.0} million | {:.0} million | {times:.2} |", millions(plain), millions(ours));
    }
}

pub fn table() {
    rust_table();
    println!();
    manual_table();
    println!();
    sums_table();
    println!();
    copies_table();
    println!();
    mover_table();
    println!();
    bench_table();
    println!();
    sheet_table();
    println!();
    plant_row();
}
