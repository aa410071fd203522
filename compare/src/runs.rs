//! Recorded runs, call 10 with START and LIMIT, of a list's text. Answers are written out from the words of docs/BENCH.md and
//! of the manual. The address registers are 0; `bench`'s own run in the gate has others.
use crate::requests::{refused, Call};

/// Words one after another from address 0.
fn from_zero(words: &[u16]) -> Vec<(u32, u16)> {
    words.iter().enumerate().map(|(i, w)| (2 * i as u32, *w)).collect()
}

/// A list's text.
fn text(list: &[(u32, u16)]) -> String {
    list.iter().map(|(address, word)| format!("{address:08X} {word:04X} 0\n")).collect()
}

/// A run's line: why it ended, the steps and the program counter; the data registers that are not 0; the flags X N Z V C.
fn line(end: &str, steps: u32, pc: u32, registers: &[(usize, u32)], flags: &str) -> String {
    let mut d = [0; 8];
    registers.iter().for_each(|(n, v)| d[*n] = *v);
    let d: String = d.iter().map(|v| format!(" {v:08X}")).collect();
    format!("{end} {steps} {pc:08X}{d} {flags}\n")
}

/// All recorded runs.
pub fn runs(out: &mut Vec<Call>) {
    let mut run = |list: String, start, limit, text| {
        out.push(Call { number: 10, x: start, y: limit, source: list.into_bytes(), text });
    };
    for (words, (end, steps, pc), registers, flags) in PROGRAMS {
        let list = text(&from_zero(words));
        let told = line(end, steps, pc, registers, flags);
        run(list.clone(), 0, 1000, told.clone());
        // With the limit spent the next step is still judged, and ends the run; a step less and the limit does.
        run(list.clone(), 0, steps, told);
        if steps == 1 {
            run(list, 0, 0, line("limit", 0, 0, &[], "00000"));
        }
    }
    limits(&mut run);
    starts(&mut run);
    fillings(&mut run);
    for (list, place) in ODD_OR_OUTSIDE {
        let list: Vec<(u32, u16)> = list.iter().map(|a| (*a, 0x4E72)).collect();
        // "after 9, before any step", whatever the start.
        for start in [0, 1, 0x4000] {
            run(text(&list), start, 1000, refused(19, place));
        }
    }
    run("X".to_string(), 0, 1000, "not a list: line 1\n".to_string());
    run("00000000 4E71 0\n00000002 4E72".to_string(), 0, 1000, "not a list: line 2\n".to_string());
}

/// A run's end, the steps made and the program counter.
type Ended = (&'static str, u32, u32);

/// Words from address 0 on, run from there: how it ends, the data registers that are not 0, and the flags.
const PROGRAMS: [(&[u16], Ended, &[(usize, u32)], &str); 31] = [
    // MOVEQ #3,D0; SUBQ.L #1,D0; BNE to it: the header's example.
    (&[0x7003, 0x5380, 0x66FC, 0x4E72], ("halt", 7, 6), &[], "00100"),
    // "$4E72 is the halt"; any other word outside the forms ends too: STOP's neighbours, RTS, byte 0 and byte -1.
    (&[0x4E72], ("halt", 0, 0), &[], "00000"),
    (&[0x4E71, 0x4E72], ("halt", 1, 2), &[], "00000"),
    (&[0x4E73], ("word", 0, 0), &[], "00000"),
    (&[0x4E75], ("word", 0, 0), &[], "00000"),
    (&[0x6000], ("word", 0, 0), &[], "00000"),
    (&[0x60FF], ("word", 0, 0), &[], "00000"),
    (&[0xFFFF], ("word", 0, 0), &[], "00000"),
    // "A branch to an odd or outside address is a step; the next fetch stops." Modulo 2^32.
    (&[0x6001], ("access", 1, 3), &[], "00000"),
    (&[0x6080], ("access", 1, 0xFFFF_FF82), &[], "00000"),
    (&[0x6081], ("access", 1, 0xFFFF_FF83), &[], "00000"),
    // Taken or not: BEQ and BNE with Z clear, BGE with N and V clear.
    (&[0x6702, 0x4E72], ("halt", 1, 2), &[], "00000"),
    (&[0x6602, 0x4E71, 0x4E72], ("halt", 1, 4), &[], "00000"),
    (&[0x6C02, 0x4E71, 0x4E72], ("halt", 1, 4), &[], "00000"),
    // MOVE.L (A0),D0 reads high bytes first; MOVE.L D0,(A0) stores over code, and the next fetch sees it.
    (&[0x2010, 0x4E72], ("halt", 1, 2), &[(0, 0x2010_4E72)], "00000"),
    (&[0x7001, 0x2080, 0x60FA], ("word", 3, 0), &[(0, 1)], "00000"),
    // "MULS # is two words, the program counter goes on by 4."
    (&[0x7003, 0xC1FC, 0xFFFE, 0x4E72], ("halt", 2, 6), &[(0, 0xFFFF_FFFA)], "01000"),
    (&[0x7003, 0x72FF, 0xC3C0, 0x4E72], ("halt", 3, 6), &[(0, 3), (1, 0xFFFF_FFFD)], "01000"),
    // ASL: "$80000000 by 2: C 0, V 1"; by 1 the bit goes out into C and X.
    (&[0x7001, 0xE180, 0xE180, 0xE180, 0xEF80, 0x4E72], ("halt", 5, 10), &[(0, 0x8000_0000)], "01010"),
    (&[0x7001, 0xE180, 0xE180, 0xE180, 0xEF80, 0xE580, 0x4E72], ("halt", 6, 12), &[], "00110"),
    (&[0x7001, 0xE180, 0xE180, 0xE180, 0xEF80, 0xE380, 0x4E72], ("halt", 6, 12), &[], "10111"),
    // "X is kept by MOVE, MOVEQ, MULS, TST, CMP"; CMP's C is not X.
    (&[0x7001, 0xE180, 0xE180, 0xE180, 0xEF80, 0xE380, 0x7205, 0x4E72], ("halt", 7, 14), &[(1, 5)], "10000"),
    (&[0x7001, 0xE180, 0xE180, 0xE180, 0xEF80, 0xE380, 0x7205, 0x4A81, 0xB041, 0x4E72], ("halt", 9, 18), &[(1, 5)], "11001"),
    (&[0x7205, 0xB041, 0x4E72], ("halt", 2, 4), &[(1, 5)], "01001"),
    // "ADD, SUB, SUBQ, ASL set X = C"; a word's sum leaves the high word alone.
    (&[0x7205, 0x9041, 0x4E72], ("halt", 2, 4), &[(0, 0x0000_FFFB), (1, 5)], "11001"),
    (&[0x5380, 0x4E72], ("halt", 1, 2), &[(0, 0xFFFF_FFFF)], "11001"),
    (&[0x70FF, 0x7201, 0xD041, 0x4E72], ("halt", 3, 6), &[(0, 0xFFFF_0000), (1, 1)], "10101"),
    (&[0x5180, 0x4E72], ("halt", 1, 2), &[(0, 0xFFFF_FFF8)], "11001"),
    // MOVE.W copies the low word; TST.L looks at all 32 bits.
    (&[0x70FF, 0x3200, 0x4A81, 0x4E72], ("halt", 3, 6), &[(0, 0xFFFF_FFFF), (1, 0x0000_FFFF)], "00000"),
    // MOVEQ's byte has a sign.
    (&[0x7080, 0x4E72], ("halt", 1, 2), &[(0, 0xFFFF_FF80)], "01000"),
    // The registers are not each other's: MOVEQ to D7.
    (&[0x7E07, 0x4E72], ("halt", 1, 2), &[(7, 7)], "00000"),
];

/// 19, "a list address that is odd or above 16,382; place the lowest such index": a list's addresses, and the place.
const ODD_OR_OUTSIDE: [(&[u32], usize); 7] = [
    (&[1], 0),
    (&[0x3FFF], 0),
    (&[0x4000], 0),
    (&[0, 2, 3], 2),
    (&[0, 0x4000, 1], 1),
    (&[0x3FFE, 0x3FFE, 0x4001], 2),
    (&[0x4000_0001], 0),
];

/// A limit that is spent.
fn limits(run: &mut impl FnMut(String, u32, u32, String)) {
    let count = text(&from_zero(&[0x7003, 0x5380, 0x66FC, 0x4E72]));
    run(count.clone(), 0, 6, line("limit", 6, 4, &[], "00100"));
    run(count.clone(), 0, 5, line("limit", 5, 2, &[(0, 1)], "00000"));
    run(count.clone(), 0, 1, line("limit", 1, 2, &[(0, 3)], "00000"));
    run(count, 0, 0, line("limit", 0, 0, &[], "00000"));
    // BRA to itself.
    let idle = text(&from_zero(&[0x60FE]));
    for limit in [0, 1, 100_000] {
        run(idle.clone(), 0, limit, line("limit", limit, 0, &[], "00000"));
    }
}

/// "An odd or outside start is an access stop with 0 steps", the limit spent or not. A memory without words holds 0, which is no form's.
fn starts(run: &mut impl FnMut(String, u32, u32, String)) {
    for limit in [0, 1000] {
        for start in [1, 0x3FFF, 0x4000, 0x4001, 0x8000_0000, u32::MAX - 1, u32::MAX] {
            run(String::new(), start, limit, line("access", 0, start, &[], "00000"));
        }
        for start in [0, 2, 0x3FFE] {
            run(String::new(), start, limit, line("word", 0, start, &[], "00000"));
        }
        run(text(&[(0x3FFE, 0x4E72)]), 0x3FFE, limit, line("halt", 0, 0x3FFE, &[], "00000"));
        // MULS # with its second word outside.
        run(text(&[(0x3FFE, 0xC1FC)]), 0x3FFE, limit, line("access", 0, 0x3FFE, &[], "00000"));
    }
    run(text(&[(0x3FFE, 0x4E71)]), 0x3FFE, 1000, line("access", 1, 0x4000, &[], "00000"));
}

/// "filled from a list, later entries over earlier", whatever the marks.
fn fillings(run: &mut impl FnMut(String, u32, u32, String)) {
    run(text(&[(0, 0x4E71), (0, 0x4E72)]), 0, 1000, line("halt", 0, 0, &[], "00000"));
    run(text(&[(0, 0x4E72), (0, 0x4E71)]), 0, 1000, line("word", 1, 2, &[], "00000"));
    run(text(&[(2, 0x4E72), (0, 0x7007)]), 0, 1000, line("halt", 1, 2, &[(0, 7)], "00000"));
    for mark in 0..4 {
        run(format!("00000010 4E72 {mark}\n"), 0x10, 1000, line("halt", 0, 0x10, &[], "00000"));
    }
}
