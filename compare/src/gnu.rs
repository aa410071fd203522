//! Random scripts of the manual's forms, in our syntax and in GNU as's, and their images by GNU as and ld. Debian has both in the package
//! binutils-m68k-linux-gnu.
use crate::generate::Random;
use std::{env, fs, path::PathBuf, process::Command};

const AS: &str = "m68k-linux-gnu-as";
const LD: &str = "m68k-linux-gnu-ld";

/// The eleven branches, the nine that are equal to the manual's first.
const BRANCHES: [&str; 11] = ["BRA", "BCC", "BCS", "BNE", "BEQ", "BGE", "BLT", "BGT", "BLE", "BPL", "BMI"];

/// A line in both syntaxes, the bytes that it takes, and whether its form is equal to the manual's.
struct Line {
    ours: String,
    gnu: String,
    size: i64,
    listed: bool,
}

fn line(ours: String, gnu: String, size: i64, listed: bool) -> Line {
    Line { ours, gnu, size, listed }
}

/// A number of 32 bits, small as often as large, in one of our spellings; and its value.
fn number(r: &mut Random, bits: u32) -> (String, u64) {
    let v = (r.next() >> (64 - bits)) >> r.below(bits as usize);
    let spelled = match r.below(4) {
        0 => format!("${v:X}"),
        1 => format!("0x{v:x}"),
        2 => format!("+{v}"),
        _ => format!("{v}"),
    };
    (spelled, v)
}

/// A form without a label; GNU as takes a long constant as it stands only if it is a symbol defined later, the k-th of `constants`.
fn plain(r: &mut Random, constants: &mut Vec<u64>) -> Line {
    let (n, m) = (r.below(8), r.below(8));
    let mut constant = |v: u64| {
        constants.push(v);
        format!("K{}", constants.len() - 1)
    };
    match r.below(16) {
        0 => {
            let v = r.below(256) as i32 - 128;
            line(format!("MOVEQ #{v},D{n}"), format!("moveq #{v},%d{n}"), 2, true)
        }
        1 => line(format!("MOVE.L (A{n}),D{m}"), format!("move.l (%a{n}),%d{m}"), 2, true),
        2 => line(format!("MOVE.L D{n},(A{m})"), format!("move.l %d{n},(%a{m})"), 2, true),
        3 => line(format!("MOVE.W D{n},D{m}"), format!("move.w %d{n},%d{m}"), 2, true),
        4 => {
            let (s, v) = number(r, 16);
            line(format!("MULS.W #{s},D{n}"), format!("muls.w #{v},%d{n}"), 4, true)
        }
        5 => line(format!("MULS.W D{n},D{m}"), format!("muls.w %d{n},%d{m}"), 2, true),
        k @ 6..=8 => {
            let (ours, gnu) = [("ADD", "add"), ("SUB", "sub"), ("CMP", "cmp")][k - 6];
            line(format!("{ours}.W D{n},D{m}"), format!("{gnu}.w %d{n},%d{m}"), 2, true)
        }
        9 => line(format!("TST.L D{n}"), format!("tst.l %d{n}"), 2, true),
        k @ 10..=11 => {
            let (ours, gnu) = [("SUBQ", "subq"), ("ASL", "asl")][k - 10];
            line(format!("{ours}.L #{},D{n}", m + 1), format!("{gnu}.l #{},%d{n}", m + 1), 2, true)
        }
        12 => line("NOP".into(), "nop".into(), 2, true),
        13 => {
            let (s, v) = number(r, 32);
            line(format!("MOVE.L #{s},D{n}"), format!("move.l #{},%d{n}", constant(v)), 6, false)
        }
        14 => {
            let (s, v) = number(r, 32);
            line(format!("CMP.L #{s},D{n}"), format!("cmpi.l #{},%d{n}", constant(v)), 6, false)
        }
        _ => {
            // a `+` in front makes the operand a label's name
            let v = (r.next() as u32) >> r.below(32);
            let s = if r.one_in(2) { format!("${v:X}") } else { format!("{v}") };
            line(format!("{} {s}", r.pick(&["JMP", "JUMP"])), format!("jmp ({v}).l"), 6, false)
        }
    }
}

/// A form with a 32-bit label address.
fn labelled(r: &mut Random, label: usize) -> Line {
    let n = r.below(8);
    match r.below(4) {
        0 => line(format!("MOVE.L L{label},D{n}"), format!("move.l (L{label}).l,%d{n}"), 6, false),
        1 => line(format!("MOVE.L D{n},L{label}"), format!("move.l %d{n},(L{label}).l"), 6, false),
        2 => line(format!("MOVEA.L #L{label},A{n}"), format!("movea.l #L{label},%a{n}"), 6, false),
        _ => line(format!("{} L{label}", r.pick(&["JMP", "JUMP"])), format!("jmp (L{label}).l"), 6, false),
    }
}

/// What a line will be, drawn before the lines are written so that every label's place is known.
enum Drawn {
    Plain(Line),
    Data,
    Branch,
    Loop,
    Labelled,
}

impl Drawn {
    fn size(&self) -> i64 {
        match self {
            Drawn::Plain(l) => l.size,
            Drawn::Data | Drawn::Loop => 4,
            Drawn::Branch => 2,
            Drawn::Labelled => 6,
        }
    }
}

/// What the lines of a script may be.
#[derive(Clone, Copy, PartialEq)]
pub enum Forms {
    /// Every form of the manual's call, and data.
    All,
    /// Those without data.
    Instructions,
    /// The forms that are equal to the manual's, and data.
    Listed,
}

fn draw(r: &mut Random, forms: Forms, constants: &mut Vec<u64>) -> Drawn {
    let listed = forms == Forms::Listed;
    match r.below(10) {
        0 => Drawn::Branch,
        1 if listed => Drawn::Branch,
        1 => Drawn::Loop,
        2 if forms != Forms::Instructions => Drawn::Data,
        3 | 4 if !listed => Drawn::Labelled,
        _ => loop {
            let l = plain(r, constants);
            if l.listed || !listed {
                return Drawn::Plain(l);
            }
        },
    }
}

/// An operand that a branch (a byte, neither 0 nor -1) or DBRA (a word) reaches: one of the labels, or a signed even number.
fn operand(r: &mut Random, reach: i64, at: i64, labels: &[i64]) -> (String, String) {
    let near: Vec<usize> = (0..labels.len())
        .filter(|&k| {
            let d = labels[k] - (at + 2);
            -reach <= d && d < reach && (d != 0 || reach > 128)
        })
        .collect();
    if near.is_empty() || r.one_in(4) {
        let d = 2 * (r.below(reach as usize) as i64) - reach;
        let d = if d == 0 { 2 } else { d };
        return (format!("{d:+}"), format!(".+2{d:+}"));
    }
    let k = near[r.below(near.len())];
    (format!("L{k}"), format!("L{k}"))
}

/// A drawn line, written at its place.
fn written(r: &mut Random, drawn: Drawn, forms: Forms, at: i64, labels: &[i64]) -> Line {
    match drawn {
        Drawn::Plain(l) => l,
        Drawn::Data => {
            let v = r.next() as u32 >> r.below(32);
            line(format!("DC.L {v}"), format!(".long {v}"), 4, true)
        }
        Drawn::Labelled if labels.is_empty() => line("JMP 0".into(), "jmp (0).l".into(), 6, false),
        Drawn::Labelled => {
            let k = r.below(labels.len());
            labelled(r, k)
        }
        Drawn::Loop => {
            let to = operand(r, 32768, at, labels);
            let n = r.below(8);
            line(format!("DBRA D{n},{}", to.0), format!("dbra %d{n},{}", to.1), 4, false)
        }
        Drawn::Branch => {
            let to = operand(r, 128, at, labels);
            let name = BRANCHES[r.below(if forms == Forms::Listed { 9 } else { 11 })];
            line(format!("{name} {}", to.0), format!("{}.s {}", name.to_lowercase(), to.1), 2, true)
        }
    }
}

/// A script in both syntaxes, some of its lines with a label.
pub fn script(r: &mut Random, forms: Forms) -> (String, String) {
    let (mut constants, mut drawn) = (Vec::new(), Vec::new());
    let (mut at, mut labels) = (0, Vec::new());
    for _ in 0..1 + r.below(60) {
        let d = draw(r, forms, &mut constants);
        let label = r.one_in(3).then_some(labels.len());
        labels.extend(label.map(|_| at));
        let here = at;
        at += d.size();
        drawn.push((d, label, here));
    }
    let (mut ours, mut gnu) = (String::new(), String::new());
    for (d, label, here) in drawn {
        let l = written(r, d, forms, here, &labels);
        let name = label.map_or(String::new(), |k| format!("L{k}: "));
        ours.push_str(&format!("{name}{}\n", l.ours));
        gnu.push_str(&format!("{name}{}\n", l.gnu));
    }
    for (k, v) in constants.iter().enumerate() {
        gnu.push_str(&format!("K{k} = {v}\n"));
    }
    (ours, gnu)
}

/// A folder of its own for the files of GNU as and ld, removed in the end.
pub struct Gnu(PathBuf);

impl Gnu {
    pub fn new() -> Gnu {
        let dir = env::temp_dir().join(format!("lagvettu-gnu-{}", std::process::id()));
        fs::create_dir_all(&dir).expect("a writable folder");
        Gnu(dir)
    }

    /// The image of a script in GNU as's syntax, linked at each base.
    pub fn images(&self, gnu: &str, bases: [u32; 2]) -> [Vec<u8>; 2] {
        let [source, object, image] = ["script.s", "script.o", "image"].map(|name| self.0.join(name));
        fs::write(&source, gnu).expect("a writable folder");
        run(Command::new(AS).arg("-m68000").arg("-o").arg(&object).arg(&source));
        bases.map(|base| {
            let text = format!("-Ttext={base:#x}");
            run(Command::new(LD).args([&text, "--oformat=binary", "-e", "0", "-o"]).arg(&image).arg(&object));
            fs::read(&image).expect("ld's image")
        })
    }
}

impl Drop for Gnu {
    fn drop(&mut self) {
        fs::remove_dir_all(&self.0).ok();
    }
}

fn run(command: &mut Command) {
    let done = command.output().unwrap_or_else(|e| panic!("{command:?}: {e}; Debian's package is binutils-m68k-linux-gnu"));
    assert!(done.status.success(), "{command:?}\n{}", String::from_utf8_lossy(&done.stderr));
}

/// The words of an image.
pub fn words(image: &[u8]) -> Vec<u16> {
    image.chunks(2).map(|b| u16::from_be_bytes([b[0], b[1]])).collect()
}
