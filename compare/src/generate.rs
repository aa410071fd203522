//! Random scripts: every form of the stations' call, its odd readings, damaged copies, numbers and displacements at their limits.

/// A small generator of random numbers (xorshift), so that a seed names a run.
pub struct Random(pub u64);

impl Random {
    pub fn next(&mut self) -> u64 {
        self.0 ^= self.0 << 13;
        self.0 ^= self.0 >> 7;
        self.0 ^= self.0 << 17;
        self.0.wrapping_mul(0x2545F4914F6CDD1D)
    }

    pub fn below(&mut self, n: usize) -> usize {
        ((self.next() >> 33) % n as u64) as usize
    }

    pub fn one_in(&mut self, n: usize) -> bool {
        self.below(n) == 0
    }

    pub fn pick<'a>(&mut self, from: &[&'a str]) -> &'a str {
        from[self.below(from.len())]
    }
}

const NAMES: [&str; 16] = [
    "A", "B", "LOOP", "loop", "LIM", "GO", "X1", "D0", "A3", "(A1)", "#X", "x y", "", "+5", "-129", "L.1",
];

const BLANKS: [&str; 8] = [" ", " ", " ", "  ", "\t", "\u{b}", "\u{c} ", "\r"];

const MNEMONICS: [&str; 30] = [
    "MOVEQ", "MOVE", "MOVEA", "MULS", "TST", "SUBQ", "ASL", "DBRA", "NOP", "SIMHALT", "ADD", "SUB", "CMP", "JMP",
    "JUMP", "BRA", "BCC", "BCS", "BNE", "BEQ", "BPL", "BMI", "BGE", "BLT", "BGT", "BLE", "MOVEM", "BHS", "", "ORG",
];

const NUMBERS: [&str; 40] = [
    "0", "1", "7", "8", "9", "-1", "+1", "127", "128", "-128", "-129", "255", "256", "900", "4160", "65535", "65536",
    "$1040", "$FFFF", "$10000", "0x7f", "0x80", "0x-80", "0x-81", "$-80", "$+7F", "0X10", "0xfFfF", "4294967295",
    "4294967296", "$FFFFFFFF", "$100000000", "", "+", "-", "--1", "+-1", "00000000000000000000127", "12a", "$G",
];

/// One script of at most `lines` lines.
pub fn script(r: &mut Random, lines: usize) -> String {
    let n = 1 + r.below(lines);
    let mut out = String::new();
    for i in 0..n {
        if i > 0 {
            out.push('\n');
        }
        line(r, &mut out);
    }
    if r.one_in(8) {
        damage(r, &mut out);
    }
    out
}

/// A script with instructions put in that have a form's kinds, and often no word.
pub fn script_with_faults(r: &mut Random, lines: usize) -> String {
    let mut out = Vec::new();
    for line in script(r, lines).split('\n') {
        out.push(line.to_string());
        if r.one_in(3) {
            out.push(almost(r));
        }
    }
    out.join("\n")
}

fn line(r: &mut Random, out: &mut String) {
    if r.one_in(4) {
        out.push_str(r.pick(&BLANKS));
    }
    match r.below(24) {
        0 => {}
        1 => out.push_str("; a note: DC.L 5"),
        2 => {
            let w = r.pick(&["ORG", "org", "Org", "ORGX", "ORG:"]);
            out.push_str(w);
            out.push_str(r.pick(&BLANKS));
            if r.one_in(2) {
                out.push_str(&format!("{}", r.below(700)));
            } else {
                out.push_str(r.pick(&NUMBERS[..20]));
            }
        }
        3 => {
            if r.one_in(12) {
                out.push_str(r.pick(&["END", "end", "ENDX: NOP", "Endless"]));
            } else {
                label(r, out);
            }
        }
        4 | 5 => {
            label(r, out);
            if r.one_in(2) {
                label(r, out);
            }
            data(r, out);
        }
        6 | 7 => {
            if r.one_in(2) {
                out.push_str(r.pick(&NAMES));
                out.push_str(r.pick(&BLANKS));
            }
            data(r, out);
        }
        8 => {
            label(r, out);
            out.push_str(r.pick(&["END", "ORG 8", "; note", "DC.L:DS.B 7", "DC.X 5", "ds.q"]));
        }
        _ => {
            if r.one_in(4) {
                label(r, out);
            }
            instruction(r, out);
        }
    }
    if r.one_in(6) {
        out.push_str(r.pick(&BLANKS));
    }
    if r.one_in(40) {
        out.push_str("; behind");
    }
}

fn label(r: &mut Random, out: &mut String) {
    let names = if r.one_in(3) { NAMES.len() } else { 5 };
    out.push_str(r.pick(&NAMES[..names]));
    if r.one_in(6) {
        out.push_str(r.pick(&BLANKS));
    }
    out.push(':');
    if r.one_in(2) {
        out.push_str(r.pick(&BLANKS));
    }
}

fn data(r: &mut Random, out: &mut String) {
    out.push_str(r.pick(&["DC.L", "DC.W", "DC.B", "DS.L", "DS.W", "DS.B", "dc.l", "Ds.b", "DC.X", "DC.", "XDC.W"]));
    out.push_str(r.pick(&BLANKS));
    number(r, out);
    if r.one_in(10) {
        out.push_str(" 7");
    }
}

fn number(r: &mut Random, out: &mut String) {
    match r.below(3) {
        0 => out.push_str(&format!("{}", r.below(70000))),
        1 => out.push_str(&format!("${:X}", r.next() as u32 >> r.below(32))),
        _ => out.push_str(r.pick(&NUMBERS)),
    }
}

/// A register's digit, now and then one that is none.
fn register(r: &mut Random) -> usize {
    let n = if r.one_in(10) { 10 } else { 8 };
    r.below(n)
}

fn operand(r: &mut Random, out: &mut String) {
    match r.below(12) {
        0..=3 => out.push_str(&format!("D{}", register(r))),
        4 => out.push_str(&format!("A{}", register(r))),
        5 => out.push_str(&format!("(A{})", register(r))),
        6 | 7 => {
            out.push('#');
            if r.one_in(4) {
                out.push_str(r.pick(&NAMES));
            } else {
                number(r, out);
            }
        }
        8 => number(r, out),
        9 => {
            let sign = r.pick(&["+", "-"]);
            out.push_str(&format!("{sign}{}", 120 + r.below(12)));
        }
        _ => {
            let name = r.pick(&NAMES);
            out.push_str(&if r.one_in(4) { name.replace(' ', "  \t") } else { name.to_string() });
        }
    }
}

/// The forms with the operands that they want: `d` Dn, `a` An, `i` (An), `8` and `6` immediates, `l` a label.
const FORMS: [(&str, &str); 30] = [
    ("MOVE.L", "6d"), ("MOVE.L", "id"), ("MOVE.L", "di"), ("MOVE.W", "dd"), ("MOVE.L", "ld"), ("MOVE.L", "dl"),
    ("MOVEA.L", "#a"), ("MULS", "6d"), ("MULS.W", "dd"), ("ADD.W", "dd"), ("SUB.W", "dd"), ("CMP.L", "6d"),
    ("CMP.W", "dd"), ("MOVEQ", "8d"), ("SUBQ.L", "8d"), ("ASL.L", "8d"), ("TST.L", "d"), ("NOP", ""), ("SIMHALT", ""),
    ("MOVE.L", "ld"), ("MOVE.L", "dl"), ("MOVEA.L", "#a"), ("MOVE.L", "ld"), ("MOVE.L", "dl"), ("MOVEA.L", "#a"),
    ("JMP", "l"), ("JUMP", "n"), ("DBRA", "dl"), ("B", "l"), ("B", "s"),
];

fn well_formed(r: &mut Random, out: &mut String) {
    let (m, kinds) = FORMS[r.below(FORMS.len())];
    let m = if m == "B" { MNEMONICS[15 + r.below(11)] } else { m };
    out.push_str(&if r.one_in(5) { m.to_lowercase() } else { m.to_string() });
    for (i, kind) in kinds.chars().enumerate() {
        out.push_str(if i == 0 { " " } else { "," });
        match kind {
            'd' => out.push_str(&format!("D{}", register(r))),
            'a' => out.push_str(&format!("A{}", register(r))),
            'i' => out.push_str(&format!("(A{})", register(r))),
            '8' => out.push_str(&format!("#{}", r.below(300) as i32 - 150)),
            '6' => out.push_str(&format!("#{}", r.below(70000))),
            'n' => number(r, out),
            's' => out.push_str(&format!("{:+}", r.below(264) as i32 - 132)),
            '#' => out.push_str(&format!("#{}", r.pick(&NAMES[..5]))),
            _ => out.push_str(r.pick(&NAMES[..5])),
        }
    }
}

fn instruction(r: &mut Random, out: &mut String) {
    if !r.one_in(3) {
        return well_formed(r, out);
    }
    let m = r.pick(&MNEMONICS);
    let cased = match r.below(4) {
        0 => m.to_lowercase(),
        1 => m.chars().enumerate().map(|(i, c)| if i % 2 == 0 { c.to_ascii_lowercase() } else { c }).collect(),
        _ => m.to_string(),
    };
    out.push_str(&cased);
    out.push_str(r.pick(&["", "", ".L", ".L", ".W", ".B", ".l", ".L.X", ".", "..L"]));
    let n = [0, 1, 1, 2, 2, 2, 2, 2, 3][r.below(9)];
    for i in 0..n {
        out.push_str(if i == 0 { r.pick(&BLANKS) } else { "," });
        if r.one_in(8) {
            out.push_str(r.pick(&BLANKS));
        }
        operand(r, out);
        if r.one_in(12) {
            out.push_str(r.pick(&BLANKS));
        }
        if r.one_in(30) {
            out.push(',');
        }
    }
}

/// Numbers that are not whole: nothing after a prefix and a sign, a bad digit late, and far too large.
const BROKEN: [&str; 16] = [
    "", "+", "-", "$", "0x", "$+", "0x-", "$-", "3O", "99999999999999O", "$1G", "--5", "0x+-1", "99999999999999", "$12345678", "-200",
];

/// An instruction that has the kinds of a form, and a number, a label or a displacement that may fail. Before some, and after some,
/// its operand is a label, about as far away as a branch reaches.
fn almost(r: &mut Random) -> String {
    let number = if r.one_in(2) { r.pick(&BROKEN) } else { r.pick(&NUMBERS) };
    let target = match r.below(4) {
        0 => number.to_string(),
        1 => r.pick(&["+", "-"]).to_string() + number,
        _ => r.pick(&NAMES[..7]).to_string(),
    };
    let n = r.below(8);
    let (label, line) = match r.below(6) {
        0 => (format!("#{number}"), format!("{} #{number},D{n}", r.pick(&["MOVE.L", "MULS", "CMP.L"]))),
        1 => (number.to_string(), format!("{} #{number},D{n}", r.pick(&["MOVEQ", "SUBQ.L", "ASL.L"]))),
        2 => (target.clone(), format!("MOVEA.L #{target},A{n}")),
        3 => (target.clone(), format!("{} {target}", r.pick(&["JMP", "JUMP"]))),
        4 => (target.clone(), format!("DBRA D{n},{target}")),
        _ => (target.clone(), format!("{} {target}", MNEMONICS[15 + r.below(11)])),
    };
    let (here, there) = (r.below(400), 400 + r.below(300));
    let far = here + 122 + r.below(10);
    match r.below(8) {
        0 => format!("ORG {here}\n{label}:\nORG {far}\n{line}"),
        1 => format!("ORG {here}\n{line}\nORG {far}\n{label}:"),
        2 => format!("ORG {there}\n{line}"),
        _ => line,
    }
}

/// Some bytes changed, put in or taken out; all ASCII.
fn damage(r: &mut Random, out: &mut String) {
    let mut bytes = std::mem::take(out).into_bytes();
    for _ in 0..1 + r.below(4) {
        let at = r.below(bytes.len() + 1);
        match r.below(3) {
            0 if at < bytes.len() => bytes[at] = (r.next() % 128) as u8,
            1 if at < bytes.len() => {
                bytes.remove(at);
            }
            _ => bytes.insert(at, (r.next() % 128) as u8),
        }
    }
    // Sources holding `[` leave the comparison with the Rust.
    *out = String::from_utf8(bytes).unwrap().replace('[', "{");
}
