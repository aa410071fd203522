//! A plain interpreter of the forms that the bench runs, as one would write it in Rust: the bench's speed is held against it.

pub const MEMORY: usize = 16_384;

/// What a run leaves: why it ended (0 halt, 1 word, 2 access, 3 limit), the steps, program counter, flags X N Z V C in bits 4 to 0, D0 to D7 and memory.
#[derive(PartialEq, Debug)]
pub struct Left {
    pub end: u8,
    pub steps: u64,
    pub pc: u32,
    pub flags: u8,
    pub d: [u32; 8],
    pub memory: Box<[u8; MEMORY]>,
}

#[derive(Default)]
struct Flags {
    x: bool,
    n: bool,
    z: bool,
    v: bool,
    c: bool,
}

impl Flags {
    fn moved_word(&mut self, v: u16) {
        (self.n, self.z, self.v, self.c) = ((v as i16) < 0, v == 0, false, false);
    }

    fn moved_long(&mut self, v: u32) {
        (self.n, self.z, self.v, self.c) = ((v as i32) < 0, v == 0, false, false);
    }

    /// d - s of words, all flags but X.
    fn compared(&mut self, d: u16, s: u16) -> u16 {
        let (r, borrow) = d.overflowing_sub(s);
        (self.n, self.z, self.v, self.c) = ((r as i16) < 0, r == 0, (d as i16).overflowing_sub(s as i16).1, borrow);
        r
    }

    fn holds(&self, condition: u16) -> Option<bool> {
        Some(match condition {
            0 => true,
            4 => !self.c,
            5 => self.c,
            6 => !self.z,
            7 => self.z,
            12 => self.n == self.v,
            13 => self.n != self.v,
            14 => self.n == self.v && !self.z,
            15 => self.n != self.v || self.z,
            _ => return None,
        })
    }
}

fn word(memory: &[u8; MEMORY], p: usize) -> u16 {
    u16::from_be_bytes([memory[p], memory[p + 1]])
}

fn reached(p: u32, size: u32) -> bool {
    p % 2 == 0 && p <= MEMORY as u32 - size
}

fn with_low(long: u32, low: u16) -> u32 {
    long & 0xFFFF_0000 | low as u32
}

/// Fills the memory from a list and runs it from `start`, at most `limit` steps.
pub fn run(addresses: &[u32], words: &[u16], a: &[u32; 8], start: u32, limit: u64) -> Left {
    let mut memory = Box::new([0u8; MEMORY]);
    for (p, w) in addresses.iter().zip(words) {
        memory[*p as usize..*p as usize + 2].copy_from_slice(&w.to_be_bytes());
    }
    let mut d = [0u32; 8];
    let mut f = Flags::default();
    let (mut pc, mut steps) = (start, 0u64);
    let end = loop {
        if !reached(pc, 2) {
            break 2;
        }
        let w = word(&memory, pc as usize);
        let (m, n) = ((w >> 9 & 7) as usize, (w & 7) as usize);
        let quick = if m == 0 { 8 } else { m as u32 };
        macro_rules! step {
            () => {
                if steps == limit {
                    break 3;
                }
                steps += 1;
            };
        }
        let mut by = 2;
        match (w >> 12, w & 0x1F8) {
            (7, _) if w & 0x100 == 0 => {
                step!();
                d[m] = w as i8 as u32;
                f.moved_long(d[m]);
            }
            (2, 0x010) => {
                if !reached(a[n], 4) {
                    break 2;
                }
                step!();
                let p = a[n] as usize;
                d[m] = u32::from_be_bytes(memory[p..p + 4].try_into().unwrap());
                f.moved_long(d[m]);
            }
            (2, 0x080) => {
                if !reached(a[m], 4) {
                    break 2;
                }
                step!();
                let p = a[m] as usize;
                memory[p..p + 4].copy_from_slice(&d[n].to_be_bytes());
                f.moved_long(d[n]);
            }
            (3, 0x000) => {
                step!();
                d[m] = with_low(d[m], d[n] as u16);
                f.moved_word(d[n] as u16);
            }
            (4, _) if w & 0xFFF8 == 0x4A80 => {
                step!();
                f.moved_long(d[n]);
            }
            (4, _) if w == 0x4E71 => {
                step!();
            }
            (4, _) if w == 0x4E72 => break 0,
            (5, 0x180) => {
                step!();
                let (r, borrow) = d[n].overflowing_sub(quick);
                (f.v, f.c, f.x) = ((d[n] as i32).overflowing_sub(quick as i32).1, borrow, borrow);
                (f.n, f.z) = ((r as i32) < 0, r == 0);
                d[n] = r;
            }
            (6, _) => {
                let b = w & 255;
                let Some(met) = f.holds(w >> 8 & 15) else { break 1 };
                if b == 0 || b == 255 {
                    break 1;
                }
                step!();
                if met {
                    pc = pc.wrapping_add(b as u8 as i8 as u32);
                }
            }
            (9, 0x040) => {
                step!();
                let r = f.compared(d[m] as u16, d[n] as u16);
                f.x = f.c;
                d[m] = with_low(d[m], r);
            }
            (11, 0x040) => {
                step!();
                f.compared(d[m] as u16, d[n] as u16);
            }
            (12, 0x1C0) => {
                step!();
                d[m] = (d[m] as i16 as i32 * d[n] as i16 as i32) as u32;
                f.moved_long(d[m]);
            }
            (12, 0x1F8) if n == 4 => {
                if !reached(pc + 2, 2) {
                    break 2;
                }
                step!();
                d[m] = (d[m] as i16 as i32 * word(&memory, pc as usize + 2) as i16 as i32) as u32;
                f.moved_long(d[m]);
                by = 4;
            }
            (13, 0x040) => {
                step!();
                let (p, q) = (d[m] as u16, d[n] as u16);
                let (r, carry) = p.overflowing_add(q);
                (f.n, f.z, f.v, f.c, f.x) = ((r as i16) < 0, r == 0, (p as i16).overflowing_add(q as i16).1, carry, carry);
                d[m] = with_low(d[m], r);
            }
            (14, 0x180) => {
                step!();
                let wide = (d[n] as i32 as i64) << quick;
                let out = d[n] >> (32 - quick) & 1 == 1;
                d[n] = wide as u32;
                (f.n, f.z, f.v, f.c, f.x) = ((d[n] as i32) < 0, d[n] == 0, wide != wide as i32 as i64, out, out);
            }
            _ => break 1,
        }
        pc = pc.wrapping_add(by);
    };
    let flags = (f.x as u8) << 4 | (f.n as u8) << 3 | (f.z as u8) << 2 | (f.v as u8) << 1 | f.c as u8;
    Left { end, steps, pc, flags, d, memory }
}
