//! The Rattle code through its C interface, wrapped so that a call is safe.
use crate::interpreter::{Left, MEMORY};

extern "C" {
    fn lagvettu_assemble(
        source: *const u8,
        source_len: usize,
        base: u32,
        addresses: *mut u32,
        addresses_len: usize,
        words: *mut u16,
        words_len: usize,
        marks: *mut u8,
        marks_len: usize,
        place: *mut usize,
    ) -> u8;
    fn lagvettu_assemble_manual(
        source: *const u8,
        source_len: usize,
        base: u32,
        addresses: *mut u32,
        addresses_len: usize,
        words: *mut u16,
        words_len: usize,
        marks: *mut u8,
        marks_len: usize,
        place: *mut usize,
    ) -> u8;
    fn lagvettu_move(
        addresses: *mut u32,
        addresses_len: usize,
        words: *mut u16,
        words_len: usize,
        marks: *const u8,
        marks_len: usize,
        count: usize,
        distance: i32,
        place: *mut usize,
    ) -> u8;
    fn lagvettu_symbols(
        source: *const u8,
        source_len: usize,
        base: u32,
        starts: *mut u32,
        starts_len: usize,
        lengths: *mut u32,
        lengths_len: usize,
        addresses: *mut u32,
        addresses_len: usize,
        lines: *mut u32,
        lines_len: usize,
        place: *mut usize,
    ) -> u8;
    fn lagvettu_nearest(
        source: *const u8,
        source_length: usize,
        base: u32,
        address: u32,
        start: *mut usize,
        length: *mut usize,
        distance: *mut u32,
        place: *mut usize,
    ) -> u8;
    fn lagvettu_line_number(line: *const u8, line_len: usize, value: *mut u32) -> u8;
    fn lagvettu_tidy(source: *const u8, source_len: usize, out: *mut u8, out_len: usize, place: *mut usize) -> u8;
    fn lagvettu_explain(source: *const u8, source_len: usize, base: u32, line: usize, verdict: *mut u8, place: *mut usize) -> u8;
    fn lagvettu_assemble_branches(
        names: *const u8,
        names_len: usize,
        source: *const u8,
        source_len: usize,
        base: u32,
        addresses: *mut u32,
        addresses_len: usize,
        words: *mut u16,
        words_len: usize,
        marks: *mut u8,
        marks_len: usize,
        place: *mut usize,
    ) -> u8;
    fn lagvettu_explain_branches(
        names: *const u8,
        names_len: usize,
        source: *const u8,
        source_len: usize,
        base: u32,
        line: usize,
        verdict: *mut u8,
        place: *mut usize,
    ) -> u8;
    fn lagvettu_run(
        addresses: *const u32,
        addresses_len: usize,
        words: *const u16,
        words_len: usize,
        count: usize,
        a: *const u32,
        start: u32,
        limit: u64,
        d: *mut u32,
        memory: *mut u8,
        end: *mut u8,
        steps: *mut u64,
        pc: *mut u32,
        flags: *mut u8,
        place: *mut usize,
    ) -> u8;
    fn lagvettu_sheet_add(source: *const u8, source_len: usize, totals: *mut u64, place: *mut usize) -> u8;
    fn lagvettu_sheet_join(other: *const u64, totals: *mut u64, place: *mut usize) -> u8;
}

/// Three slices, as a caller lends them.
#[derive(Clone, PartialEq, Debug)]
pub struct Slices {
    pub addresses: Vec<u32>,
    pub words: Vec<u16>,
    pub marks: Vec<u8>,
}

impl Slices {
    /// Slices of these lengths, every place holding something that no list has.
    pub fn old(lengths: [usize; 3]) -> Slices {
        Slices { addresses: vec![0xAAAAAAAA; lengths[0]], words: vec![0xAAAA; lengths[1]], marks: vec![0xAA; lengths[2]] }
    }

    /// The list in the first places.
    pub fn list(&self, count: usize) -> Vec<(u32, u16, u8)> {
        (0..count).map(|i| (self.addresses[i], self.words[i], self.marks[i])).collect()
    }
}

/// An answer: 0 and the count, or a refusal's number and its place.
pub type Answer = (u8, usize);

/// An assembling call of the C interface.
type Assembling =
    unsafe extern "C" fn(*const u8, usize, u32, *mut u32, usize, *mut u16, usize, *mut u8, usize, *mut usize) -> u8;

fn assembled(call: Assembling, source: &[u8], base: u32, x: &mut Slices) -> Answer {
    let mut place = usize::MAX;
    let number = unsafe {
        call(
            source.as_ptr(),
            source.len(),
            base,
            x.addresses.as_mut_ptr(),
            x.addresses.len(),
            x.words.as_mut_ptr(),
            x.words.len(),
            x.marks.as_mut_ptr(),
            x.marks.len(),
            &mut place,
        )
    };
    (number, place)
}

/// The rules' call.
pub fn assemble(source: &[u8], base: u32, x: &mut Slices) -> Answer {
    assembled(lagvettu_assemble, source, base, x)
}

/// The manual's call.
pub fn assemble_manual(source: &[u8], base: u32, x: &mut Slices) -> Answer {
    assembled(lagvettu_assemble_manual, source, base, x)
}

pub fn relocate(x: &mut Slices, count: usize, distance: i32) -> Answer {
    let mut place = usize::MAX;
    let number = unsafe {
        lagvettu_move(
            x.addresses.as_mut_ptr(),
            x.addresses.len(),
            x.words.as_mut_ptr(),
            x.words.len(),
            x.marks.as_ptr(),
            x.marks.len(),
            count,
            distance,
            &mut place,
        )
    };
    (number, place)
}

/// The answer on the nearest label, all that a call writes: 0 and a label, the place 0; or a refusal and its place, the rest 0.
#[derive(PartialEq, Debug)]
pub struct Nearest {
    pub number: u8,
    pub place: usize,
    pub start: usize,
    pub length: usize,
    pub distance: u32,
}

pub fn nearest(source: &[u8], base: u32, address: u32) -> Nearest {
    let mut n = Nearest { number: u8::MAX, place: usize::MAX, start: usize::MAX, length: usize::MAX, distance: u32::MAX };
    n.number = unsafe {
        lagvettu_nearest(
            source.as_ptr(),
            source.len(),
            base,
            address,
            &mut n.start,
            &mut n.length,
            &mut n.distance,
            &mut n.place,
        )
    };
    n
}

/// The four slices that the symbols are put into: starts, lengths, addresses and lines.
#[derive(Clone, PartialEq, Debug)]
pub struct Rows(pub [Vec<u32>; 4]);

impl Rows {
    /// Slices of these lengths, every place holding something that no row has.
    pub fn old(lengths: [usize; 4]) -> Rows {
        Rows(lengths.map(|n| vec![0xAAAAAAAA; n]))
    }

    /// The first rows.
    pub fn rows(&self, count: usize) -> Vec<(u32, u32, u32, u32)> {
        (0..count).map(|i| (self.0[0][i], self.0[1][i], self.0[2][i], self.0[3][i])).collect()
    }

    /// What stands after them.
    pub fn past(&self, count: usize) -> Vec<&[u32]> {
        self.0.iter().map(|x| &x[count..]).collect()
    }
}

pub fn symbols(source: &[u8], base: u32, x: &mut Rows) -> Answer {
    let mut place = usize::MAX;
    let [starts, lengths, addresses, lines] = &mut x.0;
    let number = unsafe {
        lagvettu_symbols(
            source.as_ptr(),
            source.len(),
            base,
            starts.as_mut_ptr(),
            starts.len(),
            lengths.as_mut_ptr(),
            lengths.len(),
            addresses.as_mut_ptr(),
            addresses.len(),
            lines.as_mut_ptr(),
            lines.len(),
            &mut place,
        )
    };
    (number, place)
}

/// The verdict on a line, all that a call writes: 0 and a verdict, the place 0; or a refusal and its place, the verdict 255.
#[derive(PartialEq, Debug)]
pub struct Explained {
    pub number: u8,
    pub verdict: u8,
    pub place: usize,
}

/// What the number of a line said, and its value.
pub fn line_number(line: &[u8]) -> (u8, u32) {
    let mut value = u32::MAX;
    let number = unsafe { lagvettu_line_number(line.as_ptr(), line.len(), &mut value) };
    (number, value)
}

pub fn explain(source: &[u8], base: u32, line: usize) -> Explained {
    let mut e = Explained { number: u8::MAX, verdict: 0xAA, place: usize::MAX };
    e.number = unsafe { lagvettu_explain(source.as_ptr(), source.len(), base, line, &mut e.verdict, &mut e.place) };
    e
}

/// The rules' call under a branch table.
pub fn assemble_branches(names: &[u8], source: &[u8], base: u32, x: &mut Slices) -> Answer {
    let mut place = usize::MAX;
    let number = unsafe {
        lagvettu_assemble_branches(
            names.as_ptr(),
            names.len(),
            source.as_ptr(),
            source.len(),
            base,
            x.addresses.as_mut_ptr(),
            x.addresses.len(),
            x.words.as_mut_ptr(),
            x.words.len(),
            x.marks.as_mut_ptr(),
            x.marks.len(),
            &mut place,
        )
    };
    (number, place)
}

/// The same under a branch table.
pub fn explain_branches(names: &[u8], source: &[u8], base: u32, line: usize) -> Explained {
    let mut e = Explained { number: u8::MAX, verdict: 0xAA, place: usize::MAX };
    e.number = unsafe {
        lagvettu_explain_branches(names.as_ptr(), names.len(), source.as_ptr(), source.len(), base, line, &mut e.verdict, &mut e.place)
    };
    e
}

/// The tidy copy of a source, put into the slice.
pub fn tidy(source: &[u8], out: &mut [u8]) -> Answer {
    let mut place = usize::MAX;
    let number = unsafe { lagvettu_tidy(source.as_ptr(), source.len(), out.as_mut_ptr(), out.len(), &mut place) };
    (number, place)
}

/// A run of a list on the bench that is not refused.
pub fn run(addresses: &[u32], words: &[u16], a: &[u32; 8], start: u32, limit: u64) -> Left {
    let mut left = Left { end: 0xAA, steps: 0, pc: 0, flags: 0, d: [0xAAAA_AAAA; 8], memory: Box::new([0xAA; MEMORY]) };
    let mut place = usize::MAX;
    let number = unsafe {
        lagvettu_run(
            addresses.as_ptr(),
            addresses.len(),
            words.as_ptr(),
            words.len(),
            words.len(),
            a.as_ptr(),
            start,
            limit,
            left.d.as_mut_ptr(),
            left.memory.as_mut_ptr(),
            &mut left.end,
            &mut left.steps,
            &mut left.pc,
            &mut left.flags,
            &mut place,
        )
    };
    assert!(number == 0, "refused {number} {place}");
    left
}

/// The sheet: a source added to twelve totals.
pub fn sheet_add(source: &[u8], totals: &mut [u64; 12]) -> Answer {
    let mut place = usize::MAX;
    let number = unsafe { lagvettu_sheet_add(source.as_ptr(), source.len(), totals.as_mut_ptr(), &mut place) };
    (number, place)
}

/// The sheet: another sheet's totals added to them.
pub fn sheet_join(other: &[u64; 12], totals: &mut [u64; 12]) -> Answer {
    let mut place = usize::MAX;
    let number = unsafe { lagvettu_sheet_join(other.as_ptr(), totals.as_mut_ptr(), &mut place) };
    (number, place)
}
