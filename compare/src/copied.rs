//! The tidy copy of a source by the rules' words, apart from the Rattle code: it goes by the runs of blanks of each line, of which each
//! goes, is kept or becomes one space by what stands beside it.
use crate::generate::Random;

/// the stations' blanks.
fn blank(b: u8) -> bool {
    b == 32 || (9..=13).contains(&b)
}

/// The colons around which blanks go, on a line without outer blanks: "on a line that reaches step 4" the first one, and "the second
/// colon .. only where the rest is data".
fn treated(line: &[u8]) -> Vec<usize> {
    let upper = line.to_ascii_uppercase();
    if upper.starts_with(b"END") || upper.starts_with(b"ORG") {
        return Vec::new();
    }
    let mut colons: Vec<usize> = (0..line.len()).filter(|i| line[*i] == b':').collect();
    let rest = colons.first().map_or(&[][..], |first| &upper[first + 1..]);
    let data = rest.windows(3).any(|w| w == b"DC." || w == b"DS.");
    colons.truncate(if data { 2 } else { 1 });
    colons
}

/// The copy of a line without outer blanks.
fn copied_line(line: &[u8]) -> Vec<u8> {
    let colons = treated(line);
    let names_end = colons.last().copied().unwrap_or(0);
    let mut out = Vec::new();
    let mut i = 0;
    while i < line.len() {
        let run = line[i..].iter().take_while(|b| blank(**b)).count();
        let beside_colon = colons.contains(&(i + run)) || i > 0 && colons.contains(&(i - 1));
        if run == 0 {
            out.push(line[i]);
        } else if beside_colon {
            // "those around that colon go"
        } else if i < names_end {
            // "blanks inside the name before the first colon are kept"
            out.extend_from_slice(&line[i..i + run]);
        } else {
            // "blank runs become one space"
            out.push(b' ');
        }
        i += run.max(1);
    }
    out
}

/// "each line that is read, the whole END line too, without skipped lines, parted by one byte 10 and none at the end"
pub fn copied(source: &[u8]) -> Vec<u8> {
    let mut out = Vec::new();
    for line in source.split(|b| *b == 10) {
        // "Outer blanks go"
        let first = line.iter().position(|b| !blank(*b)).unwrap_or(line.len());
        let last = line.iter().rposition(|b| !blank(*b)).map_or(first, |i| i + 1);
        let line = &line[first..last];
        if line.is_empty() || line[0] == b';' {
            continue;
        }
        out.push(copied_line(line));
        if line.to_ascii_uppercase().starts_with(b"END") {
            break;
        }
    }
    out.join(&10)
}

/// A script with more blanks, around colons, at the ends of lines and where there is one already, and here and there a colon more.
pub fn blanked(r: &mut Random, script: &str) -> String {
    let mut out = String::new();
    for c in script.chars() {
        let may = matches!(c, ':' | ' ' | '\n');
        if may && r.one_in(3) {
            out.push_str(r.pick(&[" ", "\t", "  ", "\r"]));
        }
        if may && r.one_in(24) {
            out.push(':');
        }
        out.push(c);
        if may && r.one_in(3) {
            out.push_str(r.pick(&[" ", "\t", " \t ", "\u{b}\u{c}"]));
        }
    }
    out
}
