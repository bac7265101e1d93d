//! Drawn TestFloat lists, good and damaged, and drawn states of the reader.

use crate::damage::DAMAGES;
use crate::draws;
use crate::listing::{root, HALF};
use crate::reader::{start, Line, State, KEPT};
use crate::words::{Draw, Format, DOUBLE, SINGLE};

/// A line of any width that agrees, its newline with it. Digits are of one case or of both, a NaN is any.
pub fn good(d: &mut Draw) -> Vec<u8> {
    let f = d.of(&[HALF, SINGLE, DOUBLE]);
    let ends = [0, 1, f.hid() / 2, f.hid() - 1, d.next() % f.hid()];
    let size = if d.below(4) == 0 { d.of(&[0, f.infinity()]) + d.of(&ends) } else { draws::root(f, d) };
    let x = if d.below(8) == 0 { size ^ f.sign() } else { size };
    let (word, flags) = root(f, x);
    let nan = f.infinity() + 1 + d.below(f.hid() - 1) + d.of(&[0, f.sign()]);
    let mut line = written(f, x, if f.is_nan(word) { nan } else { word }, flags);
    match d.below(3) {
        0 => (),
        1 => line.make_ascii_lowercase(),
        _ => line.iter_mut().for_each(|byte| *byte |= byte.is_ascii_uppercase() as u8 * d.of(&[0, 0x20])),
    }
    line
}

/// A line as TestFloat writes it.
pub fn written(f: Format, x: u64, word: u64, flags: u64) -> Vec<u8> {
    let digits = (f.sign().trailing_zeros() as usize + 1) / 4;
    format!("{x:0digits$X} {word:0digits$X} {flags:02X}\n").into_bytes()
}

/// A list of up to so many lines, half of them damaged. One in three is cut off.
pub fn list(d: &mut Draw, most: u64) -> Vec<u8> {
    let mut list = Vec::new();
    for _ in 0..=d.below(most) {
        let mut line = good(d);
        if d.below(2) == 0 {
            d.of(&DAMAGES).1(&mut line, d)
        }
        list.extend(line)
    }
    if d.below(3) == 0 {
        list.truncate(1 + d.below(list.len() as u64) as usize)
    }
    list
}

/// Counts at both ends, any bytes, any number of them held; and a piece, which often ends the line that is open.
pub fn state(d: &mut Draw) -> (State, Vec<u8>) {
    let mut list = list(d, 4);
    let cut = d.below(list.len().min(60) as u64 + 1) as usize;
    let piece = list.split_off(cut);
    let open = list.split(|&byte| byte == b'\n').next_back().unwrap_or_default();
    let mut state = start();
    for total in [&mut state.tally.lines, &mut state.tally.agree, &mut state.tally.malformed] {
        *total = count(d);
    }
    state.tally.number = if d.below(2) == 0 { 0 } else { count(d) };
    let first = good(d);
    state.tally.first = line(d, &first);
    state.line = line(d, open);
    let piece = match d.below(16) {
        0 => Vec::new(),
        1 => b"\n".to_vec(),
        2 => vec![d.next() as u8],
        _ => piece,
    };
    (state, piece)
}

fn count(d: &mut Draw) -> u64 {
    match d.below(6) {
        0 => 0,
        1 => u64::MAX,
        2 => u64::MAX - 1,
        3 => u64::MAX - d.below(9),
        4 => d.sized(64),
        _ => d.below(9),
    }
}

/// A line with any bytes after it, or any bytes; one in four has any number of bytes held.
fn line(d: &mut Draw, line: &[u8]) -> Line {
    let mut drawn = Line::of(line);
    let from = if d.below(4) == 0 { 0 } else { drawn.held };
    for byte in &mut drawn.bytes[from..] {
        *byte = if d.below(2) == 0 { d.next() as u8 } else { d.of(b"0189afAF \n\r\0") };
    }
    if d.below(4) == 0 {
        let any = d.next() as usize;
        drawn.held = d.of(&[0, 1, KEPT - 1, KEPT, KEPT + 1, 255, 256 + 12, usize::MAX, any]);
    }
    drawn
}
