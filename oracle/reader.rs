//! The port's reader of TestFloat lists by its C face, and what it should return in the same shape.

use crate::listing::Counts;

#[allow(dead_code)]
#[path = "../bindings/rust/src/face.rs"]
mod face;

pub use face::{Line, Tally as Totals, Testfloat as State, LINE_KEPT as KEPT};

pub fn start() -> State {
    unsafe { face::igholmaz_testfloat_start() }
}

/// An empty piece has no pointer.
pub fn feed(state: State, piece: &[u8]) -> State {
    let pointer = if piece.is_empty() { std::ptr::null() } else { piece.as_ptr() };
    unsafe { face::igholmaz_testfloat_feed(state, pointer, piece.len()) }
}

pub fn finish(state: State) -> Totals {
    unsafe { face::igholmaz_testfloat_finish(state) }
}

/// A whole list in pieces.
pub fn fed<'a>(pieces: impl IntoIterator<Item = &'a [u8]>) -> Totals {
    finish(pieces.into_iter().fold(start(), feed))
}

impl Line {
    /// The line that is returned: at most its first 37 bytes, zeros after them.
    pub fn of(line: &[u8]) -> Line {
        let held = line.len().min(KEPT);
        let mut bytes = [0; KEPT];
        bytes[..held].copy_from_slice(&line[..held]);
        Line { bytes, held }
    }

    /// The bytes that count.
    pub fn counted(&self) -> &[u8] {
        &self.bytes[..self.held.min(KEPT)]
    }

    /// Without the zeros at the end.
    fn told(&self) -> String {
        let end = self.bytes.iter().rposition(|&byte| byte != 0).map_or(0, |last| last + 1);
        format!("\"{}\" ({} held)", self.bytes[..end].escape_ascii(), self.held)
    }
}

impl Totals {
    pub fn of(counts: &Counts) -> Totals {
        let &Counts { lines, agree, malformed, number, ref first } = counts;
        Totals { lines, agree, malformed, number, first: Line::of(first) }
    }

    pub fn told(&self) -> String {
        let Totals { lines, agree, malformed, number, first } = self;
        format!("lines {lines}, agree {agree}, malformed {malformed}, number {number}, first {}", first.told())
    }
}

impl State {
    pub fn told(&self) -> String {
        format!("{}, line {}", self.tally.told(), self.line.told())
    }
}
