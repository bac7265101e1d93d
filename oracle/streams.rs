//! The reader of TestFloat lists held to the second reading: however a list is cut, and on any state handed in.

use crate::checks::{line, told, Tally};
use crate::list_draws::{good, list, state};
use crate::listing::{self, Counts};
use crate::reader::{fed, feed, finish, start, Line, State, Totals, KEPT};
use crate::words::Draw;

pub const NAME: &str = "testfloat";

impl Tally {
    /// A drawn list of a few lines in pieces of every size.
    pub fn every_size(&mut self, d: &mut Draw) {
        let list = list(d, 8);
        let expected = Totals::of(&listing::read(&list));
        for size in 1..=list.len().max(1) {
            let (bytes, got) = kept(&list, |bytes| fed(bytes.chunks(size)));
            self.totals(bytes, got, &expected, || format!("{} in pieces of {size}", shown(&list)));
        }
    }

    /// A drawn line and another after it, with each byte in each place of the first: before what is there, or instead.
    pub fn every_byte(&mut self, d: &mut Draw) {
        let (first, after) = (good(d), good(d));
        for place in 0..first.len() {
            for byte in 0..=u8::MAX {
                for upto in [place, place + 1] {
                    let list = [&first[..place], &[byte], &first[upto..], &after].concat();
                    let expected = Totals::of(&listing::read(&list));
                    let (bytes, got) = kept(&list, |bytes| fed([bytes]));
                    self.totals(bytes, got, &expected, || shown(&list));
                }
            }
        }
    }

    /// A drawn list of up to 2,000 lines, eight times cut at drawn places, with empty pieces among the others.
    pub fn cut_anywhere(&mut self, d: &mut Draw) {
        let list = list(d, 2000);
        let expected = Totals::of(&listing::read(&list));
        for _ in 0..8 {
            let most = d.of(&[3, 6, 9, 14, 18]);
            let mut sizes = Vec::new();
            let (bytes, got) = kept(&list, |bytes| {
                let (mut state, mut rest) = (start(), bytes);
                while !rest.is_empty() {
                    let size = if d.below(8) == 0 { 0 } else { rest.len().min(d.sized(most) as usize) };
                    let (piece, after) = rest.split_at(size);
                    (state, rest) = (feed(state, piece), after);
                    sizes.push(size);
                }
                finish(state)
            });
            self.totals(bytes, got, &expected, || {
                sizes.truncate(99);
                format!("{} in pieces of {sizes:?} at first", shown(&list))
            });
        }
    }

    /// Any state, finished; the same state fed a piece; and what that gives, finished.
    pub fn any_state(&mut self, d: &mut Draw) {
        let (state, piece) = state(d);
        // What stands around the piece is none of its bytes.
        let around = d.of(b"0aF \n\0");
        let memory = [vec![around; KEPT], piece.clone(), vec![around; KEPT]].concat();
        let (bytes, after) = kept(&memory, |bytes| feed(state, &bytes[KEPT..KEPT + piece.len()]));

        let mut meant = Meant::of(&state);
        let what = || format!("the state {}\n    finished", state.told());
        self.totals(true, finish(state), &meant.finished(), what);
        meant.feed(&piece);
        let expected = State { tally: Totals::of(&meant.counts), line: Line::of(&meant.line) };
        let what = || format!("the state {}\n    fed {}", state.told(), shown(&piece));
        let mut got = after;
        if self.taken(0) != 0 {
            match self.results / 3 % 3 {
                0 => got.line.held ^= 1,
                1 => got.line.bytes[self.results as usize % KEPT] ^= 1,
                _ => alter(&mut got.tally, self.results),
            }
        }
        self.held(bytes && got == expected, || {
            told(NAME, &what(), &line("it should be", &expected.told()), &port(bytes, got.told()))
        });
        self.totals(true, finish(after), &meant.finished(), || what() + "\n    finished");
    }

    /// What is returned at the end of a list, all of it. A fault is one bit of any of it.
    pub fn totals(&mut self, bytes: bool, mut got: Totals, expected: &Totals, what: impl FnOnce() -> String) {
        if self.taken(0) != 0 {
            alter(&mut got, self.results)
        }
        self.held(bytes && got == *expected, || {
            told(NAME, &what(), &line("it should be", &expected.told()), &port(bytes, got.told()))
        });
    }
}

/// Lends a copy, and says beside the answer whether it still has the bytes.
fn kept<A>(bytes: &[u8], lend: impl FnOnce(&[u8]) -> A) -> (bool, A) {
    let copy = bytes.to_vec();
    let answer = lend(std::hint::black_box(&copy));
    (std::hint::black_box(copy) == bytes, answer)
}

fn port(bytes: bool, told: String) -> String {
    if bytes {
        told
    } else {
        told + ", and the bytes read have changed"
    }
}

/// The start of a list.
pub fn shown(list: &[u8]) -> String {
    let most = list.len().min(500);
    format!("\"{}\"{}", list[..most].escape_ascii(), if most < list.len() { " .." } else { "" })
}

/// Another bit for another place.
fn alter(totals: &mut Totals, place: u64) {
    match place % 6 {
        0 => totals.lines ^= 1,
        1 => totals.agree ^= 1,
        2 => totals.malformed ^= 1,
        3 => totals.number ^= 1,
        4 => totals.first.held ^= 1,
        _ => totals.first.bytes[place as usize / 6 % KEPT] ^= 1,
    }
}

/// What a state means: the counts and the bytes of the open line, of which the first 37 are enough.
struct Meant {
    counts: Counts,
    line: Vec<u8>,
}

impl Meant {
    fn of(state: &State) -> Meant {
        let Totals { lines, agree, malformed, number, first } = state.tally;
        let counts = Counts { lines, agree, malformed, number, first: first.counted().to_vec() };
        Meant { counts, line: state.line.counted().to_vec() }
    }

    /// What stands before the first newline ends the open line, and what stands after the last one opens another.
    fn feed(&mut self, piece: &[u8]) {
        for (place, part) in piece.split(|&byte| byte == b'\n').enumerate() {
            if place > 0 {
                self.counts.count(&self.line);
                self.line.clear();
            }
            self.line.extend(part);
        }
        self.line.truncate(KEPT);
    }

    fn finished(&self) -> Totals {
        let mut counts = self.counts.clone();
        if !self.line.is_empty() {
            counts.count(&self.line);
        }
        Totals::of(&counts)
    }
}
