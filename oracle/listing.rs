//! A second reading of TestFloat lists, which shares nothing with the port: the whole list is split at newlines, a
//! line is matched at once, and its root is found in whole numbers. What must be believed is `read`, `judged`, `root`.

use crate::words::{Format, DOUBLE, SINGLE};

pub const HALF: Format = Format { p: 11, emax: 15 };

/// TestFloat's bits; a root has no other.
pub const INEXACT: u64 = 1;
pub const INVALID: u64 = 16;

#[derive(Clone, Copy, PartialEq)]
pub enum Judged {
    Agrees,
    Disagrees,
    Malformed,
}

/// Of a list. `number` counts from 1 and is that of `first`, the first line that disagrees; 0 if none does.
#[derive(Clone, Default)]
pub struct Counts {
    pub lines: u64,
    pub agree: u64,
    pub malformed: u64,
    pub number: u64,
    pub first: Vec<u8>,
}

pub fn read(list: &[u8]) -> Counts {
    let mut lines: Vec<&[u8]> = list.split(|&byte| byte == b'\n').collect();
    // A newline ends a line: what follows the last one is a line only if it has bytes.
    if lines.last().is_some_and(|last| last.is_empty()) {
        lines.pop();
    }
    let mut counts = Counts::default();
    lines.into_iter().for_each(|line| counts.count(line));
    counts
}

impl Counts {
    /// One line more. Counts stop at 2^64 - 1.
    pub fn count(&mut self, line: &[u8]) {
        self.lines = self.lines.saturating_add(1);
        match judged(line) {
            Judged::Agrees => self.agree = self.agree.saturating_add(1),
            Judged::Malformed => self.malformed = self.malformed.saturating_add(1),
            Judged::Disagrees if self.number == 0 => (self.number, self.first) = (self.lines, line.to_vec()),
            Judged::Disagrees => (),
        }
    }

    /// All that the program prints.
    pub fn report(&self) -> String {
        let Counts { lines, agree, malformed, number, first } = self;
        let disagrees = match number {
            0 => String::new(),
            _ => format!("line {number} disagrees: {}\n", String::from_utf8_lossy(first)),
        };
        let verdict = match (lines, lines == agree) {
            (0, _) => "no line was read",
            (_, true) => "every line agrees",
            _ => "not every line agrees",
        };
        format!("lines {lines}\nagree {agree}\nmalformed {malformed}\n{disagrees}testfloat: {verdict}\n")
    }
}

/// W digits, a blank, W digits, a blank, 2 digits: operand, result and flags of a width.
pub fn judged(line: &[u8]) -> Judged {
    let fields: Vec<&[u8]> = line.split(|&byte| byte == b' ').collect();
    let f = match *fields.iter().map(|field| field.len()).collect::<Vec<_>>() {
        [4, 4, 2] => HALF,
        [8, 8, 2] => SINGLE,
        [16, 16, 2] => DOUBLE,
        _ => return Judged::Malformed,
    };
    let Some(numbers) = fields.into_iter().map(hexadecimal).collect::<Option<Vec<u64>>>() else {
        return Judged::Malformed;
    };
    let (operand, result, flags) = (numbers[0], numbers[1], numbers[2]);
    let (word, raised) = root(f, operand);
    let same = if f.is_nan(word) { f.is_nan(result) } else { result == word };
    if same && flags == raised {
        Judged::Agrees
    } else {
        Judged::Disagrees
    }
}

/// The number that at most 16 digits of either case are; none if a byte is no digit.
fn hexadecimal(digits: &[u8]) -> Option<u64> {
    digits.iter().try_fold(0, |number, &byte| Some(16 * number + u64::from(char::from(byte).to_digit(16)?)))
}

/// The word of a root and its flags. A positive finite x is W·2^(1-p)·4^E with W·2^(1-p) in [1, 4), so its root is
/// that of M = W·2^(p-1), which has p digits before the point, times 2^(E-p+1). It is a number of the format exactly
/// when M is a square. Halfway between s and s + 1 is the root of s² + s + 1/4, which is no whole number, so there
/// are no ties.
pub fn root(f: Format, x: u64) -> (u64, u64) {
    if f.is_nan(x) {
        let quiet = x & f.hid() / 2 != 0;
        return (f.quiet(), if quiet { 0 } else { INVALID });
    }
    if f.size(x) == 0 || x == f.infinity() {
        return (x, 0);
    }
    if x & f.sign() != 0 {
        return (f.quiet(), INVALID);
    }
    let (w, e) = f.whole(x);
    let m = u128::from(w) << (f.p - 1);
    let s = m.isqrt();
    let left = m - s * s;
    let nearest = if left > s { s + 1 } else { s };
    (f.power(e) + nearest as u64 - f.hid(), if left == 0 { 0 } else { INEXACT })
}
