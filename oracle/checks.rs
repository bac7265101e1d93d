//! One answer of the port held against the other sides or against document 01's definition.

use crate::operations::{Batched, Operation, Width, GUARD};
use crate::sides::face::{Batch, Partial, Sorted, BATCH_MOST};
use crate::words::{Draw, Format};

/// What a piece of work has counted. At `plant`, counted from 1, the port's answer is altered in one bit.
#[derive(Default)]
pub struct Tally {
    pub results: u64,
    pub differ: u64,
    pub first: Option<String>,
    pub plant: u64,
}

impl Tally {
    /// Counts an answer of the port and gives it back, its last bit altered where a fault is planted.
    pub fn taken(&mut self, word: u64) -> u64 {
        self.taken_at(word, 1)
    }

    /// The same where not every altered bit is a fault: `bit` is one that is.
    pub fn taken_at(&mut self, word: u64, bit: u64) -> u64 {
        self.results += 1;
        if self.results == self.plant {
            word ^ bit
        } else {
            word
        }
    }

    pub fn held(&mut self, good: bool, say: impl FnOnce() -> String) {
        if !good {
            self.differ += 1;
            if self.first.is_none() {
                self.first = Some(say());
            }
        }
    }

    /// fabs, scaling, root or power: every side has the port's word, and the number is 0.
    pub fn single(&mut self, op: &Operation, x: u64, y: u64) {
        let answer = (op.port)(x, y);
        let word = self.taken(answer.word);
        self.held(answer.number == 0 && agreed(op, x, y, word), || {
            let port = format!("{} (number {})", shown(op.format, word), answer.number);
            told(op.name, &operands(op, x, y), &answers(op, x, y), &port)
        });
    }

    /// A partial root: document 01's inequality and left-over, or refusal 3 or 4 and zeros. After the last
    /// round the digits, rounded, must be the processor's root.
    pub fn partial(&mut self, width: &Width, x: u64, rounds: u32) {
        let f = width.sqrt.format;
        let mut got = (width.partial.1)(x, rounds);
        got.digits = self.taken(got.digits);
        let refusal = if x == 0 || x >= f.infinity() {
            3
        } else if rounds > f.p + 1 {
            4
        } else {
            0
        };
        let (_, processor) = width.sqrt.sides[2];
        let good = got.number == refusal
            && if refusal != 0 {
                (got.digits, got.left, got.rounds) == (0, 0, 0)
            } else {
                got.rounds == rounds
                    && defined(f, x, &got)
                    && (rounds <= f.p || rounded(f, x, got.digits) == processor(x, 0))
            };
        self.held(good, || {
            let Partial { number, digits, left, rounds: k } = got;
            let port = format!("number {number}, digits {digits}, left-over {left}, rounds {k}");
            let expected = if refusal != 0 {
                format!("number {refusal} and zeros")
            } else {
                let w = u128::from(f.whole(x).0);
                let q =
                    if 2 * rounds > f.p { w << (2 * rounds - f.p - 1) } else { w >> (f.p + 1 - 2 * rounds) }.isqrt();
                let left = (w << (rounds + 1)) - (q * q << (f.p + 2 - rounds));
                format!("number 0, digits {q}, left-over {left}, rounds {rounds}")
            };
            told(
                width.partial.0,
                &format!("x = {}, rounds = {rounds}", shown(f, x)),
                &line("it should be", &expected),
                &port,
            )
        });
    }

    /// The sorting: open exactly as document 01's rules say, with the sign of the original's power, or
    /// settled with the original's power.
    pub fn sorted(&mut self, width: &Width, x: u64, y: u64) {
        let f = width.pow.format;
        let got = (width.sort.1)(x, y);
        let word = self.taken(got.word);
        let open = opened(f.value(x), f.value(y));
        let agrees = |theirs: u64| match open {
            Some(negative) => got.negative == negative && word == 0 && (theirs & f.sign() != 0) == negative,
            None => !got.negative && f.same(word, theirs),
        };
        let good =
            got.number == 0 && got.open == open.is_some() && width.pow.sides.iter().all(|(_, side)| agrees(side(x, y)));
        self.held(good, || {
            let Sorted { number, open, negative, .. } = got;
            let port = format!("number {number}, open {open}, negative {negative}, word {}", shown(f, word));
            told(width.sort.0, &operands(width.pow, x, y), &answers(width.pow, x, y), &port)
        });
    }

    /// A batch over drawn operands.
    pub fn batch(
        &mut self,
        batch: &Batched,
        lens: [usize; 3],
        d: &mut Draw,
        draw: fn(Format, &mut Draw) -> (u64, u64),
    ) {
        let pairs: Vec<(u64, u64)> = (0..lens[0].max(lens[1])).map(|_| draw(batch.single.format, d)).collect();
        self.batch_of(batch, lens, &pairs, d)
    }

    /// A batch over operands given: its number and count, the result words as single calls and the other sides give
    /// them or untouched, the words around them untouched, the operands kept.
    pub fn batch_of(&mut self, batch: &Batched, lens: [usize; 3], pairs: &[(u64, u64)], d: &mut Draw) {
        let op = batch.single;
        let xs: Vec<u64> = pairs[..lens[0]].iter().map(|pair| pair.0).collect();
        let ys: Vec<u64> = pairs[..lens[1]].iter().map(|pair| pair.1).collect();
        let before: Vec<u64> = (0..lens[2] + 2 * GUARD).map(|_| op.format.fit(d.next())).collect();
        let mut after = before.clone();
        let (Batch { number, count }, kept) = (batch.call)(&xs, &ys, &mut after);

        let equal = lens[0] == lens[2] && (batch.operands == 1 || lens[1] == lens[2]);
        let expected = if !equal {
            1
        } else if lens[2] > BATCH_MOST {
            2
        } else {
            0
        };
        let wanted = if expected == 0 { lens[2] } else { 0 };
        let counted = self.taken(count as u64);
        self.held(kept && number == expected && counted == wanted as u64, || {
            let port = format!("number {number}, count {counted}, operands kept {kept}");
            told(
                batch.name,
                &format!("lengths {lens:?}"),
                &line("it should be", &format!("number {expected}, count {wanted}")),
                &port,
            )
        });
        for (i, (&old, &new)) in before.iter().zip(&after).enumerate() {
            let place = i.wrapping_sub(GUARD);
            let what = |of: &str| format!("lengths {lens:?}, result {}, {of}", place as isize);
            if expected == 0 && place < lens[2] {
                let ((x, y), got) = (pairs[place], self.taken(new));
                let wanted = (op.port)(x, y).word;
                self.held(got == wanted && agreed(op, x, y, got), || {
                    let others = answers(op, x, y) + &line("the single call", &shown(op.format, wanted));
                    told(batch.name, &what(&operands(op, x, y)), &others, &shown(op.format, got))
                });
            } else {
                self.held(new == old, || {
                    let others = line("it should be", &shown(op.format, old));
                    told(batch.name, &what("untouched"), &others, &shown(op.format, new))
                });
            }
        }
    }
}

/// Whether every other side has the port's word.
fn agreed(op: &Operation, x: u64, y: u64, word: u64) -> bool {
    let same = |theirs: u64| if op.bits { word == theirs } else { op.format.same(word, theirs) };
    op.sides.iter().all(|(_, side)| same(side(x, y)))
}

/// 2^(p+1)·Q² ≤ 4^k·W < 2^(p+1)·(Q+1)² and left-over 2^(k+1)·W − 2^(p+2−k)·Q², both sides of the first
/// divided by the powers of two that they share.
fn defined(f: Format, x: u64, got: &Partial) -> bool {
    let (p, k) = (f.p, got.rounds);
    let (w, q) = (u128::from(f.whole(x).0), u128::from(got.digits));
    if q >> k != 0 {
        return false;
    }
    let (w_by, q_by) = (1u128 << (2 * k).saturating_sub(p + 1), 1u128 << (p + 1).saturating_sub(2 * k));
    let within = q_by * q * q <= w_by * w && w_by * w < q_by * (q + 1) * (q + 1);
    within && u128::from(got.left) == (w << (k + 1)) - (q * q << (p + 2 - k))
}

/// The root from its p + 1 digits: an odd Q raised by 1, then halved to S; S·2^(E-p+1).
fn rounded(f: Format, x: u64, q: u64) -> u64 {
    let s = (q + q % 2) / 2;
    f.power(f.whole(x).1) + s - f.hid()
}

/// Document 01's rules: none where they settle the power, else whether it is negative.
fn opened(x: f64, y: f64) -> Option<bool> {
    let settled = [0., 1., -1., 2.].contains(&y)
        || !(x.is_finite() && y.is_finite())
        || [0., 1.].contains(&x.abs())
        || x > 0. && y == 0.5
        || x < 0. && y != y.trunc();
    (!settled).then_some(x < 0. && (y % 2.).abs() == 1.)
}

/// A difference in full: the operands, what the others answer, what the port answers.
pub fn told(name: &str, operands: &str, others: &str, port: &str) -> String {
    format!("{name} of {operands}{others}{}", line("the port", port))
}

pub fn line(name: &str, answer: &str) -> String {
    format!("\n    {name:26} {answer}")
}

pub fn answers(op: &Operation, x: u64, y: u64) -> String {
    op.sides.iter().map(|(name, side)| line(name, &shown(op.format, side(x, y)))).collect()
}

pub fn operands(op: &Operation, x: u64, y: u64) -> String {
    let second = match op.name {
        "scalbnf" | "scalbnd" => format!(", n = {}", y as i32),
        "powf" | "powd" => format!(", y = {}", shown(op.format, y)),
        _ => String::new(),
    };
    format!("x = {}{second}", shown(op.format, x))
}

pub fn shown(f: Format, word: u64) -> String {
    let digits = if f.p == 24 { 8 } else { 16 };
    format!("0x{word:0digits$x} ({:e})", f.value(word))
}
