//! Facts between the port's own answers: those of request 12, and where a power is a NaN. No other side is
//! asked; a broken fact is told with what the others answer.

use crate::checks::{answers, line, operands, shown, told, Tally};
use crate::operations::{Operation, Width};
use crate::words::Format;

impl Tally {
    /// For x at most y, neither below 0: the root of x is at most that of y, in the order of values. The two
    /// zeros are equal, and so are their roots.
    pub fn ordered(&mut self, width: &Width, x: u64, y: u64) {
        let (op, f) = (width.sqrt, width.sqrt.format);
        let (low, high) = ((op.port)(x, 0).word, (op.port)(y, 0).word);
        // A fault is a root below 0 or, as the sign of a zero is none, one unit in the place of a zero.
        let high = self.taken_at(high, if f.size(high) == 0 { 1 } else { f.sign() });
        let at_most = |a, b| f.value(a) <= f.value(b);
        self.held(at_most(low, high) && (!at_most(y, x) || at_most(high, low)), || {
            let rule = "the second not below the first, of equal operands equal to it";
            broken(width.facts.order, op, [(x, 0), (y, 0)], [low, high], rule)
        });
    }

    /// For x and 4^k·x that are positive normal numbers: the root of the second is that of the first with k
    /// added to its exponent field, which stays that of a normal number, and no other bit changed.
    pub fn by_four(&mut self, width: &Width, x: u64, k: i64) {
        let (op, f) = (width.sqrt, width.sqrt.format);
        let moved = |word: u64, by: i64| word.wrapping_add_signed(by * f.hid() as i64);
        let y = moved(x, 2 * k);
        let (first, second) = ((op.port)(x, 0).word, (op.port)(y, 0).word);
        let second = self.taken(second);
        let good = f.is_normal(first) && f.is_normal(second) && second == moved(first, k);
        self.held(good, || {
            let rule = format!("normal numbers, the second 2^{k} times the first");
            broken(width.facts.fours, op, [(x, 0), (y, 0)], [first, second], &rule)
        });
    }

    /// For x that is no NaN and a finite whole y: the other sign of x changes the sign bit of the power when
    /// y is odd and no bit when it is even. Of other operands nothing is said.
    pub fn turned(&mut self, width: &Width, x: u64, y: u64) {
        let (op, f) = (width.pow, width.pow.format);
        let Some(odd) = f.odd(y).filter(|_| !f.is_nan(x)) else { return };
        let other = x ^ f.sign();
        let (first, second) = ((op.port)(x, y).word, (op.port)(other, y).word);
        let second = self.taken(second);
        self.held(second == if odd { first ^ f.sign() } else { first }, || {
            let rule = if odd { "the second with the other sign bit alone" } else { "the same word twice" };
            broken(width.facts.signs, op, [(x, y), (other, y)], [first, second], rule)
        });
    }

    /// A power is the one NaN exactly where document 01 says so. Where it is a number its sign is set exactly
    /// when that of x is and y is odd.
    pub fn number(&mut self, width: &Width, x: u64, y: u64) {
        let (op, f) = (width.pow, width.pow.format);
        let nan = nan_power(f, x, y);
        let minus = x & f.sign() != 0 && f.odd(y) == Some(true);
        // A fault is infinity in the place of the NaN, or the other sign: one bit makes no NaN of most numbers.
        let word = self.taken_at((op.port)(x, y).word, if nan { f.quiet() - f.infinity() } else { f.sign() });
        let good = if nan { word == f.quiet() } else { !f.is_nan(word) && (word & f.sign() != 0) == minus };
        self.held(good, || {
            let rule = match (nan, minus) {
                (true, _) => "the NaN",
                (_, true) => "a number with its sign set",
                _ => "a number without a sign",
            };
            let others = answers(op, x, y) + &line("it should be", rule);
            told(width.facts.nan, &operands(op, x, y), &others, &shown(f, word))
        });
    }
}

/// Where a power is a NaN by document 01: y is no zero, x is not 1 and one of them is a NaN (rule 3 after 1 and
/// 2), or x is finite and below 0 and y finite and not whole (rules 6 and 7).
fn nan_power(f: Format, x: u64, y: u64) -> bool {
    let finite = |word| f.size(word) < f.infinity();
    let below = x & f.sign() != 0 && f.size(x) != 0;
    f.size(y) != 0 && x != f.one() && (f.is_nan(x) || f.is_nan(y))
        || below && finite(x) && finite(y) && f.odd(y).is_none()
}

/// A broken fact in full: the operands of both answers, what the others answer, what should be, what the port
/// answers.
fn broken(name: &str, op: &Operation, asked: [(u64, u64); 2], port: [u64; 2], rule: &str) -> String {
    let both = |words: [u64; 2]| words.map(|word| shown(op.format, word)).join(", then ");
    let others: String =
        op.sides.iter().map(|(name, side)| line(name, &both(asked.map(|(x, y)| side(x, y))))).collect();
    let operands = asked.map(|(x, y)| operands(op, x, y)).join(", then ");
    told(name, &operands, &(others + &line("it should be", rule)), &both(port))
}
