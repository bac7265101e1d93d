//! What calls answer beside words.

use crate::face::{BATCH_MOST, ROUNDS_MOST_D, ROUNDS_MOST_F};
use core::fmt;

/// Why a call was refused. Results are then untouched.
///
/// ```
/// assert_eq!(igholmaz::Refusal::TooLong.to_string(), "a batch has at most 4096 elements");
/// ```
#[derive(Clone, Copy, Debug, PartialEq, Eq, Hash)]
pub enum Refusal {
    /// 1: operand and result slices are not all of one length.
    LengthsDiffer = 1,
    /// 2: lengths agree and exceed [`BATCH_MOST`].
    TooLong = 2,
    /// 3: partial root of a zero, negative, infinite or NaN operand.
    NotPositive = 3,
    /// 4: operand fit, but more than [`ROUNDS_MOST_F`] or [`ROUNDS_MOST_D`] rounds asked.
    TooManyRounds = 4,
}

impl fmt::Display for Refusal {
    fn fmt(&self, f: &mut fmt::Formatter<'_>) -> fmt::Result {
        match self {
            Refusal::LengthsDiffer => write!(f, "operand and result slices must all have one length"),
            Refusal::TooLong => write!(f, "a batch has at most {BATCH_MOST} elements"),
            Refusal::NotPositive => write!(f, "the operand of a partial root must be positive and finite"),
            Refusal::TooManyRounds => {
                write!(f, "a partial root has at most {ROUNDS_MOST_F} (f32) or {ROUNDS_MOST_D} (f64) rounds")
            }
        }
    }
}

impl core::error::Error for Refusal {}

/// The answer, or the refusal that its number stands for.
pub(crate) fn unless_refused<T>(number: u32, answer: T) -> Result<T, Refusal> {
    match number {
        0 => Ok(answer),
        1 => Err(Refusal::LengthsDiffer),
        2 => Err(Refusal::TooLong),
        3 => Err(Refusal::NotPositive),
        4 => Err(Refusal::TooManyRounds),
        _ => unreachable!("the archive knows no refusal {number}"),
    }
}

/// The first digits of a root and what is left over. With p = 24 or 53, x = M·4^E, 1 ≤ M < 4, W = M·2^(p-1)
/// and k rounds, Q is the whole number with 2^(p+1)·Q² ≤ 4^k·W < 2^(p+1)·(Q+1)².
#[derive(Clone, Copy, Debug, PartialEq, Eq, Hash)]
pub struct Partial {
    /// Q: for k ≥ 1 it has exactly k binary digits.
    pub digits: u64,
    /// 2^(k+1)·W − 2^(p+2−k)·Q².
    pub left: u64,
    /// k.
    pub rounds: u32,
}

/// A pair of power operands, sorted.
#[derive(Clone, Copy, Debug, PartialEq, Eq, Hash)]
pub enum Sorted<Word> {
    /// A rule gives the power: this word.
    Settled(Word),
    /// The power is computed; its sign is already known.
    Open {
        /// Whether the sign of the power is set.
        negative: bool,
    },
}
