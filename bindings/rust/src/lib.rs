//! Roots, scaling and powers of f32 and f64 with proved bits, over the archive `libigholmaz.a`.
//!
//! The functions here take and return words: IEEE 754 bit patterns, `u32` for f32 and `u64` for f64. Names end
//! in f or d. Where a result is NaN it is [`NAN_F`] or [`NAN_D`]; only fabs keeps the NaN that it was given.
//! Module [`libm`] has the single functions over floats, module [`testfloat`] the check of TestFloat's lists.
//!
//! ```
//! assert_eq!(igholmaz::sqrtf(0x40000000), 0x3fb504f3); // the root of 2
//! assert_eq!(igholmaz::sqrtf(0xbf800000), igholmaz::NAN_F); // the root of -1
//! ```
#![no_std]
#![warn(missing_docs)]

mod answers;
mod face;
pub mod libm;
pub mod testfloat;
#[cfg(test)]
mod tests;

use answers::unless_refused;
pub use answers::{Partial, Refusal, Sorted};
pub use face::{BATCH_MOST, ROUNDS_MOST_D, ROUNDS_MOST_F};

/// The NaN that f32 results have.
pub const NAN_F: u32 = 0x7fc0_0000;
/// The NaN that f64 results have.
pub const NAN_D: u64 = 0x7ff8_0000_0000_0000;

/// An example in a doc comment.
macro_rules! example {
    ($($text:expr),*) => { concat!("\n```\n# use igholmaz::*;\n", $($text),*, "\n```") };
}

macro_rules! words {
    ($word:ident $float:literal: $fabs:ident $scalbn:ident $sqrt:ident $digits:ident $partial:ident $sort:ident
        $pow:ident $sqrts:ident $digitss:ident $scalbns:ident $pows:ident;
        $c_fabs:ident $c_scalbn:ident $c_sqrt:ident $c_digits:ident $c_partial:ident $c_sort:ident $c_pow:ident
        $c_sqrts:ident $c_digitss:ident $c_scalbns:ident $c_pows:ident) => {
        /// The absolute value: the sign bit cleared, every other bit kept, in a NaN too.
        #[doc = example!("assert_eq!(", stringify!($fabs), "((-2", $float, ").to_bits()), 2", $float, ".to_bits());")]
        #[inline]
        pub fn $fabs(x: $word) -> $word {
            unsafe { face::$c_fabs(x) }
        }

        /// x times 2^n, rounded once, ties to even.
        #[doc = example!("assert_eq!(", stringify!($scalbn), "(3", $float, ".to_bits(), -1), 1.5", $float, ".to_bits());")]
        #[inline]
        pub fn $scalbn(x: $word, n: i32) -> $word {
            unsafe { face::$c_scalbn(x, n) }.word as $word
        }

        /// The square root, rounded once, ties to even.
        ///
        /// It never falls when a nonnegative operand grows; where x and 4^k·x are positive normal numbers, the root
        /// of the second is 2^k times that of the first, bit for bit.
        #[doc = example!("assert_eq!(", stringify!($sqrt), "(9", $float, ".to_bits()), 3", $float, ".to_bits());")]
        #[inline]
        pub fn $sqrt(x: $word) -> $word {
            unsafe { face::$c_sqrt(x) }.word as $word
        }

        /// The same root, by digit rounds alone: the same bits on every operand, and slower.
        #[doc = example!("assert_eq!(", stringify!($digits), "(9", $float, ".to_bits()), 3", $float, ".to_bits());")]
        #[inline]
        pub fn $digits(x: $word) -> $word {
            unsafe { face::$c_digits(x) }.word as $word
        }

        /// The first digits of the root, one for each round. Refused: [`Refusal::NotPositive`], else
        /// [`Refusal::TooManyRounds`].
        #[doc = example!("let two = 2", $float, ".to_bits();\n",
            "assert_eq!(", stringify!($partial), "(two, 5)?.digits, 0b10110); // 1.0110, and so on\n",
            "assert_eq!(", stringify!($partial), "(0, 5), Err(Refusal::NotPositive));\n",
            "assert_eq!(", stringify!($partial), "(two, 55), Err(Refusal::TooManyRounds));\n",
            "# Ok::<(), Refusal>(())")]
        #[inline]
        pub fn $partial(x: $word, rounds: u32) -> Result<Partial, Refusal> {
            let face::Partial { number, digits, left, rounds } = unsafe { face::$c_partial(x, rounds) };
            unless_refused(number, Partial { digits, left, rounds })
        }

        /// Whether x to the y is settled by a rule or open.
        #[doc = example!("let [two, minus_two, three] = [2", $float, ", -2", $float, ", 3", $float, "].map(|x| x.to_bits());\n",
            "assert_eq!(", stringify!($sort), "(three, two), Sorted::Settled(9", $float, ".to_bits()));\n",
            "assert_eq!(", stringify!($sort), "(minus_two, three), Sorted::Open { negative: true });")]
        #[inline]
        pub fn $sort(x: $word, y: $word) -> Sorted<$word> {
            match unsafe { face::$c_sort(x, y) } {
                face::Sorted { open: true, negative, .. } => Sorted::Open { negative },
                face::Sorted { word, .. } => Sorted::Settled(word as $word),
            }
        }

        /// x to the y.
        ///
        /// It is NaN exactly where x or y is one, y is no zero and x is not 1, and where x is finite and below 0 and
        /// y finite and not whole. The other sign of x changes the sign bit for odd y, and no bit for even y.
        #[doc = example!("assert_eq!(", stringify!($pow), "(2", $float, ".to_bits(), 10", $float, ".to_bits()), 1024", $float, ".to_bits());")]
        #[inline]
        pub fn $pow(x: $word, y: $word) -> $word {
            unsafe { face::$c_pow(x, y) }
        }

        /// The root of each element; answers how many. Refused: [`Refusal::LengthsDiffer`], else
        /// [`Refusal::TooLong`].
        #[doc = example!("let xs = [4", $float, ", 9", $float, "].map(|x| x.to_bits());\nlet mut out = [0; 2];\n",
            "assert_eq!(", stringify!($sqrts), "(&xs, &mut out), Ok(2));\n",
            "assert_eq!(out, [2", $float, ", 3", $float, "].map(|x| x.to_bits()));\n",
            "assert_eq!(", stringify!($sqrts), "(&xs[1..], &mut out), Err(Refusal::LengthsDiffer));")]
        #[inline]
        pub fn $sqrts(xs: &[$word], out: &mut [$word]) -> Result<usize, Refusal> {
            let answer = unsafe { face::$c_sqrts(xs.as_ptr(), xs.len(), out.as_mut_ptr(), out.len()) };
            unless_refused(answer.number, answer.count)
        }

        /// The same roots, by digit rounds alone: the same bits, refusals and answers, and slower.
        #[doc = example!("let xs = [4", $float, ", 9", $float, "].map(|x| x.to_bits());\nlet mut out = [0; 2];\n",
            "assert_eq!(", stringify!($digitss), "(&xs, &mut out), Ok(2));\n",
            "assert_eq!(out, [2", $float, ", 3", $float, "].map(|x| x.to_bits()));")]
        #[inline]
        pub fn $digitss(xs: &[$word], out: &mut [$word]) -> Result<usize, Refusal> {
            let answer = unsafe { face::$c_digitss(xs.as_ptr(), xs.len(), out.as_mut_ptr(), out.len()) };
            unless_refused(answer.number, answer.count)
        }

        /// Each element times 2 to its n; answers how many. Refused: [`Refusal::LengthsDiffer`], else
        /// [`Refusal::TooLong`].
        #[doc = example!("let mut out = [0; 2];\n",
            "assert_eq!(", stringify!($scalbns), "(&[1", $float, ".to_bits(); 2], &[1, -1], &mut out), Ok(2));\n",
            "assert_eq!(out, [2", $float, ", 0.5", $float, "].map(|x| x.to_bits()));")]
        #[inline]
        pub fn $scalbns(xs: &[$word], ns: &[i32], out: &mut [$word]) -> Result<usize, Refusal> {
            let answer = unsafe {
                face::$c_scalbns(xs.as_ptr(), xs.len(), ns.as_ptr(), ns.len(), out.as_mut_ptr(), out.len())
            };
            unless_refused(answer.number, answer.count)
        }

        /// Each element to its y; answers how many. Refused: [`Refusal::LengthsDiffer`], else
        /// [`Refusal::TooLong`].
        #[doc = example!("let [xs, ys] = [[2", $float, ", 3", $float, "], [3", $float, ", 2", $float, "]].map(|s| s.map(|x| x.to_bits()));\n",
            "let mut out = [0; 2];\n",
            "assert_eq!(", stringify!($pows), "(&xs, &ys, &mut out), Ok(2));\n",
            "assert_eq!(out, [8", $float, ", 9", $float, "].map(|x| x.to_bits()));")]
        #[inline]
        pub fn $pows(xs: &[$word], ys: &[$word], out: &mut [$word]) -> Result<usize, Refusal> {
            let answer = unsafe {
                face::$c_pows(xs.as_ptr(), xs.len(), ys.as_ptr(), ys.len(), out.as_mut_ptr(), out.len())
            };
            unless_refused(answer.number, answer.count)
        }
    };
}

words!(u32 "f32": fabsf scalbnf sqrtf sqrtf_digits partial_sqrtf sort_powf powf
    sqrtf_batch sqrtf_digits_batch scalbnf_batch powf_batch;
    igholmaz_fabsf igholmaz_scalbnf igholmaz_sqrtf igholmaz_sqrtf_digits igholmaz_partial_sqrtf igholmaz_sort_powf
    igholmaz_powf igholmaz_sqrtf_batch igholmaz_sqrtf_digits_batch igholmaz_scalbnf_batch igholmaz_powf_batch);
words!(u64 "f64": fabsd scalbnd sqrtd sqrtd_digits partial_sqrtd sort_powd powd
    sqrtd_batch sqrtd_digits_batch scalbnd_batch powd_batch;
    igholmaz_fabsd igholmaz_scalbnd igholmaz_sqrtd igholmaz_sqrtd_digits igholmaz_partial_sqrtd igholmaz_sort_powd
    igholmaz_powd igholmaz_sqrtd_batch igholmaz_sqrtd_digits_batch igholmaz_scalbnd_batch igholmaz_powd_batch);
