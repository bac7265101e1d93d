//! The port's functions by name, each with the sides that it is held against, on words as u64.

use crate::sides::face::{self, Answer, Batch, Partial, Sorted};
use crate::sides::{as_it_stands, without_sse};
use crate::words::{Format, DOUBLE, SINGLE};

/// A second operand is a word, or n as the word of an i32.
pub struct Operation {
    pub name: &'static str,
    pub format: Format,
    /// Whether NaN is compared bit by bit, as for fabs.
    pub bits: bool,
    pub port: fn(u64, u64) -> Answer,
    /// The others. The roots have the processor's instruction as their third.
    pub sides: &'static [Side],
}

/// A name and what it answers.
pub type Side = (&'static str, fn(u64, u64) -> u64);

const WITHOUT: &str = "the original without sse";
const STANDS: &str = "the original as it stands";
const PROCESSOR: &str = "the processor";
const ENGINE: &str = "the digit engine";

/// A batch lends the port its operands and, of `memory`, all but GUARD words at each end. It answers what the
/// port answered and whether the operands are still what they were.
pub struct Batched {
    pub name: &'static str,
    pub single: &'static Operation,
    pub operands: usize,
    pub call: fn(&[u64], &[u64], &mut [u64]) -> (Batch, bool),
}

pub const GUARD: usize = 16;

/// The functions of one format: `sqrt` is the root by the table engine, `digits` that by the digit engine.
pub struct Width {
    pub fabs: &'static Operation,
    pub scalbn: &'static Operation,
    pub sqrt: &'static Operation,
    pub digits: &'static Operation,
    pub pow: &'static Operation,
    pub partial: (&'static str, fn(u64, u32) -> Partial),
    pub sort: (&'static str, fn(u64, u64) -> Sorted),
    pub batches: [Batched; 4],
    pub facts: Facts,
}

/// The names of the facts: roots keep the order, roots by powers of four, the sign of a power, its NaN.
pub struct Facts {
    pub order: &'static str,
    pub fours: &'static str,
    pub signs: &'static str,
    pub nan: &'static str,
}

macro_rules! batched {
    ($name:ident, $call:ident, $single:expr, $word:ident $(, $second:ty)?) => {
        Batched {
            name: stringify!($name),
            single: $single,
            operands: 1 $(+ (size_of::<$second>() > 0) as usize)?,
            call: |xs, ys, memory| {
                let (a, mut m) = (words(xs, |x| x as $word), words(memory, |x| x as $word));
                let _ = ys;
                $(let b = words(ys, |y| y as $second);)?
                let (out, len) = (m[GUARD..].as_mut_ptr(), m.len() - 2 * GUARD);
                let answer = unsafe {
                    face::$call(pointer(&a), a.len(), $(pointer::<$second>(&b), b.len(),)? out, len)
                };
                memory.copy_from_slice(&words(&m, u64::from));
                (answer, a == words(xs, |x| x as $word) $(&& b == words(ys, |y| y as $second))?)
            },
        }
    };
}

/// A slice's pointer; an empty one has none.
fn pointer<T>(slice: &[T]) -> *const T {
    if slice.is_empty() {
        std::ptr::null()
    } else {
        slice.as_ptr()
    }
}

fn words<A: Copy, B>(list: &[A], to: fn(A) -> B) -> Vec<B> {
    list.iter().map(|&w| to(w)).collect()
}

macro_rules! width {
    ($width:ident, $format:expr, $word:ident $float:ident:
        $fabs:ident $scalbn:ident $sqrt:ident $digits:ident $pow:ident;
        $c_fabs:ident $c_scalbn:ident $c_sqrt:ident $c_digits:ident $c_pow:ident
        $partial:ident $c_partial:ident $sort:ident $c_sort:ident
        $sqrts:ident $c_sqrts:ident $digitss:ident $c_digitss:ident
        $scalbns:ident $c_scalbns:ident $pows:ident $c_pows:ident) => {
        pub static $width: Width = {
            fn float(x: u64) -> $float {
                $float::from_bits(x as $word)
            }
            static FABS: Operation = Operation {
                name: stringify!($fabs),
                format: $format,
                bits: true,
                port: |x, _| plain(unsafe { face::$c_fabs(x as $word) }.into()),
                sides: &[
                    (WITHOUT, |x, _| without_sse::$fabs(float(x)).to_bits().into()),
                    (STANDS, |x, _| as_it_stands::$fabs(float(x)).to_bits().into()),
                ],
            };
            static SCALBN: Operation = Operation {
                name: stringify!($scalbn),
                format: $format,
                bits: false,
                port: |x, n| unsafe { face::$c_scalbn(x as $word, n as i32) },
                sides: &[
                    (WITHOUT, |x, n| without_sse::$scalbn(float(x), n as i32).to_bits().into()),
                    (STANDS, |x, n| as_it_stands::$scalbn(float(x), n as i32).to_bits().into()),
                ],
            };
            const ROOTS: &[Side] = &[
                (WITHOUT, |x, _| without_sse::$sqrt(float(x)).to_bits().into()),
                (STANDS, |x, _| as_it_stands::$sqrt(float(x)).to_bits().into()),
                (PROCESSOR, |x, _| float(x).sqrt().to_bits().into()),
                (ENGINE, |x, _| unsafe { face::$c_digits(x as $word) }.word),
            ];
            static SQRT: Operation = Operation {
                name: stringify!($sqrt),
                format: $format,
                bits: false,
                port: |x, _| unsafe { face::$c_sqrt(x as $word) },
                sides: ROOTS,
            };
            // All but itself.
            static DIGITS: Operation = Operation {
                name: stringify!($digits),
                format: $format,
                bits: false,
                port: |x, _| unsafe { face::$c_digits(x as $word) },
                sides: ROOTS.split_at(3).0,
            };
            static POW: Operation = Operation {
                name: stringify!($pow),
                format: $format,
                bits: false,
                port: |x, y| plain(unsafe { face::$c_pow(x as $word, y as $word) }.into()),
                sides: &[
                    (WITHOUT, |x, y| without_sse::$pow(float(x), float(y)).to_bits().into()),
                    (STANDS, |x, y| as_it_stands::$pow(float(x), float(y)).to_bits().into()),
                ],
            };
            Width {
                fabs: &FABS,
                scalbn: &SCALBN,
                sqrt: &SQRT,
                digits: &DIGITS,
                pow: &POW,
                partial: (stringify!($partial), |x, rounds| unsafe { face::$c_partial(x as $word, rounds) }),
                sort: (stringify!($sort), |x, y| unsafe { face::$c_sort(x as $word, y as $word) }),
                batches: [
                    batched!($sqrts, $c_sqrts, &SQRT, $word),
                    batched!($digitss, $c_digitss, &DIGITS, $word),
                    batched!($scalbns, $c_scalbns, &SCALBN, $word, i32),
                    batched!($pows, $c_pows, &POW, $word, $word),
                ],
                facts: Facts {
                    order: concat!("order_", stringify!($sqrt)),
                    fours: concat!("fours_", stringify!($sqrt)),
                    signs: concat!("signs_", stringify!($pow)),
                    nan: concat!("nan_", stringify!($pow)),
                },
            }
        };
    };
}

/// The answer of a function that has no number.
fn plain(word: u64) -> Answer {
    Answer { number: 0, word }
}

width!(F, SINGLE, u32 f32: fabsf scalbnf sqrtf sqrtf_digits powf;
    igholmaz_fabsf igholmaz_scalbnf igholmaz_sqrtf igholmaz_sqrtf_digits igholmaz_powf
    partial_sqrtf igholmaz_partial_sqrtf sort_powf igholmaz_sort_powf
    sqrtf_batch igholmaz_sqrtf_batch sqrtf_digits_batch igholmaz_sqrtf_digits_batch
    scalbnf_batch igholmaz_scalbnf_batch powf_batch igholmaz_powf_batch);
width!(D, DOUBLE, u64 f64: fabsd scalbnd sqrtd sqrtd_digits powd;
    igholmaz_fabsd igholmaz_scalbnd igholmaz_sqrtd igholmaz_sqrtd_digits igholmaz_powd
    partial_sqrtd igholmaz_partial_sqrtd sort_powd igholmaz_sort_powd
    sqrtd_batch igholmaz_sqrtd_batch sqrtd_digits_batch igholmaz_sqrtd_digits_batch
    scalbnd_batch igholmaz_scalbnd_batch powd_batch igholmaz_powd_batch);
