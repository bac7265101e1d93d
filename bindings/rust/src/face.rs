//! The C face of the archive, as `include/igholmaz.h` has it. Every word is an IEEE 754 bit pattern.

/// The most elements that a batch takes.
pub const BATCH_MOST: usize = 4096;
/// The most rounds of a partial root of an f32.
pub const ROUNDS_MOST_F: u32 = 25;
/// The most rounds of a partial root of an f64.
pub const ROUNDS_MOST_D: u32 = 54;
/// The bytes of a line of a list that are kept.
pub const LINE_KEPT: usize = 37;

/// Of roots and scaling. An f32 word stands in the low half.
#[repr(C)]
#[derive(Clone, Copy)]
pub struct Answer {
    pub number: u32,
    pub word: u64,
}

/// Of partial roots.
#[repr(C)]
#[derive(Clone, Copy)]
pub struct Partial {
    pub number: u32,
    pub digits: u64,
    pub left: u64,
    pub rounds: u32,
}

/// Of the sorting of power operands: open with the sign of the result, or settled with its word.
#[repr(C)]
#[derive(Clone, Copy)]
pub struct Sorted {
    pub number: u32,
    pub open: bool,
    pub negative: bool,
    pub word: u64,
}

/// Of batches.
#[repr(C)]
#[derive(Clone, Copy)]
pub struct Batch {
    pub number: u32,
    pub count: usize,
}

/// A line of a list: the first `held` bytes count, zeros follow.
#[repr(C)]
#[derive(Clone, Copy, PartialEq, Eq, Hash)]
pub struct Line {
    pub bytes: [u8; LINE_KEPT],
    pub held: usize,
}

/// As text, since a list is one.
impl core::fmt::Debug for Line {
    fn fmt(&self, f: &mut core::fmt::Formatter<'_>) -> core::fmt::Result {
        write!(f, "\"{}\"", self.bytes[..self.held.min(LINE_KEPT)].escape_ascii())
    }
}

/// Of lists. The number is 0 where no line disagrees.
#[repr(C)]
#[derive(Clone, Copy, Debug, PartialEq, Eq)]
pub struct Tally {
    pub lines: u64,
    pub agree: u64,
    pub malformed: u64,
    pub number: u64,
    pub first: Line,
}

/// Of a list between two pieces: the tally of the lines that ended, and the line that did not.
#[repr(C)]
#[derive(Clone, Copy, Debug, PartialEq, Eq)]
pub struct Testfloat {
    pub tally: Tally,
    pub line: Line,
}

extern "C" {
    pub fn igholmaz_testfloat_start() -> Testfloat;
    pub fn igholmaz_testfloat_feed(state: Testfloat, piece: *const u8, piece_len: usize) -> Testfloat;
    pub fn igholmaz_testfloat_finish(state: Testfloat) -> Tally;
}

macro_rules! face {
    ($($word:ty: $fabs:ident $scalbn:ident $sqrt:ident $digits:ident $partial:ident $sort:ident $pow:ident
        $sqrts:ident $digitss:ident $scalbns:ident $pows:ident;)*) => {
        extern "C" {
            $(
                pub fn $fabs(x: $word) -> $word;
                pub fn $scalbn(x: $word, n: i32) -> Answer;
                pub fn $sqrt(x: $word) -> Answer;
                pub fn $digits(x: $word) -> Answer;
                pub fn $partial(x: $word, rounds: u32) -> Partial;
                pub fn $sort(x: $word, y: $word) -> Sorted;
                pub fn $pow(x: $word, y: $word) -> $word;
                pub fn $sqrts(xs: *const $word, xs_len: usize, out: *mut $word, out_len: usize) -> Batch;
                pub fn $digitss(xs: *const $word, xs_len: usize, out: *mut $word, out_len: usize) -> Batch;
                pub fn $scalbns(xs: *const $word, xs_len: usize, ns: *const i32, ns_len: usize,
                    out: *mut $word, out_len: usize) -> Batch;
                pub fn $pows(xs: *const $word, xs_len: usize, ys: *const $word, ys_len: usize,
                    out: *mut $word, out_len: usize) -> Batch;
            )*
        }
    };
}

face! {
    u32: igholmaz_fabsf igholmaz_scalbnf igholmaz_sqrtf igholmaz_sqrtf_digits igholmaz_partial_sqrtf
        igholmaz_sort_powf igholmaz_powf
        igholmaz_sqrtf_batch igholmaz_sqrtf_digits_batch igholmaz_scalbnf_batch igholmaz_powf_batch;
    u64: igholmaz_fabsd igholmaz_scalbnd igholmaz_sqrtd igholmaz_sqrtd_digits igholmaz_partial_sqrtd
        igholmaz_sort_powd igholmaz_powd
        igholmaz_sqrtd_batch igholmaz_sqrtd_digits_batch igholmaz_scalbnd_batch igholmaz_powd_batch;
}
