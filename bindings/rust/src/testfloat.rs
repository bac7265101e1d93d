//! Lists of Berkeley TestFloat's `f16_sqrt`, `f32_sqrt` and `f64_sqrt`, held to the library's roots.
//!
//! A line ends at a newline; bytes after the last newline, if any, are a line too. A well-formed line is operand,
//! result and flags: W, W and 2 hexadecimal digits in either case, one blank between, where W is 4, 8 or 16 for
//! f16, f32 or f64; a list may mix them. Any other line is malformed: an empty one, say, or one that ends in a
//! carriage return. A well-formed line agrees when its result and flags are those of the operand's root, rounded to
//! nearest even as TestFloat does unless it is told otherwise, and disagrees if not. A NaN agrees with any NaN. Flags
//! are inexact 1, underflow 2, overflow 4, divide by zero 8, invalid 16. A root is invalid of a negative nonzero
//! number and of a signalling NaN, whose quiet bit is clear; it is inexact where it is rounded; it has no other flag.
//!
//! ```
//! let mut reader = igholmaz::testfloat::Reader::new();
//! for piece in ["40800000 400", "00000 00\n40000000 3FB50", "4F3 01\n"] {
//!     reader.feed(piece.as_bytes());
//! }
//! assert!(reader.finish().all_agree()); // the roots of 4 and 2
//! ```

use crate::face;

/// Reads a list in pieces of any size: any cutting of a list gives the same tally.
#[derive(Clone, Debug)]
pub struct Reader(face::Testfloat);

impl Reader {
    /// A reader that has read nothing.
    ///
    /// ```
    /// # use igholmaz::testfloat::Reader;
    /// assert_eq!(Reader::new().finish().lines, 0);
    /// ```
    #[inline]
    pub fn new() -> Self {
        Reader(unsafe { face::igholmaz_testfloat_start() })
    }

    /// Reads one more piece.
    ///
    /// ```
    /// # use igholmaz::testfloat::Reader;
    /// let mut reader = Reader::new();
    /// reader.feed(b"4400 40");
    /// reader.feed(b"00 00\n");
    /// assert_eq!(reader.finish().agree, 1); // the root of 4, an f16
    /// ```
    #[inline]
    pub fn feed(&mut self, piece: &[u8]) {
        self.0 = unsafe { face::igholmaz_testfloat_feed(self.0, piece.as_ptr(), piece.len()) };
    }

    /// The tally of all that was read. Bytes after the last newline, if any, are a line.
    ///
    /// ```
    /// # use igholmaz::testfloat::Reader;
    /// let mut reader = Reader::new();
    /// reader.feed(b"4400 4000 00\n\n4000 3DA8 00"); // the second is empty, the third lacks the flag inexact
    /// let tally = reader.finish();
    /// assert_eq!((tally.lines, tally.agree, tally.malformed), (3, 1, 1));
    /// ```
    #[inline]
    pub fn finish(self) -> Tally {
        let tally = unsafe { face::igholmaz_testfloat_finish(self.0) };
        let face::Tally { lines, agree, malformed, number, first } = tally;
        let first = (number != 0).then_some(Disagreement { number, line: first });
        Tally { lines, agree, malformed, first }
    }
}

impl Default for Reader {
    fn default() -> Self {
        Self::new()
    }
}

/// What the lines of a list are. Each number stops at 2^64 − 1.
#[derive(Clone, Copy, Debug, PartialEq, Eq, Hash)]
pub struct Tally {
    /// The lines read.
    pub lines: u64,
    /// Those of them that agree.
    pub agree: u64,
    /// Those of them that are malformed.
    pub malformed: u64,
    /// The first of them that disagrees.
    pub first: Option<Disagreement>,
}

impl Tally {
    /// Whether there is a line and every line agrees: none is malformed and none disagrees.
    ///
    /// ```
    /// # use igholmaz::testfloat::Reader;
    /// let mut reader = Reader::new();
    /// assert!(!reader.clone().finish().all_agree());
    /// reader.feed(b"4400 4000 00\n");
    /// assert!(reader.clone().finish().all_agree());
    /// reader.feed(b"4000 3DA8 00\n");
    /// assert!(!reader.finish().all_agree());
    /// ```
    pub fn all_agree(&self) -> bool {
        self.lines > 0 && self.malformed == 0 && self.first.is_none()
    }
}

/// A line that disagrees.
#[derive(Clone, Copy, Debug, PartialEq, Eq, Hash)]
pub struct Disagreement {
    /// Its number among all lines, counted from 1.
    pub number: u64,
    line: face::Line,
}

impl Disagreement {
    /// The bytes of the line, without its newline: at most 36.
    ///
    /// ```
    /// # use igholmaz::testfloat::Reader;
    /// let mut reader = Reader::new();
    /// reader.feed(b"4400 4000 00\n4000 3DA8 00\n");
    /// let first = reader.finish().first.unwrap();
    /// assert_eq!((first.number, first.line()), (2, &b"4000 3DA8 00"[..]));
    /// ```
    pub fn line(&self) -> &[u8] {
        &self.line.bytes[..self.line.held.min(face::LINE_KEPT)]
    }
}
