//! Formats, drawn numbers, and the words that the comparison favours. A word of either width is a u64, an
//! f32 word in the low half.

use std::ops::RangeInclusive;

/// p digits, the leading one included, and the largest exponent.
#[derive(Clone, Copy)]
pub struct Format {
    pub p: u32,
    pub emax: i32,
}

pub const SINGLE: Format = Format { p: 24, emax: 127 };
pub const DOUBLE: Format = Format { p: 53, emax: 1023 };

impl Format {
    /// The least normal number's word: the place of the exponent field.
    pub const fn hid(self) -> u64 {
        1 << (self.p - 1)
    }
    pub const fn infinity(self) -> u64 {
        (2 * self.emax as u64 + 1) * self.hid()
    }
    pub const fn sign(self) -> u64 {
        self.infinity() + self.hid()
    }
    /// The one NaN that the port returns.
    pub const fn quiet(self) -> u64 {
        self.infinity() + self.hid() / 2
    }
    pub const fn one(self) -> u64 {
        self.emax as u64 * self.hid()
    }
    /// The word of 2^e, e the exponent of a normal number.
    pub const fn power(self, e: i32) -> u64 {
        (e + self.emax) as u64 * self.hid()
    }
    pub fn value(self, word: u64) -> f64 {
        if self.p == 24 {
            f32::from_bits(word as u32).into()
        } else {
            f64::from_bits(word)
        }
    }
    /// The word nearest to a value.
    pub fn word(self, value: f64) -> u64 {
        if self.p == 24 {
            (value as f32).to_bits().into()
        } else {
            value.to_bits()
        }
    }
    /// A word brought into the format by dropping what does not fit.
    pub fn fit(self, word: u64) -> u64 {
        word & (self.sign() | self.sign() - 1)
    }
    /// A word without its sign bit.
    pub const fn size(self, word: u64) -> u64 {
        word & !self.sign()
    }
    pub fn is_nan(self, word: u64) -> bool {
        self.size(word) > self.infinity()
    }
    /// Whether a word is a positive normal number.
    pub fn is_normal(self, word: u64) -> bool {
        (self.hid()..self.infinity()).contains(&word)
    }
    /// Whether the port's word is the answer that another side has: any NaN of theirs is the quiet one here.
    pub fn same(self, port: u64, theirs: u64) -> bool {
        port == if self.is_nan(theirs) { self.quiet() } else { theirs }
    }
    /// The size of a finite word as digits·2^e, the digits a whole number below 2^p.
    fn digits(self, word: u64) -> (u64, i32) {
        let (field, fraction) = ((self.size(word) / self.hid()) as i32, word % self.hid());
        (if field == 0 { fraction } else { fraction + self.hid() }, field.max(1) - self.emax + 1 - self.p as i32)
    }
    /// A positive finite word as W and E of document 01: W·2^(1-p) in [1, 4) times 4^E.
    pub fn whole(self, word: u64) -> (u64, i32) {
        let (digits, last) = self.digits(word);
        let shift = digits.leading_zeros() - (64 - self.p);
        let e = last + self.p as i32 - 1 - shift as i32;
        (digits << shift << (e & 1), e >> 1)
    }
    /// Whether a word is a finite whole number, and then whether it is odd. The power of two of its last digit
    /// that is a one tells both; no float is compared and nothing is cast to a narrower width.
    pub fn odd(self, word: u64) -> Option<bool> {
        let (digits, last) = self.digits(word);
        let place = last + digits.trailing_zeros() as i32;
        let finite = self.size(word) < self.infinity();
        (finite && (digits == 0 || place >= 0)).then_some(digits != 0 && place == 0)
    }
    /// The k for which 4^k times a positive normal number is one too.
    pub fn fours(self, word: u64) -> RangeInclusive<i64> {
        let field = (word / self.hid()) as i64;
        (1 - field) / 2..=(2 * i64::from(self.emax) - field) / 2
    }
}

/// Drawn numbers (splitmix64): the same for the same seed, whatever the number of cores.
pub struct Draw(u64);

impl Draw {
    pub fn new(seed: u64, what: &str, turn: u64) -> Draw {
        let mix = what.bytes().fold(seed, |s, b| Draw(s ^ u64::from(b)).next());
        Draw(Draw(mix ^ turn).next())
    }
    pub fn next(&mut self) -> u64 {
        self.0 = self.0.wrapping_add(0x9e37_79b9_7f4a_7c15);
        let z = (self.0 ^ self.0 >> 30).wrapping_mul(0xbf58_476d_1ce4_e5b9);
        let z = (z ^ z >> 27).wrapping_mul(0x94d0_49bb_1331_11eb);
        z ^ z >> 31
    }
    pub fn below(&mut self, n: u64) -> u64 {
        (u128::from(self.next()) * u128::from(n) >> 64) as u64
    }
    /// A whole number from low to high, both included.
    pub fn within(&mut self, low: i64, high: i64) -> i64 {
        low + self.below((high - low + 1) as u64) as i64
    }
    /// A number of 1 to `most` binary digits, each count as likely.
    pub fn sized(&mut self, most: u32) -> u64 {
        let digits = 1 + self.below(most.into()) as u32;
        1 << (digits - 1) | self.next() & ((1 << (digits - 1)) - 1)
    }
    pub fn of<T: Copy>(&mut self, list: &[T]) -> T {
        list[self.below(list.len() as u64) as usize]
    }
    /// A word at most `units` away.
    pub fn near(&mut self, f: Format, word: u64, units: i64) -> u64 {
        f.fit(word.wrapping_add(self.within(-units, units) as u64))
    }
    /// A real number from low to high.
    pub fn real(&mut self, low: f64, high: f64) -> f64 {
        low + (high - low) * (self.next() >> 11) as f64 / (1u64 << 53) as f64
    }
}

/// Every exponent field with the fractions at its ends and middle, every single bit below the least normal
/// number with its neighbours, NaN of several payloads; both signs.
pub fn listed(f: Format) -> Vec<u64> {
    let (hid, mid) = (f.hid(), f.hid() / 2);
    let fields = (0..2 * f.emax as u64 + 2)
        .flat_map(|e| [0, 1, 2, mid - 1, mid, mid + 1, hid - 2, hid - 1].map(|fraction| e * hid + fraction));
    let bits = (0..f.p - 1).flat_map(|i| [(1 << i) - 1, 1 << i, (1 << i) + 1].map(|w: u64| w));
    signed(f, fields.chain(bits).chain([f.quiet() + 0x5a5a5, f.infinity() + 0x5a5a5]))
}

/// Words of each entry of a table whose place is the last digit of the exponent and the first eight of the fraction:
/// the first two and the last of the entry, and drawn ones whose second half of the other digits is 0, with the word
/// before each. They have the first, middle and last two exponents and two drawn ones, or are subnormal numbers of
/// the same digits, of every length.
pub fn entries(f: Format, d: &mut Draw) -> Vec<u64> {
    let (hid, inside, last) = (f.hid(), f.p - 9, 2 * f.emax as u64);
    let fields = [1, 2, last / 2, last / 2 + 1, last - 1, last];
    let mut all = Vec::new();
    for place in 0..256 {
        let mut fractions = vec![0, 1, (1 << inside) - 1];
        for _ in 0..8 {
            let first = (1 + d.below((1 << (inside / 2)) - 1)) << (inside - inside / 2);
            fractions.extend([first, first - 1]);
        }
        for fraction in fractions.into_iter().map(|low| place << inside | low) {
            let even = 2 + 2 * d.below(last / 2);
            all.extend(fields.into_iter().chain([even - 1, even]).map(|field| field * hid + fraction));
            all.extend((1..f.p).map(|cut| (hid + fraction) >> cut));
        }
    }
    all.sort_unstable();
    all.dedup();
    all
}

/// Where the chain and the sorting of the power branch, each with its neighbours; both signs.
pub fn thresholds(f: Format) -> Vec<u64> {
    let one = f.one();
    let cuts = if f.p == 24 {
        vec![one - 8, one + 7, one + 0x1c_c471, one + 0x5d_b3d7]
    } else {
        let above = 1 << 32;
        let (low, high) = (one + 0x3_988f_0000_0000, one + 0xb_b67a_0000_0000);
        vec![one - above, one + above, low, high, f.power(31) + above, f.power(64) + above]
    };
    let powers = [-1, 0, 1, 2, 10, 20, 21, 22, 23, 24, 25, 27, 30, 31, 32, 51, 52, 53, 54, 62, 63, 64, 65];
    let limits = [128., 149., 150., 1022., 1024., 1074., 1075., 1.5, 3., 2.5, 0.25, 10., 100.].map(|v| f.word(v));
    let ends = [3, f.hid(), f.infinity() - 4, f.infinity() + 3, f.quiet(), f.sign() - 4];
    let around = cuts.into_iter().chain(powers.map(|e| f.power(e))).chain(limits).chain(ends);
    signed(f, around.flat_map(|w| (0..7).map(move |i| w + i - 3)))
}

/// Finite whole numbers: zeros, every power of two with the whole numbers beside it, or from 2^p on with the
/// words beside it, the largest; both signs.
pub fn wholes(f: Format) -> Vec<u64> {
    let beside = |e: i32| {
        if e < f.p as i32 {
            [-1., 0., 1.].map(|by| f.word((1u64 << e) as f64 + by))
        } else {
            [f.power(e) - 1, f.power(e), f.power(e) + 1]
        }
    };
    signed(f, (0..=f.emax).flat_map(beside).chain([f.infinity() - 1]))
}

fn signed(f: Format, words: impl Iterator<Item = u64>) -> Vec<u64> {
    let mut all: Vec<u64> = words.flat_map(|w| [w, w | f.sign()]).collect();
    all.sort_unstable();
    all.dedup();
    all
}

/// The n at which scaling is tried on listed words: all that can tell two finite results apart, and beyond.
pub fn steps(f: Format) -> Vec<i32> {
    let most = 2 * f.emax + f.p as i32 + 8;
    (-most..=most).chain([i32::MIN, i32::MIN + 1, -65536, -3000, 3000, 65536, i32::MAX - 1, i32::MAX]).collect()
}
