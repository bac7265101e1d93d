//! Drawn operands, with those favoured at which an error would show: at the edges of the format, at
//! roundings that are nearly ties, and on both sides of every branch of the original.

use crate::words::{Draw, Format};

/// Any word, or one with a telling shape. One in eight has its sign set.
pub fn operand(f: Format, d: &mut Draw) -> u64 {
    let field = d.below(2 * f.emax as u64 + 2) * f.hid();
    let place = d.below(f.p.into()) as u32;
    let size = match d.below(6) {
        0 => f.fit(d.next()),
        1 => d.sized(f.p - 1),
        2 => d.near(f, field, 3),
        // Zeros, ones, or one digit and zeros from a drawn place down: ties once the digits below it go.
        3 => field | (d.next() & f.hid() - 1) >> place << place,
        4 => field | d.next() & f.hid() - 1 | (1 << place) - 1,
        _ => field | d.next() << 1 << place & f.hid() - 1 | 1 << place & f.hid() - 1,
    };
    if d.below(8) == 0 {
        size ^ f.sign()
    } else {
        size & !f.sign()
    }
}

/// A word whose root is nearly halfway between two numbers of p digits, nearly one of these, or exactly or nearly one
/// of fewer digits; one in eight a word at most two away from such a word. It has the digits of n² - a, n odd and
/// of up to p + 1 digits, a small: n ends as a root of a modulo a power of two does, so the difference ends in
/// zeros, and it is drawn again where the word could not take all its other digits. Some words are subnormal, many
/// of them by at most three digits.
pub fn near_root(f: Format, d: &mut Draw) -> u64 {
    loop {
        let kept = match d.below(16) {
            0 => f.p - 1 - d.below(3) as u32,
            1 => f.p - 1 - d.below(u64::from(f.p) - 1) as u32,
            _ => f.p,
        };
        let long = match d.below(4) {
            0 | 1 => (f.p + 1).min(kept + 1 + d.below(4) as u32),
            2 => kept,
            _ => 1 + d.below(kept.into()) as u32,
        };
        // n² has at most 2·long digits. Where these are kept a is 0, else one more than a multiple of 8.
        let (top, cut) = (1 << (long - 1), (2 * long).saturating_sub(kept));
        let size = d.sized((cut / 2).max(4) - 3) as i64;
        let a = match d.below(2) {
            _ if cut < 2 => 0,
            0 => 8 * size - 7,
            _ => 1 - 8 * size,
        };
        let root = root_modulo(a as u64);
        let end = if d.below(2) == 0 { root } else { root.wrapping_neg() };
        let ending = (1 << cut.saturating_sub(1).min(long - 1)) - 1;
        let n = u128::from(top | d.next() & top - 1 & !ending | end & ending | 1);
        let x = (n * n).wrapping_sub(a as u128);
        let (digits, x) = (128 - x.leading_zeros(), x << x.leading_zeros());
        let (first, rest) = ((x >> (128 - kept)) as u64, x << kept);
        // The exponent of a subnormal number comes with the number of its digits.
        let fits = kept == f.p || (kept + f.p + f.emax as u32) % 2 == digits % 2;
        if rest != 0 || !fits {
            continue;
        }
        let word = if kept == f.p { field_of(f, d, digits) * f.hid() + first - f.hid() } else { first };
        return if d.below(8) == 0 { d.near(f, word, 2) } else { word };
    }
}

/// A root of a modulo 2^64, a 0 or one more than a multiple of 8: a times one over its root, of whose last digits each
/// step makes nearly twice as many right.
fn root_modulo(a: u64) -> u64 {
    let next = |r: u64, _| r.wrapping_mul(3u64.wrapping_sub(a.wrapping_mul(r).wrapping_mul(r)) / 2);
    a.wrapping_mul((0..6).fold(1, next))
}

/// The field of any exponent of the parity of a square of so many digits: it leaves the root's digits as they are.
fn field_of(f: Format, d: &mut Draw, digits: u32) -> u64 {
    2 * d.below(f.emax as u64) + 1 + u64::from(digits % 2 == 0)
}

/// S² or S² + S cut to p digits, or a word next to that, S of p digits, among them such with ones or zeros in their
/// low half.
fn about_root(f: Format, d: &mut Draw) -> u64 {
    let (p, low) = (f.p, (1 << (f.p / 2)) - 1);
    let drawn = f.hid() | d.next() & f.hid() - 1;
    let s = match d.below(3) {
        0 => drawn,
        1 => drawn | low,
        _ => drawn & !low,
    };
    let square = u128::from(s) * u128::from(s + d.below(2));
    let digits = 128 - square.leading_zeros();
    let kept = (square >> (digits - p)) as u64 - f.hid();
    let field = field_of(f, d, digits);
    d.near(f, field * f.hid() + kept, 2)
}

/// An operand of the root.
pub fn root(f: Format, d: &mut Draw) -> u64 {
    match d.below(16) {
        0..=10 => near_root(f, d),
        11 | 12 => about_root(f, d),
        _ => operand(f, d),
    }
}

/// Two operands of the root, no NaN and neither below 0, the second not below the first: two words, one and the
/// next word, or one and a word not far above. A zero has either sign.
pub fn ordered(f: Format, d: &mut Draw) -> (u64, u64) {
    let ends = [0, 1, f.hid() - 1, f.hid(), f.infinity() - 1, f.infinity()];
    let any = |d: &mut Draw| if d.below(16) == 0 { d.of(&ends) } else { number(f, root(f, d)) };
    let x = any(d);
    let y = match d.below(4) {
        0 | 1 => number(f, x + 1),
        2 => number(f, x + d.sized(f.p)),
        _ => any(d),
    };
    let mut signed = |word: u64| if word == 0 { d.below(2) * f.sign() } else { word };
    (signed(x.min(y)), signed(x.max(y)))
}

/// A word without its sign, a NaN as infinity.
fn number(f: Format, word: u64) -> u64 {
    f.size(word).min(f.infinity())
}

/// A positive normal number: an operand of the root, or the fraction of one with a drawn exponent.
pub fn normal(f: Format, d: &mut Draw) -> u64 {
    let x = f.size(root(f, d));
    if f.is_normal(x) {
        x
    } else {
        f.hid() * (1 + d.below(2 * f.emax as u64)) + x % f.hid()
    }
}

/// An operand of scaling and its n: any n, one near a step or a clamp, or one that brings the result to the
/// edge of the subnormal numbers or of infinity.
pub fn scaling(f: Format, d: &mut Draw) -> (u64, u64) {
    let x = operand(f, d);
    let (p, emax) = (i64::from(f.p), i64::from(f.emax));
    let field = (x & !f.sign()).max(1) / f.hid();
    let e = if field > 0 {
        field as i64 - emax
    } else {
        (63 - (x & !f.sign()).max(1).leading_zeros()) as i64 + 2 - emax - p
    };
    let n = match d.below(5) {
        0 => d.next() as i32 as i64,
        1 => d.within(-2 * emax - p - 9, 2 * emax + p + 9),
        2 => d.of(&[0, emax, 2 * emax, 3 * emax, -emax, p - 2 * emax, 2 * p - 3 * emax]) + d.within(-3, 3),
        3 => 1 - emax - e - d.within(-3, p + 3),
        _ => emax - e + d.within(-3, 3),
    };
    (x, n as i32 as u32 as u64)
}

/// An operand of scaling that is no NaN's and a normal n, but one in 150 times any: so that a batch has
/// stretches without a far n or a NaN, and stretches with one.
pub fn plain_scaling(f: Format, d: &mut Draw) -> (u64, u64) {
    let (x, n) = (operand(f, d), d.within(1 - i64::from(f.emax), f.emax.into()));
    if d.below(150) == 0 || x & !f.sign() > f.infinity() {
        return scaling(f, d);
    }
    (x, n as i32 as u32 as u64)
}

/// The operands of a power: x at the branches of the original, and y such that the power is finite, or at
/// its limits, or at a branch of its own; or both such that y·log2(x) is a whole number and a half, or the power is
/// some units away from a limit.
pub fn power(f: Format, d: &mut Draw) -> (u64, u64) {
    let (x, y) = match d.below(16) {
        0 => tied(f, d),
        1 => limited(f, d),
        _ => {
            let x = base(f, d);
            (x, exponent(f, d, x))
        }
    };
    let whole = f.value(y).trunc() == f.value(y);
    let turned = d.below(if whole { 2 } else { 16 }) == 0;
    (if turned { x ^ f.sign() } else { x }, y)
}

/// The y of a power of x.
fn exponent(f: Format, d: &mut Draw, x: u64) -> u64 {
    let log = f.value(x).log2();
    let [top, bottom, least] = limits(f);
    match d.below(16) {
        0 => f.fit(d.next()),
        1..=4 => f.word(d.real(least - 9., top + 9.) / log),
        5 => f.word(d.real(least - 2., bottom + 1.) / log),
        // y·log2(x) at overflow, at the least normal result, at the least subnormal one and below it.
        6 | 7 => {
            let z = about(d, &[top, bottom, least, least - 1.]);
            d.near(f, f.word(z / log), 2)
        }
        // y·log2(x) at a half or a whole number, one in four times at 1/2 or -1/2.
        8 => {
            let z = match d.below(4) {
                0 => about(d, &[0.5, -0.5]),
                _ => d.within(2 * least as i64, 2 * top as i64) as f64 / 2.,
            };
            d.near(f, f.word(z / log), 2)
        }
        9 | 10 => {
            let e = d.of(&[f.p as i32 - 1, f.p as i32, 20, 24, 27, 31, 32, 53, 63, 64, 65]);
            // Of an f64 the original looks at the high half alone, so the drawn words reach beyond the low one.
            let (units, turned) = (d.of(&[1, 8, 1 << (f.p - 20)]), d.below(2) * f.sign());
            d.near(f, f.power(e), units) ^ turned
        }
        11..=13 => {
            let whole = d.sized(f.p + 2) as f64;
            let half = d.of(&[0., 0., 0., 0.5]);
            f.word(d.of(&[1., -1.]) * (whole + half))
        }
        14 => {
            let settled = d.of(&[1., -1., 2., 0.5, -0.5, 3., -2., 1.5]);
            d.near(f, f.word(settled), 2)
        }
        _ => operand(f, d),
    }
}

/// The y·log2(x) from which on a power is too large, and those of the least normal and the least subnormal power.
pub fn limits(f: Format) -> [f64; 3] {
    let bottom = 1. - f64::from(f.emax);
    [f64::from(f.emax) + 1., bottom, bottom - f64::from(f.p) + 1.]
}

/// One of some values, or a value next to it, each distance as likely.
fn about(d: &mut Draw, values: &[f64]) -> f64 {
    d.of(values) * (1. + d.real(-1., 1.) / d.sized(50) as f64)
}

/// x a power of two, some of them subnormal, and y an odd number over twice the even part of its exponent, so that
/// y·log2(x) is exactly a whole number and a half; one of them next to that in half of the pairs.
fn tied(f: Format, d: &mut Draw) -> (u64, u64) {
    let (p, emax) = (i64::from(f.p), i64::from(f.emax));
    let e = match d.below(8) {
        0 => -emax - d.within(0, p - 2),
        1..=3 => -(d.sized(f.emax.count_ones()) as i64),
        _ => d.sized(f.emax.count_ones()) as i64,
    };
    let x = if e > -emax { f.power(e as i32) } else { 1 << (e + emax + p - 2) };
    let even = 1 << e.trailing_zeros();
    let halves = 2 * d.below((emax + p) as u64 / (e / even).unsigned_abs() + 1) + 1;
    let y = f.word(d.of(&[1., -1.]) * halves as f64 / (2 * even) as f64);
    match d.below(4) {
        0 => (d.near(f, x, 2), y),
        1 => (x, d.near(f, y, 2)),
        _ => (x, y),
    }
}

/// y of moderate size, and x some units away from that whose power is at the end of the finite numbers, the least
/// normal or subnormal number, or half of this, where it rounds to 0 or not. A quotient by y alone would miss these by
/// hundreds of units of an f64, so x is corrected by what its power is away.
fn limited(f: Format, d: &mut Draw) -> (u64, u64) {
    let [top, bottom, least] = limits(f);
    let z = d.of(&[top, bottom, least, least - 1.]);
    let y = f.word(d.of(&[1., -1.]) * d.real(1., 9.));
    let half = f.value(y) / 2.;
    let x = (z / 2. / half).exp2();
    let away = x.powf(half) / (z / 2.).exp2() - 1.;
    (d.near(f, f.word(x - x * away / half), 2), y)
}

/// The operands of a power, x no NaN and y finite and whole: x as for other powers, any, or 0, 1 or infinity; y
/// such that the power is finite, small, of every size, at the powers of two at which parity and the branches
/// are decided, or beyond 2^p, where every y is even.
pub fn whole_power(f: Format, d: &mut Draw) -> (u64, u64) {
    let x = match d.below(8) {
        0 => d.of(&[0, f.one(), f.infinity()]),
        1 | 2 => operand(f, d),
        _ => base(f, d),
    };
    let x = number(f, x) ^ d.below(2) * f.sign();
    let (p, largest) = (f.p as i32, f.value(f.infinity() - 1));
    let y = match d.below(8) {
        0 => f.word(d.within(0, 3) as f64),
        1..=3 => {
            let z = d.real(-f64::from(f.emax + p), f64::from(f.emax + 9));
            f.word((z / f.value(f.size(x)).log2()).round().clamp(-largest, largest))
        }
        4 | 5 => f.word(d.sized(f.p) as f64),
        6 => {
            let e = d.of(&[p - 1, p, 24, 31, 32, 53, 63, 64]);
            if e < p {
                f.word((1u64 << e) as f64 + d.within(-3, 3) as f64)
            } else {
                d.near(f, f.power(e), 3)
            }
        }
        _ => f.power(d.within(f.p.into(), f.emax.into()) as i32) + d.below(f.hid()),
    };
    (x, y ^ d.below(2) * f.sign())
}

/// The operands of a power, each with either sign, whole or not, and one in eight a special word or any.
pub fn any_power(f: Format, d: &mut Draw) -> (u64, u64) {
    let (x, y) = if d.below(2) == 0 { power(f, d) } else { whole_power(f, d) };
    let special = [0, f.one(), f.power(-1), f.infinity(), f.infinity() + 1, f.quiet(), f.sign() - 1];
    let mut replaced = |word: u64| {
        let chosen = match d.below(16) {
            0 => d.of(&special),
            1 => operand(f, d),
            _ => word,
        };
        chosen ^ d.below(2) * f.sign()
    };
    (replaced(x), replaced(y))
}

/// A positive x: any, near 1, at the ends of the chain's intervals, subnormal, of moderate size, or whole.
fn base(f: Format, d: &mut Draw) -> u64 {
    let size = match d.below(8) {
        0 => d.next(),
        1 | 2 => {
            let units = d.sized(f.p - 1);
            if d.below(2) == 0 {
                f.one() + units
            } else {
                f.one() - units
            }
        }
        3 => {
            let cut = d.of(&if f.p == 24 { [0x1c_c472, 0x5d_b3d7] } else { [0x3_988f_0000_0000, 0xb_b67a_0000_0000] });
            // Near 1 the two intervals differ in more of the digits that decide.
            let e = if d.below(4) == 0 { d.within(1 - f.emax as i64, f.emax as i64) } else { d.within(-2, 2) };
            d.near(f, f.power(e as i32) + cut, 1)
        }
        4 => d.sized(f.p - 1),
        5 | 6 => f.power(d.within(-9, 9) as i32) + (d.next() & f.hid() - 1),
        _ => f.word(d.sized(f.p) as f64),
    };
    f.fit(size) & !f.sign()
}
