//! Operands for batches of powers, which go in blocks of 64 pairs. A pair that a block cannot raise itself goes by a
//! single call, and where x and y alone tell this of more than 24 pairs, all of the block does.

use crate::draws::{any_power, limits, power};
use crate::words::{Draw, Format};

/// The pairs of a block.
pub const BLOCK: usize = 64;

/// A pair as words.
pub type Pair = (u64, u64);

/// The largest |y| of a pair that a block raises itself.
fn most(f: Format) -> u64 {
    f.power(if f.p == 24 { 27 } else { 31 })
}

/// Whether a block raises a pair itself: x is positive, normal and not 1, y has digits below its leading one, the
/// power is normal and y·log2(x) no whole number and a half. None where this, rounded here, is too near to tell.
fn raised(f: Format, (x, y): Pair) -> Option<bool> {
    if !f.is_normal(x) || x == f.one() || f.size(y) > most(f) || y % f.hid() == 0 {
        return Some(false);
    }
    let (z, [top, bottom, _]) = (f.value(y) * f.value(x).log2(), limits(f));
    let (beyond, tie) = ((z - top).max(bottom - z), (z - z.floor() - 0.5).abs());
    if beyond > 0.01 || tie == 0. && x % f.hid() == 0 {
        Some(false)
    } else {
        (f.size(y) >= f.hid() && beyond < -0.01 && tie > 0.001).then_some(true)
    }
}

/// A pair that a block raises itself: x of moderate size, the power normal.
pub fn clear(f: Format, d: &mut Draw) -> Pair {
    let [top, bottom, _] = limits(f);
    loop {
        let x = f.power(d.within(-9, 8) as i32) + d.below(f.hid());
        let pair = (x, f.word(d.real(bottom, top) / f.value(x).log2()));
        if raised(f, pair) == Some(true) {
            return pair;
        }
    }
}

/// One of 20 any operands of a power, 13 such as a block raises itself, and six drawn as for single calls, but such as
/// a block may raise itself: x at the branches of the original, the power or y·log2(x) about where this is decided.
pub fn mixed(f: Format, d: &mut Draw) -> Pair {
    match d.below(20) {
        0 => any_power(f, d),
        1..=13 => clear(f, d),
        _ => loop {
            let pair = power(f, d);
            if raised(f, pair) != Some(false) {
                return pair;
            }
        },
    }
}

/// Puts drawn ones of some pairs into so many drawn places of a block.
pub fn put(block: &mut [Pair], number: usize, some: &[Pair], d: &mut Draw) {
    let mut places: Vec<usize> = (0..block.len()).collect();
    for i in 0..number {
        places.swap(i, i + d.below((block.len() - i) as u64) as usize);
        block[places[i]] = d.of(some);
    }
}

/// The special pairs that no block raises itself.
pub fn handed(f: Format) -> Vec<Pair> {
    specials(f).into_iter().filter(|&pair| raised(f, pair) == Some(false)).collect()
}

/// Pairs of each rule of the sorting, and those at which a block decides whether it raises a pair itself.
pub fn specials(f: Format) -> Vec<Pair> {
    let (one, largest, sign) = (f.one(), f.infinity() - 1, f.sign());
    let [top, bottom, least] = limits(f);
    let word = |value: f64| f.word(value);
    let mut all = Vec::new();
    let mut crossed = |xs: &[u64], ys: &[u64]| all.extend(xs.iter().flat_map(|&x| ys.iter().map(move |&y| (x, y))));

    // Settled: zero, one, infinity and NaN with any y, other x with a y that settles it.
    let (any, signalling) = ([0., 3., -4., 2.5, -0.5].map(word), f.infinity() + 1);
    let never = [f.infinity(), f.infinity() | sign, f.quiet()];
    crossed(&[0, sign, one, one | sign], &any);
    crossed(&never, &any);
    crossed(&[0, one, one | sign, word(3.3), word(0.7)], &never);
    crossed(&[signalling], &[0, word(3.)]);
    crossed(&[one, word(3.3)], &[signalling]);
    crossed(&[3.3, 0.7, -3.3].map(word), &[0., -0., 1., -1., 2., 0.5].map(word));
    // x below 0 with y odd, even, and not whole.
    crossed(&[-3.3, -0.7].map(word), &[3., -3., 4., -6., 2.5, -0.3].map(word));
    // x subnormal, of few digits and of many, the least normal and the largest.
    crossed(&[1, 3, 0x155, f.hid() / 2, f.hid() - 1, f.hid()], &[0.7, -0.3, 1.1, 3.].map(word));
    crossed(&[largest], &[0.7, 1. - 1e-6, -1. + 1e-6, 1. + 1e-6, -1. - 1e-6, -1.04, 3.].map(word));
    // x next to 1 and so near that the power is finite; |y| about the largest that a block raises, with the next high
    // half of an f64's word, and far above.
    let most = most(f);
    let near = [one - 1, one + 1, word(1. + top / 2. / f.value(most)), word(3.3)];
    let beyond = [most - 1, most, most + 1, most + (1 << (f.p / 2 + 6)), largest];
    crossed(&near, &beyond);
    crossed(&near, &beyond.map(|y| y | sign));
    crossed(&near, &[1.5, -7.3].map(word));
    // y a power of two, subnormal, or the least normal number.
    let powers = [-30, -3, -2, 2, 3, 20].map(|e| f.power(e));
    crossed(&[word(3.3)], &powers);
    crossed(&[word(3.3)], &powers.map(|y| y | sign));
    crossed(&[word(3.3)], &[1, 3, 1 | sign, f.hid() - 1, f.hid(), f.hid() + 1]);
    // y·log2(x) exactly a whole number and a half, or beside it; about 1/2 also within the same high half of a word.
    let halves = [1.5, 2.5, -2.5, -0.5, 3.5, top - 0.5, top - 1.5, bottom + 0.5, bottom - 0.5];
    crossed(&[2., 0.5].map(word), &halves.map(word));
    crossed(&[4., 0.25].map(word), &[0.25, -0.25, 0.75, 1.25, -1.25].map(word));
    crossed(&[word(16.)], &[0.125, 0.375, 0.625, -0.125].map(word));
    crossed(&[word(2.)], &[word(2.5) + 1, word(-2.5) + 1]);
    for half in [f.power(-1), f.power(-1) | sign] {
        let steps = [half - 1, half + 1, half + 2, half + (1 << (f.p / 2 + 5)), half + (1 << (f.p / 2 + 6))];
        crossed(&[word(2.)], &steps);
        crossed(&[word(4.)], &steps.map(|y| y - f.hid()));
    }
    // Powers on both sides of the largest, the least normal and the least subnormal number, at these, and far beyond.
    let over =
        [1.5 * top, top + 0.5, top, top - 1e-6, bottom + 1e-6, bottom, bottom - 1e-6, bottom - 0.3, bottom - 3.3];
    let under = [least + 3.3, least + 0.6, least, least - 0.4, least - 0.99, least - 1., least - 1.01, 1.5 * least];
    for x in [2.3, 0.3].map(word) {
        let reach = |z: f64| word(z / f.value(x).log2());
        crossed(&[x], &over.map(reach));
        crossed(&[x], &under.map(reach));
    }
    crossed(&[word(2.)], &[top, bottom, least, least - 1.].map(word));
    all.sort_unstable();
    all.dedup();
    all
}
