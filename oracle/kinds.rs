//! The kinds of operands that the benchmark times, by name, with the operands of a pass of each.

use crate::rows::PASS;
use crate::words::{Draw, Format};

/// A kind by name, and its operands.
type Drawn<T> = (&'static str, Vec<T>);

fn pass<T>(f: Format, seed: u64, kind: &'static str, mut one: impl FnMut(&mut Draw) -> T) -> Drawn<T> {
    let mut d = Draw::new(seed, kind, f.p.into());
    (kind, (0..PASS).map(|_| one(&mut d)).collect())
}

fn normal(f: Format, d: &mut Draw) -> u64 {
    f.hid() + d.below(f.infinity() - f.hid())
}

/// Positive numbers; other ones for another seed.
pub fn roots(f: Format, seed: u64) -> [Drawn<u64>; 2] {
    [pass(f, seed, "normal", |d| normal(f, d)), pass(f, seed, "subnormal", |d| d.sized(f.p - 1))]
}

/// Normal numbers with normal results; subnormal numbers with results of either kind.
pub fn scalings(f: Format) -> [Drawn<(u64, i32)>; 2] {
    let most = i64::from(f.emax / 2);
    let middle = |d: &mut Draw| f.power(d.within(-most, most) as i32) + d.below(f.hid());
    let step = i64::from(f.p);
    [
        pass(f, 1, "normal", |d| (middle(d), d.within(-most, most) as i32)),
        pass(f, 1, "subnormal", |d| (d.sized(f.p - 1), d.within(-step, step) as i32)),
    ]
}

fn reach(f: Format, x: u64, z: f64) -> (u64, u64) {
    (x, f.word(z / f.value(x).log2()))
}

fn moderate(f: Format, d: &mut Draw) -> u64 {
    f.power(d.within(-9, 8) as i32) + d.below(f.hid())
}

fn open(f: Format, d: &mut Draw) -> (u64, u64) {
    let top = f64::from(f.emax);
    reach(f, moderate(f, d), d.real(1. - top, top - 1.))
}

fn settled(f: Format, d: &mut Draw) -> (u64, u64) {
    let (x, y) = (normal(f, d), d.of(&[0., 1., -1., 2., 0.5, f64::INFINITY, f64::NAN]));
    let special = d.of(&[0., 1., -1., f64::INFINITY, f64::NAN]);
    match d.below(3) {
        0 => (x, f.word(y)),
        1 => (f.word(special), normal(f, d)),
        _ => (x | f.sign(), f.word(d.real(0.1, 0.9))),
    }
}

/// Open pairs whose power is normal, or of which x or the power is subnormal; settled pairs of every rule.
pub fn powers(f: Format) -> [Drawn<(u64, u64)>; 3] {
    let (top, least) = (f64::from(f.emax), f64::from(2 - f.emax - f.p as i32));
    [
        pass(f, 1, "open", |d| open(f, d)),
        pass(f, 1, "open, subnormal", |d| match d.below(2) {
            0 => reach(f, moderate(f, d), d.real(least, 1. - top)),
            _ => reach(f, d.sized(f.p - 1), d.real(1. - top, top - 1.)),
        }),
        pass(f, 1, "settled", |d| settled(f, d)),
    ]
}

/// For batches alone, each with how many pairs a batch takes: open pairs of which one in 20, at drawn places, is a
/// settled one instead; the open pairs of the kind above in short batches.
pub fn power_batches(f: Format) -> [(Drawn<(u64, u64)>, usize); 3] {
    let mixed = pass(f, 1, "mixed", |d| if d.below(20) == 0 { settled(f, d) } else { open(f, d) });
    let [(_, pairs), ..] = powers(f);
    [(mixed, PASS), (("open, by 16", pairs.clone()), 16), (("open, by 100", pairs), 100)]
}
