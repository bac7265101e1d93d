//! The port's roots beside musl's sqrtf.c and sqrt.c, which compute in whole numbers too: one by one, in a chain
//! where each operand waits for the answer before, and in a batch. tools/musl makes the archive, and --cfg musl
//! says that it is linked.

use crate::kinds::roots;
use crate::rows::{done, each, looped, whole, Pair, Pass, PASS};
use crate::sides::face;
use crate::words::{Format, DOUBLE, SINGLE};
use std::hint::black_box;

#[cfg(musl)]
mod c {
    extern "C" {
        pub fn musl_sqrtf(x: f32) -> f32;
        pub fn musl_sqrt(x: f64) -> f64;
    }
}

/// Without the archive there are no rows, and nothing calls these.
#[cfg(not(musl))]
mod c {
    pub unsafe extern "C" fn musl_sqrtf(_: f32) -> f32 {
        unreachable!()
    }
    pub unsafe extern "C" fn musl_sqrt(_: f64) -> f64 {
        unreachable!()
    }
}

/// Sets of operands that the passes take in turn. gcc's sqrtf of musl branches on the parity of the exponent, and a
/// processor learns that branch from operands that come again: of one set, the better the more passes there are.
pub const SETS: usize = 16;

/// Normal operands, the same with even exponents' fields, and subnormal ones.
fn kinds(f: Format, seed: u64) -> [(&'static str, Vec<u64>); 3] {
    let [(normal, words), subnormal] = roots(f, seed);
    let even = words.iter().map(|&x| (x & !f.hid()).max(2 * f.hid())).collect();
    [(normal, words), ("normal, one parity", even), subnormal]
}

/// A pass over each set, another at each turn.
fn rotated<X>(sets: &[Vec<(X, ())>], pass: impl Fn(&[(X, ())]) -> Pass) -> Pass {
    let mut passes: Vec<Pass> = sets.iter().map(|set| pass(set)).collect();
    let mut turn = 0;
    Box::new(move || {
        passes[turn % SETS]();
        turn += 1;
    })
}

/// One call for each operand, made of the operand and the answer before.
fn chained<X: Copy + Default + 'static>(pairs: &[(X, ())], step: impl Fn(X, X) -> X + 'static) -> Pass {
    let pairs = pairs.to_vec();
    Box::new(move || {
        let last = black_box(&pairs).iter().fold(X::default(), |last, &(x, ())| step(x, last));
        black_box(last);
    })
}

/// The rows of one width; `most` is the most that the port may take of musl's time on normal operands.
macro_rules! width {
    ($rows:ident, $f:expr, $word:ident $float:ident, $most:literal:
        $sqrt:ident $musl:ident $port:ident $ports:ident) => {
        let musl = |x: $word, ()| unsafe { c::$musl($float::from_bits(x)) }.to_bits();
        let port = |x: $word, ()| unsafe { face::$port(x) }.word as $word;
        let ports = |xs: &[$word], _: &[()], out: &mut [$word]| {
            done(unsafe { face::$ports(xs.as_ptr(), PASS, out.as_mut_ptr(), PASS) }, PASS)
        };
        // a root's sign is clear: what the answer before adds is 0, but it must be there first
        let after = |last: $word| last >> ($word::BITS - 1);
        let musl_after = move |x, last| musl(x + after(last), ());
        let port_after = move |x, last| port(x + after(last), ());
        let drawn: Vec<_> = (1..=SETS).map(|seed| kinds($f, seed as u64)).collect();
        for kind in 0..drawn[0].len() {
            let operands = drawn[0][kind].0;
            let sets: Vec<Vec<_>> =
                drawn.iter().map(|set| set[kind].1.iter().map(|&x| (x as $word, ())).collect()).collect();
            for set in &sets {
                let (words, units): (Vec<$word>, Vec<()>) = set.iter().copied().unzip();
                let mut batch = vec![0; PASS];
                ports(&words, &units, &mut batch);
                for (&x, &of_batch) in words.iter().zip(&batch) {
                    same(stringify!($sqrt), x.into(), port(x, ()).into(), musl(x, ()).into());
                    same(concat!(stringify!($sqrt), "_batch"), x.into(), of_batch.into(), musl(x, ()).into());
                }
            }
            let mut row = |way, musl: Pass, port: Pass| {
                let target = (operands == "normal").then_some($most);
                $rows.push(Pair { names: vec![stringify!($sqrt), way, operands], target, sides: [musl, port] });
            };
            row("one by one", rotated(&sets, |set| each(set, musl)), rotated(&sets, |set| each(set, port)));
            let (chain, port_chain) = (|set: &[_]| chained(set, musl_after), |set: &[_]| chained(set, port_after));
            row("in a chain", rotated(&sets, chain), rotated(&sets, port_chain));
            row("in a batch", rotated(&sets, |set| whole(set, looped(musl))), rotated(&sets, |set| whole(set, ports)));
        }
    };
}

/// The rows, musl's side first; none without musl. Ends the program if the two sides differ on an operand.
pub fn rows() -> Vec<Pair> {
    let mut all = Vec::new();
    if !cfg!(musl) {
        return all;
    }
    {
        width!(all, SINGLE, u32 f32, 0.9: sqrtf musl_sqrtf igholmaz_sqrtf igholmaz_sqrtf_batch);
    }
    width!(all, DOUBLE, u64 f64, 0.7: sqrtd musl_sqrt igholmaz_sqrtd igholmaz_sqrtd_batch);
    all
}

fn same(call: &str, x: u64, port: u64, musl: u64) {
    if port != musl {
        eprintln!(
            "bench: {call} of the word {x:#x} is {port:#x} in the port and {musl:#x} in musl: their times cannot be \
            compared, and nothing was timed"
        );
        std::process::exit(2);
    }
}
