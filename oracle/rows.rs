//! The rows of the benchmark: for each function and kind of operands, one pass over the same operands by each
//! side. A single call is one call that is not inlined; a batch is one call of the port, or some on short batches,
//! beside a Rust loop over the original or over the C library.

use crate::kinds::{power_batches, powers, roots, scalings};
use crate::sides::{as_it_stands, face, without_sse};
use crate::words::{DOUBLE, SINGLE};
use std::hint::black_box;

/// The sides in their order in every row.
pub const SIDES: [&str; 4] = ["original without sse", "original as it stands", "C library", "port"];

/// The place of the port among them.
pub const PORT: usize = 3;

/// Operands of one pass: as many as a batch takes.
pub const PASS: usize = face::BATCH_MOST;

pub struct Row {
    pub call: &'static str,
    pub operands: &'static str,
    /// The most that the port's time may be of that of the original without sse.
    pub target: Option<f64>,
    pub sides: [Pass; 4],
}

/// Two passes to be held beside each other: the second's time over the first's.
pub struct Pair {
    pub names: Vec<&'static str>,
    pub target: Option<f64>,
    pub sides: [Pass; 2],
}

/// One pass over a row's operands.
pub type Pass = Box<dyn FnMut()>;

/// One call for each pair of operands.
pub fn each<X: Copy + 'static, Y: Copy + 'static>(pairs: &[(X, Y)], call: impl Fn(X, Y) -> X + 'static) -> Pass {
    let pairs = pairs.to_vec();
    Box::new(move || {
        for &(x, y) in black_box(&pairs) {
            black_box(call(x, y));
        }
    })
}

/// All operands at once into a result slice.
pub fn whole<X: Copy + Default + 'static, Y: Copy + 'static>(
    pairs: &[(X, Y)],
    run: impl Fn(&[X], &[Y], &mut [X]) + 'static,
) -> Pass {
    let (xs, ys): (Vec<X>, Vec<Y>) = pairs.iter().copied().unzip();
    let mut out = vec![X::default(); xs.len()];
    Box::new(move || {
        run(black_box(&xs), black_box(&ys), &mut out);
        black_box(&mut out);
    })
}

/// A Rust loop over a single function.
pub fn looped<X: Copy, Y: Copy>(call: impl Fn(X, Y) -> X) -> impl Fn(&[X], &[Y], &mut [X]) {
    move |xs, ys, out| {
        for ((out, &x), &y) in out.iter_mut().zip(xs).zip(ys) {
            *out = call(x, y);
        }
    }
}

mod c {
    extern "C" {
        pub fn sqrtf(x: f32) -> f32;
        pub fn sqrt(x: f64) -> f64;
        pub fn scalbnf(x: f32, n: i32) -> f32;
        pub fn scalbn(x: f64, n: i32) -> f64;
        pub fn powf(x: f32, y: f32) -> f32;
        pub fn pow(x: f64, y: f64) -> f64;
    }
}

/// The rows of one width. Each single side is called by a pointer of which the compiler knows nothing.
macro_rules! width {
    ($rows:ident, $f:expr, $word:ident $float:ident: $sqrt:ident $digits:ident $scalbn:ident $pow:ident,
        $sqrts:ident $digitss:ident $scalbns:ident $pows:ident; $c_sqrt:ident $c_scalbn:ident $c_pow:ident;
        $p_sqrt:ident $p_digits:ident $p_scalbn:ident $p_pow:ident
        $p_sqrts:ident $p_digitss:ident $p_scalbns:ident $p_pows:ident) => {
        type Root = fn($float) -> $float;
        type PortRoot = unsafe extern "C" fn($word) -> face::Answer;
        type PortRoots = unsafe extern "C" fn(*const $word, usize, *mut $word, usize) -> face::Batch;
        type Scaling = fn($float, i32) -> $float;
        type Power = fn($float, $float) -> $float;
        let float = |x: $word| $float::from_bits(x);

        let (without, stands) = black_box((without_sse::$sqrt as Root, as_it_stands::$sqrt as Root));
        let library = black_box(c::$c_sqrt as unsafe extern "C" fn($float) -> $float);
        let engines = black_box([
            (stringify!($sqrt), face::$p_sqrt as PortRoot, stringify!($sqrts), face::$p_sqrts as PortRoots),
            (stringify!($digits), face::$p_digits, stringify!($digitss), face::$p_digitss),
        ]);
        for (operands, words) in roots($f, 1) {
            let pairs: Vec<_> = words.iter().map(|&x| (x as $word, ())).collect();
            for (call, port, batch, ports) in engines {
                $rows.push(Row {
                    call,
                    operands,
                    target: target(call, operands),
                    sides: [
                        each(&pairs, move |x, ()| without(float(x)).to_bits()),
                        each(&pairs, move |x, ()| stands(float(x)).to_bits()),
                        each(&pairs, move |x, ()| unsafe { library(float(x)) }.to_bits()),
                        each(&pairs, move |x, ()| unsafe { port(x) }.word as $word),
                    ],
                });
                $rows.push(Row {
                    call: batch,
                    operands,
                    target: target(batch, operands),
                    sides: [
                        whole(&pairs, looped(move |x, ()| without_sse::$sqrt(float(x)).to_bits())),
                        whole(&pairs, looped(move |x, ()| as_it_stands::$sqrt(float(x)).to_bits())),
                        whole(&pairs, looped(move |x, ()| unsafe { library(float(x)) }.to_bits())),
                        whole(&pairs, move |xs, _, out| {
                            done(unsafe { ports(xs.as_ptr(), PASS, out.as_mut_ptr(), PASS) }, PASS)
                        }),
                    ],
                });
            }
        }

        let (without, stands) = black_box((without_sse::$scalbn as Scaling, as_it_stands::$scalbn as Scaling));
        let library = black_box(c::$c_scalbn as unsafe extern "C" fn($float, i32) -> $float);
        for (operands, pairs) in scalings($f) {
            let pairs: Vec<_> = pairs.iter().map(|&(x, n)| (x as $word, n)).collect();
            $rows.push(Row {
                call: stringify!($scalbn),
                operands,
                target: target(stringify!($scalbn), operands),
                sides: [
                    each(&pairs, move |x, n| without(float(x), n).to_bits()),
                    each(&pairs, move |x, n| stands(float(x), n).to_bits()),
                    each(&pairs, move |x, n| unsafe { library(float(x), n) }.to_bits()),
                    each(&pairs, |x, n| unsafe { face::$p_scalbn(x, n) }.word as $word),
                ],
            });
            $rows.push(Row {
                call: stringify!($scalbns),
                operands,
                target: target(stringify!($scalbns), operands),
                sides: [
                    whole(&pairs, looped(move |x, n| without_sse::$scalbn(float(x), n).to_bits())),
                    whole(&pairs, looped(move |x, n| as_it_stands::$scalbn(float(x), n).to_bits())),
                    whole(&pairs, looped(move |x, n| unsafe { library(float(x), n) }.to_bits())),
                    whole(&pairs, |xs, ns, out| {
                        let out = out.as_mut_ptr();
                        done(unsafe { face::$p_scalbns(xs.as_ptr(), PASS, ns.as_ptr(), PASS, out, PASS) }, PASS)
                    }),
                ],
            });
        }

        let (without, stands) = black_box((without_sse::$pow as Power, as_it_stands::$pow as Power));
        let library = black_box(c::$c_pow as unsafe extern "C" fn($float, $float) -> $float);
        let words =
            |pairs: Vec<(u64, u64)>| -> Vec<_> { pairs.into_iter().map(|(x, y)| (x as $word, y as $word)).collect() };
        let batches = |operands, pairs: &[($word, $word)], by| Row {
            call: stringify!($pows),
            operands,
            target: target(stringify!($pows), operands),
            sides: [
                whole(pairs, looped(move |x, y| without_sse::$pow(float(x), float(y)).to_bits())),
                whole(pairs, looped(move |x, y| as_it_stands::$pow(float(x), float(y)).to_bits())),
                whole(pairs, looped(move |x, y| unsafe { library(float(x), float(y)) }.to_bits())),
                whole(pairs, move |xs, ys, out| {
                    for ((xs, ys), out) in xs.chunks(by).zip(ys.chunks(by)).zip(out.chunks_mut(by)) {
                        let n = out.len();
                        done(unsafe { face::$p_pows(xs.as_ptr(), n, ys.as_ptr(), n, out.as_mut_ptr(), n) }, n)
                    }
                }),
            ],
        };
        for (operands, pairs) in powers($f) {
            let pairs = words(pairs);
            $rows.push(Row {
                call: stringify!($pow),
                operands,
                target: target(stringify!($pow), operands),
                sides: [
                    each(&pairs, move |x, y| without(float(x), float(y)).to_bits()),
                    each(&pairs, move |x, y| stands(float(x), float(y)).to_bits()),
                    each(&pairs, move |x, y| unsafe { library(float(x), float(y)) }.to_bits()),
                    each(&pairs, |x, y| unsafe { face::$p_pow(x, y) }),
                ],
            });
            $rows.push(batches(operands, &pairs, PASS));
        }
        for ((operands, pairs), by) in power_batches($f) {
            $rows.push(batches(operands, &words(pairs), by));
        }
    };
}

pub fn done(answer: face::Batch, count: usize) {
    assert!(answer.number == 0 && answer.count == count, "a batch was refused");
}

pub fn rows() -> Vec<Row> {
    let mut all = Vec::new();
    {
        width!(all, SINGLE, u32 f32: sqrtf sqrtf_digits scalbnf powf,
            sqrtf_batch sqrtf_digits_batch scalbnf_batch powf_batch; sqrtf scalbnf powf;
            igholmaz_sqrtf igholmaz_sqrtf_digits igholmaz_scalbnf igholmaz_powf
            igholmaz_sqrtf_batch igholmaz_sqrtf_digits_batch igholmaz_scalbnf_batch igholmaz_powf_batch);
    }
    width!(all, DOUBLE, u64 f64: sqrtd sqrtd_digits scalbnd powd,
        sqrtd_batch sqrtd_digits_batch scalbnd_batch powd_batch; sqrt scalbn pow;
        igholmaz_sqrtd igholmaz_sqrtd_digits igholmaz_scalbnd igholmaz_powd
        igholmaz_sqrtd_batch igholmaz_sqrtd_digits_batch igholmaz_scalbnd_batch igholmaz_powd_batch);
    all
}

/// The most that the port's time may be of that of the original without sse.
fn target(call: &str, operands: &str) -> Option<f64> {
    match (call, operands) {
        ("sqrtf" | "sqrtf_batch", _) => Some(0.22),
        ("sqrtf_digits" | "sqrtf_digits_batch", _) => Some(1.0),
        ("sqrtd", "normal") => Some(0.035),
        ("sqrtd_batch", "normal") => Some(0.03),
        ("sqrtd" | "sqrtd_batch", _) => Some(0.04),
        ("sqrtd_digits" | "sqrtd_digits_batch", _) => Some(0.6),
        ("scalbnf" | "scalbnf_batch" | "scalbnd" | "scalbnd_batch", _) => Some(1.2),
        ("powf" | "powf_batch", "settled") => None,
        ("powd" | "powd_batch", "settled") => Some(0.85),
        ("powf" | "powf_batch" | "powd" | "powd_batch", "open, subnormal") => Some(0.4),
        ("powf" | "powd", "open") => Some(0.78),
        ("powf_batch", "open") => Some(0.16),
        ("powf_batch", "mixed") => Some(0.184),
        ("powf_batch", "open, by 100") => Some(0.25),
        ("powd_batch", "open") => Some(0.25),
        ("powd_batch", "mixed") => Some(0.29),
        ("powd_batch", "open, by 100") => Some(0.4),
        ("powf_batch" | "powd_batch", "open, by 16") => Some(0.85),
        _ => panic!("{call} on {operands} operands has no target"),
    }
}
