//! The parts of the comparison: for each function of the port and each fact, which operands and how many.

use crate::blocks::{self, BLOCK};
use crate::checks::Tally;
use crate::draws;
use crate::operations::{Operation, Width, D, F};
use crate::pieces::{drawing, every, listing, Part, Scale};
use crate::sides::face::BATCH_MOST;
use crate::words::{entries, listed, steps, thresholds, wholes, Draw, Format};
use std::collections::BTreeSet;

/// The n by which all f32 words are scaled: no step, one and two steps, each upward and downward.
const CHOSEN: [i32; 6] = [-278, -150, -24, 1, 128, 255];

pub fn parts(scale: Scale) -> Vec<Part> {
    let mut all = Vec::new();
    for w in [&F, &D] {
        let f = w.fabs.format;
        let single = f.p == 24;
        of_one(&mut all, scale, w.fabs, draws::operand, 30);
        for (root, full) in [(w.sqrt, 31), (w.digits, 30)] {
            of_one(&mut all, scale, root, draws::root, full);
            if !single {
                let words = entries(f, &mut Draw::new(scale.seed, "entries", 0));
                listing(&mut all, scale, root.name, "each table entry", words, vec![0], 1, |x, _, t| {
                    t.single(root, x, 0)
                });
            }
        }
        let sparse = if scale.full || single { 1 } else { 32 };
        let ns = steps(f).into_iter().map(|n| u64::from(n as u32)).collect();
        listing(&mut all, scale, w.scalbn.name, "listed words, each n", listed(f), ns, sparse, |x, n, t| {
            t.single(w.scalbn, x, n)
        });
        drawing(&mut all, scale, w.scalbn.name, 25, 30, move |d, t| {
            let (x, n) = draws::scaling(f, d);
            t.single(w.scalbn, x, n)
        });
        if single && scale.full {
            for n in CHOSEN {
                let label = format!("every word, n = {n}");
                every(&mut all, scale, w.scalbn.name, &label, 0..1 << 32, 1, move |x, t| {
                    t.single(w.scalbn, x, n as u32 as u64)
                });
            }
        }
        powers(&mut all, scale, w);
        let ks = (0..f.p + 5).chain([64, 1 << 31, u32::MAX]).map(u64::from).collect();
        listing(&mut all, scale, w.partial.0, "listed words, each k", listed(f), ks, sparse, |x, k, t| {
            t.partial(w, x, k as u32)
        });
        drawing(&mut all, scale, w.partial.0, 23, 28, move |d, t| {
            let k = if d.below(16) == 0 { d.next() as u32 } else { d.below(u64::from(f.p) + 4) as u32 };
            t.partial(w, draws::root(f, d), k)
        });
        if single {
            every(&mut all, scale, w.partial.0, "every subnormal word, each k", 1..f.hid(), 1, move |x, t| {
                (0..=f.p + 1).for_each(|k| t.partial(w, x, k))
            });
        }
        batches(&mut all, scale, w);
        blocks_of_powers(&mut all, scale, w);
        order_of_roots(&mut all, scale, w);
        roots_by_fours(&mut all, scale, w);
        facts_of_powers(&mut all, scale, w);
    }
    testfloat_lists(&mut all, scale);
    all
}

/// A function of one operand: listed words, 2^full drawn ones of an f64, every word of an f32.
fn of_one(all: &mut Vec<Part>, scale: Scale, op: &'static Operation, draw: fn(Format, &mut Draw) -> u64, full: u32) {
    let f = op.format;
    let single = f.p == 24;
    listing(all, scale, op.name, "listed words", listed(f), vec![0], 1, |x, _, t| t.single(op, x, 0));
    drawing(all, scale, op.name, 24, if single { 24 } else { full }, move |d, t| t.single(op, draw(f, d), 0));
    if single {
        let (label, words) = if scale.full { ("every word", 0..1 << 32) } else { ("every subnormal word", 1..f.hid()) };
        every(all, scale, op.name, label, words, 1, |x, t| t.single(op, x, 0));
    }
}

/// Power and its sorting.
fn powers(all: &mut Vec<Part>, scale: Scale, w: &'static Width) {
    let f = w.pow.format;
    let ends = |w: &u64| [0, 1, f.hid() - 1].contains(&(w % f.hid()));
    let fields: Vec<u64> = listed(f).into_iter().filter(ends).collect();
    let sparse = if scale.full || f.p == 24 { 1 } else { 32 };
    let (edges, crossed) = (thresholds(f), "thresholds crossed");
    listing(all, scale, w.pow.name, crossed, edges.clone(), edges.clone(), 1, |x, y, t| t.single(w.pow, x, y));
    listing(all, scale, w.pow.name, "exponents crossed", fields.clone(), fields, sparse, |x, y, t| {
        t.single(w.pow, x, y)
    });
    drawing(all, scale, w.pow.name, 25, 30, move |d, t| {
        let (x, y) = draws::power(f, d);
        t.single(w.pow, x, y)
    });
    listing(all, scale, w.sort.0, crossed, edges.clone(), edges, 1, |x, y, t| t.sorted(w, x, y));
    drawing(all, scale, w.sort.0, 23, 28, move |d, t| {
        let (x, y) = draws::power(f, d);
        t.sorted(w, x, y)
    });
}

/// Batches of equal lengths around 0, 1 and the limit and beyond it, and of every unequal choice of some lengths.
fn batches(all: &mut Vec<Part>, scale: Scale, w: &'static Width) {
    let odd = [0, 1, 2, 5, BATCH_MOST - 1, BATCH_MOST, BATCH_MOST + 1, 2 * BATCH_MOST];
    let equal = (0..70).chain(BATCH_MOST - 40..BATCH_MOST + 40).chain([2 * BATCH_MOST, 65_535, 65_536, 65_537]);
    let equal: Vec<[usize; 3]> = equal.map(|n| [n; 3]).collect();
    type Pairs = fn(Format, &mut Draw) -> (u64, u64);
    let root: Pairs = |f, d| (draws::root(f, d), 0);
    // Each length with the one and with the other.
    let draw: [[Pairs; 2]; 4] = [[root; 2], [root; 2], [draws::scaling, draws::plain_scaling], [draws::power; 2]];
    for (batch, draw) in w.batches.iter().zip(draw) {
        let mut lens = equal.clone();
        for a in odd {
            for b in odd {
                lens.extend(odd.iter().filter(|_| batch.operands == 2).map(|&c| [a, c, b]));
                lens.extend((batch.operands == 1).then_some([a, 0, b]));
            }
        }
        let pieces = lens.len() as u64 * if scale.full { 8 } else { 2 };
        all.push(Part {
            name: batch.name,
            label: "each length".into(),
            pieces,
            run: Box::new(move |piece, t| {
                let mut d = Draw::new(scale.seed, batch.name, piece);
                let (turn, place) = (piece as usize / lens.len(), piece as usize % lens.len());
                t.batch(batch, lens[place], &mut d, draw[turn % 2])
            }),
        });
    }
}

/// Batches of powers, which go in blocks: of each length around those of some blocks, with a special pair in each place
/// of a block and of one that begins before the end of the one before it, with each number of special pairs in a
/// block, and of drawn pairs.
fn blocks_of_powers(all: &mut Vec<Part>, scale: Scale, w: &'static Width) {
    let (f, [.., batch]) = (w.pow.format, &w.batches);
    type Each = Box<dyn Fn(usize, &mut Draw, &mut Tally) + Sync>;
    // The pieces of a turn are functions of their place in it; there are so many turns.
    let mut part = |label: &str, one_turn: usize, [quick, full]: [usize; 2], each: Each| {
        let what = format!("{} {label}", batch.name);
        all.push(Part {
            name: batch.name,
            label: label.into(),
            pieces: (one_turn * if scale.full { full } else { quick }) as u64,
            run: Box::new(move |piece, t| each(piece as usize % one_turn, &mut Draw::new(scale.seed, &what, piece), t)),
        });
    };
    let clear = move |n: usize, d: &mut Draw| -> Vec<_> { (0..n).map(|_| blocks::clear(f, d)).collect() };

    let lens: Vec<usize> = (0..=4 * BLOCK + 4).chain(BATCH_MOST - 6..=BATCH_MOST).collect();
    part(
        "each length of blocks",
        lens.len(),
        [8, 512],
        Box::new(move |i, d, t| t.batch(batch, [lens[i]; 3], d, blocks::mixed)),
    );

    let specials = blocks::specials(f);
    part(
        "special pair in each place",
        specials.len(),
        [1, 16],
        Box::new(move |i, d, t| {
            for n in [BLOCK, 100] {
                let others = clear(n, d);
                for place in 0..n {
                    let mut pairs = others.clone();
                    pairs[place] = specials[i];
                    t.batch_of(batch, [n; 3], &pairs, d)
                }
            }
        }),
    );

    let handed = blocks::handed(f);
    part(
        "each number of special pairs",
        BLOCK + 1,
        [16, 1024],
        Box::new(move |number, d, t| {
            // A block alone, the last of two that overlap, the second of three.
            let [before, after] = [(); 2].map(|()| d.within(22, 27) as usize);
            let three = [(0, before), (BLOCK, number), (2 * BLOCK, after)];
            for (n, blocks) in [(BLOCK, &[(0, number)][..]), (100, &[(100 - BLOCK, number)]), (3 * BLOCK, &three)] {
                let mut pairs = clear(n, d);
                for &(first, number) in blocks {
                    blocks::put(&mut pairs[first..first + BLOCK], number, &handed, d)
                }
                t.batch_of(batch, [n; 3], &pairs, d)
            }
        }),
    );

    part(
        "drawn",
        1,
        [1 << 5, 1 << 14],
        Box::new(move |_, d, t| (0..16).for_each(|_| t.batch(batch, [BATCH_MOST; 3], d, blocks::mixed))),
    );
}

/// Roots keep the order of their operands. All words of an f32, each beside the next, settle it for every pair.
fn order_of_roots(all: &mut Vec<Part>, scale: Scale, w: &'static Width) {
    let (f, name) = (w.sqrt.format, w.facts.order);
    let single = f.p == 24;
    let sparse = if scale.full || single { 1 } else { 32 };
    let words: Vec<u64> = listed(f).into_iter().filter(|&x| f.value(x) >= 0.).collect();
    listing(all, scale, name, "listed words crossed", words.clone(), words, sparse, move |x, y, t| {
        if x != y && f.value(x) <= f.value(y) {
            t.ordered(w, x, y)
        }
    });
    drawing(all, scale, name, 24, if single { 24 } else { 30 }, move |d, t| {
        let (x, y) = draws::ordered(f, d);
        t.ordered(w, x, y)
    });
    if single {
        let sparse = if scale.full { 1 } else { 128 };
        every(all, scale, name, "every word", 0..f.infinity(), sparse, |x, t| t.ordered(w, x, x + 1));
    }
}

/// Roots go by 2^k where their operands go by 4^k. All normal numbers of an f32, each beside that in [1, 4)
/// and this beside that in [4, 16), settle it for every k.
fn roots_by_fours(all: &mut Vec<Part>, scale: Scale, w: &'static Width) {
    let (f, name) = (w.sqrt.format, w.facts.fours);
    let single = f.p == 24;
    let (sparse, most) = (if scale.full || single { 1 } else { 32 }, i64::from(f.emax));
    let words = listed(f).into_iter().filter(|&x| f.is_normal(x)).collect();
    let ks = (1 - most..most).filter(|&k| k != 0).map(|k| k as u64).collect();
    listing(all, scale, name, "listed words, each k", words, ks, sparse, move |x, k, t| {
        if f.fours(x).contains(&(k as i64)) {
            t.by_four(w, x, k as i64)
        }
    });
    drawing(all, scale, name, 24, 20, move |d, t| {
        let x = draws::normal(f, d);
        let ks = f.fours(x);
        if scale.full {
            ks.filter(|&k| k != 0).for_each(|k| t.by_four(w, x, k))
        } else {
            let k = d.within(*ks.start(), ks.end() - 1);
            t.by_four(w, x, if k < 0 { k } else { k + 1 })
        }
    });
    if single {
        let sparse = if scale.full { 1 } else { 128 };
        every(all, scale, name, "every normal word", f.hid()..f.infinity(), sparse, move |x, t| {
            let e = f.whole(x).1;
            t.by_four(w, x, if e == 0 { 1 } else { -i64::from(e) })
        });
    }
}

/// The sign of x in a power of a whole y, and where a power is a NaN.
fn facts_of_powers(all: &mut Vec<Part>, scale: Scale, w: &'static Width) {
    let (f, signs, nan) = (w.pow.format, w.facts.signs, w.facts.nan);
    let sparse = if scale.full || f.p == 24 { 1 } else { 32 };
    let edges = thresholds(f);
    let plus: BTreeSet<u64> = listed(f).into_iter().chain(edges.clone()).filter(|&x| x <= f.infinity()).collect();
    let plus = plus.into_iter().collect();
    listing(all, scale, signs, "listed words, each y", plus, wholes(f), sparse, |x, y, t| t.turned(w, x, y));
    drawing(all, scale, signs, 24, 28, move |d, t| {
        let (x, y) = draws::whole_power(f, d);
        t.turned(w, x, y)
    });
    listing(all, scale, nan, "thresholds crossed", edges.clone(), edges, 1, |x, y, t| t.number(w, x, y));
    drawing(all, scale, nan, 23, 28, move |d, t| {
        let (x, y) = draws::any_power(f, d);
        t.number(w, x, y)
    });
}

/// The reader of TestFloat lists. A piece of work is some drawn lists or states, all of them of the piece's own draw.
fn testfloat_lists(all: &mut Vec<Part>, scale: Scale) {
    let mut part = |label: &'static str, quick, full, each: fn(&mut Draw, &mut Tally)| {
        let pieces = if scale.full { full } else { quick };
        let run = move |piece, t: &mut Tally| each(&mut Draw::new(scale.seed, label, piece), t);
        all.push(Part { name: "testfloat", label: label.into(), pieces, run: Box::new(run) });
    };
    part("drawn lists, each piece size", 1 << 9, 1 << 15, |d, t| (0..16).for_each(|_| t.every_size(d)));
    part("each byte in each place", 1 << 7, 1 << 13, |d, t| t.every_byte(d));
    part("drawn lists, drawn cuts", 1 << 9, 1 << 14, |d, t| t.cut_anywhere(d));
    part("any state", 1 << 9, 1 << 15, |d, t| (0..1 << 10).for_each(|_| t.any_state(d)));
    #[cfg(target_arch = "x86_64")]
    part("the processor's lines", 1 << 9, 1 << 14, |d, t| {
        for f in [&F, &D].map(|w| w.sqrt.format) {
            (0..1 << 11).for_each(|_| t.by_processor(f, draws::root(f, d)))
        }
    });
}
