//! Work in pieces that the cores take in turn: the pairs of two lists, drawn operands, the words of a range.

use crate::checks::Tally;
use crate::words::Draw;
use std::ops::Range;

/// Pieces of work, each a function of its number alone. `label` is what stands in the printed table.
pub struct Part {
    pub name: &'static str,
    pub label: String,
    pub pieces: u64,
    pub run: Box<dyn Fn(u64, &mut Tally) + Sync>,
}

/// How much is compared, and the seed of what is drawn.
#[derive(Clone, Copy)]
pub struct Scale {
    pub seed: u64,
    pub full: bool,
}

const PIECE: u64 = 1 << 16;

/// Each x of a list with each y of another, or one drawn pair of every `sparse` of them.
pub fn listing(
    all: &mut Vec<Part>,
    scale: Scale,
    name: &'static str,
    label: &str,
    xs: Vec<u64>,
    ys: Vec<u64>,
    sparse: u64,
    each: impl Fn(u64, u64, &mut Tally) + Sync + 'static,
) {
    let pairs = xs.len() as u64 * ys.len() as u64;
    all.push(Part {
        name,
        label: shared(label, sparse),
        pieces: pairs.div_ceil(sparse).div_ceil(PIECE),
        run: Box::new(move |piece, t| {
            let mut d = Draw::new(scale.seed, name, piece);
            for i in piece * PIECE..(piece + 1) * PIECE {
                let pair = (i * sparse + d.below(sparse)) as usize;
                if let Some(&x) = xs.get(pair / ys.len()) {
                    each(x, ys[pair % ys.len()], t)
                }
            }
        }),
    });
}

/// 2^quick drawn operands, or 2^full.
pub fn drawing(
    all: &mut Vec<Part>,
    scale: Scale,
    name: &'static str,
    quick: u32,
    full: u32,
    each: impl Fn(&mut Draw, &mut Tally) + Sync + 'static,
) {
    let bits = if scale.full { full } else { quick };
    all.push(Part {
        name,
        label: "drawn".into(),
        pieces: (1 << bits) / PIECE,
        run: Box::new(move |piece, t| {
            let mut d = Draw::new(scale.seed, name, piece);
            for _ in 0..PIECE {
                each(&mut d, t)
            }
        }),
    });
}

/// All words of a range in their order, or one drawn of every `sparse` of them.
pub fn every(
    all: &mut Vec<Part>,
    scale: Scale,
    name: &'static str,
    label: &str,
    words: Range<u64>,
    sparse: u64,
    each: impl Fn(u64, &mut Tally) + Sync + 'static,
) {
    all.push(Part {
        name,
        label: shared(label, sparse),
        pieces: (words.end - words.start).div_ceil(sparse).div_ceil(PIECE),
        run: Box::new(move |piece, t| {
            let mut d = Draw::new(scale.seed, name, piece);
            for i in piece * PIECE..(piece + 1) * PIECE {
                let x = words.start + i * sparse + d.below(sparse);
                if words.contains(&x) {
                    each(x, t)
                }
            }
        }),
    });
}

/// A label that tells which share of the operands is taken.
fn shared(label: &str, sparse: u64) -> String {
    if sparse == 1 {
        label.into()
    } else {
        format!("{label}, 1 in {sparse}")
    }
}
