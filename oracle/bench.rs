//! The benchmark: bench ROUNDS FOLDER MACHINE MUSL, as ./bench starts it. Times every row's sides in turn, ROUNDS
//! times, then in the same way the port's subnormal roots beside its normal ones, and its roots beside musl's if
//! they are linked, and writes BENCHMARK.md and benchmark.svg to FOLDER; MACHINE is a line about what it ran on and
//! MUSL says which musl it is.

mod kinds;
mod musl;
mod page;
mod plot;
mod rows;
mod sides;
#[allow(dead_code)] // the comparison uses the rest
mod words;

use rows::{rows, Pair, Pass, Row, PASS, PORT};
use std::io::{stderr, IsTerminal};
use std::time::Instant;

/// A row's medians in the order of rows::SIDES: nanoseconds for one operand, and the port's time over that
/// of the side in the same round.
pub struct Timed {
    pub call: &'static str,
    pub operands: &'static str,
    pub target: Option<f64>,
    pub ns: [f64; 4],
    ratios: [f64; 4],
}

impl Timed {
    /// The port's time over that of a side.
    pub fn ratio(&self, side: usize) -> f64 {
        self.ratios[side]
    }
    pub fn met(&self) -> bool {
        self.target.is_none_or(|most| self.ratio(0) <= most)
    }
}

/// The medians of two passes beside each other: nanoseconds for one operand, and the second's time over the
/// first's in the same round.
pub struct Beside {
    pub names: Vec<&'static str>,
    pub target: Option<f64>,
    pub ns: [f64; 2],
    pub ratio: f64,
}

impl Beside {
    pub fn met(&self) -> bool {
        self.target.is_none_or(|most| self.ratio <= most)
    }
}

/// The most that a subnormal root by digits may take of the time of a normal one.
const SUBNORMAL_MOST: f64 = 1.1;

fn main() {
    let words: Vec<String> = std::env::args().collect();
    let [_, rounds, folder, machine, musl] = &words[..] else { panic!("bench ROUNDS FOLDER MACHINE MUSL") };
    let rounds = rounds.parse().expect("a number of rounds");
    let (mut all, mut beside_musl) = (rows(), musl::rows());
    let roots = ["sqrtf_digits", "sqrtf_digits_batch", "sqrtd_digits", "sqrtd_digits_batch"];
    let count = all.len() + roots.len() + beside_musl.len();
    println!("bench: {count} rows, {rounds} passes over {PASS} operands for each side; nanoseconds for one operand");
    let terminal = stderr().is_terminal();
    let mut done = 0;
    let mut progress = |what: &str| {
        done += 1;
        if terminal {
            eprint!("\r  {done} of {count}: {what}\x1b[K");
        }
    };
    let mut timed = Vec::new();
    for row in &mut all {
        progress(&format!("{}, {}", row.call, row.operands));
        timed.push(time(row, rounds));
    }
    let mut subnormal = Vec::new();
    for call in roots {
        progress(&format!("{call}, subnormal beside normal"));
        subnormal.push(time_subnormal(call, &mut all, rounds));
    }
    let mut musl_timed = Vec::new();
    for Pair { names, target, sides: [first, second] } in &mut beside_musl {
        progress(&format!("{}, beside musl", names.join(", ")));
        musl_timed.push(time_beside(names.clone(), *target, [first, second], rounds));
    }
    if terminal {
        eprint!("\r\x1b[K");
    }

    let results = page::Results { timed: &timed, subnormal: &subnormal, musl: &musl_timed };
    print!("{}", results.tables());
    let targets = timed.iter().map(|row| row.target);
    let targets = targets.chain(subnormal.iter().chain(&musl_timed).map(|pair| pair.target)).flatten().count();
    let missed = missed(&results);
    let verdict = format!("{} of {targets} targets met", targets - missed.len());
    let page = results.page(rounds, machine, musl, &verdict);
    for (name, text) in [("BENCHMARK.md", page), ("benchmark.svg", plot::svg(&timed))] {
        std::fs::write(format!("{folder}/{name}"), text)
            .unwrap_or_else(|e| panic!("cannot write {folder}/{name}: {e}"));
    }
    println!("written: {folder}/BENCHMARK.md, {folder}/benchmark.svg");
    if musl_timed.is_empty() {
        println!("not measured: the roots beside musl's, which are not there; tools/musl gets them for the next run");
    }
    for line in &missed {
        println!("missed: {line}");
    }
    println!("bench: {verdict}");
    std::process::exit(i32::from(!missed.is_empty()));
}

/// A line for each target that was missed.
fn missed(results: &page::Results) -> Vec<String> {
    let mut lines = Vec::new();
    for row in results.timed.iter().filter(|row| !row.met()) {
        lines.push(format!(
            "{} on {} operands takes {:.3} of the time of the original without sse, target {:?}",
            row.call,
            row.operands,
            row.ratio(0),
            row.target.unwrap()
        ));
    }
    for pair in results.subnormal.iter().filter(|pair| !pair.met()) {
        lines.push(format!(
            "{} on subnormal operands takes {:.3} of its time on normal ones, target {:?}",
            pair.names[0],
            pair.ratio,
            pair.target.unwrap()
        ));
    }
    for pair in results.musl.iter().filter(|pair| !pair.met()) {
        lines.push(format!(
            "{} {} on {} operands takes {:.3} of musl's time, target {:?}",
            pair.names[0],
            pair.names[1],
            pair.names[2],
            pair.ratio,
            pair.target.unwrap()
        ));
    }
    lines
}

/// The sides in turn, each a pass, as often as asked: nanoseconds for one operand. A round begins with another
/// side each time, and its ratios are of passes that follow each other, so that a processor that changes its
/// speed changes both.
fn in_turn<const N: usize>(sides: [&mut Pass; N], rounds: usize) -> [Vec<f64>; N] {
    let mut passes = [const { Vec::new() }; N];
    for round in 0..rounds {
        for turn in 0..N {
            let side = (round + turn) % N;
            let start = Instant::now();
            sides[side]();
            passes[side].push(start.elapsed().as_secs_f64() * 1e9 / PASS as f64);
        }
    }
    passes
}

fn time(row: &mut Row, rounds: usize) -> Timed {
    let passes = in_turn(row.sides.each_mut(), rounds);
    let ns = [0, 1, 2, 3].map(|side| median(passes[side].clone()));
    let ratios = [0, 1, 2, 3].map(|side| ratio(&passes[PORT], &passes[side]));
    Timed { call: row.call, operands: row.operands, target: row.target, ns, ratios }
}

/// The port's side of a call's rows of normal and of subnormal operands.
fn time_subnormal(call: &'static str, all: &mut [Row], rounds: usize) -> Beside {
    let port = |operands: &str| {
        let row = all.iter().position(|row| row.call == call && row.operands == operands);
        row.unwrap_or_else(|| panic!("no row of {call} on {operands} operands"))
    };
    let rows = [port("normal"), port("subnormal")];
    let [normal, subnormal] = all.get_disjoint_mut(rows).expect("two rows");
    time_beside(vec![call], Some(SUBNORMAL_MOST), [&mut normal.sides[PORT], &mut subnormal.sides[PORT]], rounds)
}

fn time_beside(names: Vec<&'static str>, target: Option<f64>, sides: [&mut Pass; 2], rounds: usize) -> Beside {
    let passes = in_turn(sides, rounds);
    let ns = [0, 1].map(|side| median(passes[side].clone()));
    Beside { names, target, ns, ratio: ratio(&passes[1], &passes[0]) }
}

/// The median of the ratios of two sides' passes in the same round.
fn ratio(above: &[f64], below: &[f64]) -> f64 {
    median(above.iter().zip(below).map(|(a, b)| a / b).collect())
}

fn median(mut values: Vec<f64>) -> f64 {
    values.sort_by(f64::total_cmp);
    values[values.len() / 2]
}
