//! The comparison: compare MODE SEED [NAME...], as ./compare starts it. MODE is quick, full or planted; the
//! names choose some functions and facts. Exit status 0: nothing differs, or every planted fault was caught.

mod blocks;
mod checks;
mod damage;
mod draws;
mod facts;
mod list_draws;
#[allow(dead_code)] // oracle/lists.rs uses the rest
mod listing;
mod operations;
mod parts;
mod pieces;
#[cfg(target_arch = "x86_64")]
mod processor;
mod reader;
mod sides;
mod streams;
mod words;

use checks::Tally;
use parts::parts;
use pieces::{Part, Scale};
use std::io::{stderr, IsTerminal, Write};
use std::process::exit;
use std::sync::atomic::{AtomicU64, Ordering::Relaxed};
use std::sync::Mutex;
use std::time::{Duration, Instant};
use words::Draw;

fn main() {
    let words: Vec<String> = std::env::args().skip(1).collect();
    let seed: u64 =
        words.get(1).and_then(|s| s.parse().ok()).unwrap_or_else(|| fail("the seed is not a number below 2^64"));
    let mode = words[0].as_str();
    let chosen = &words[2..];
    let mut all = parts(Scale { seed, full: mode == "full" });
    if let Some(name) = chosen.iter().find(|name| all.iter().all(|part| part.name != name.as_str())) {
        let mut names: Vec<&str> = all.iter().map(|part| part.name).collect();
        names.dedup();
        names.sort_unstable();
        names.dedup();
        fail(&format!("there is no function or fact {name}; there are {}", names.join(" ")));
    }
    all.retain(|part| chosen.is_empty() || chosen.iter().any(|name| part.name == name));
    exit(if mode == "planted" { planted(&all, seed) } else { compared(&all, mode, seed) });
}

fn fail(why: &str) -> ! {
    eprintln!("compare: {why}");
    exit(2)
}

/// Runs every part on all cores. The last line has the counts.
fn compared(all: &[Part], mode: &str, seed: u64) -> i32 {
    let cores = std::thread::available_parallelism().map_or(1, |n| n.get());
    println!("compare {mode}: seed {seed}, {cores} cores");
    let (mut results, mut differ) = (0, 0);
    for part in all {
        let start = Instant::now();
        let sum = on_all_cores(part, cores);
        println!(
            "  {:20}{:30}{:>18} results {:>6} differ {:>8.1} s",
            part.name,
            part.label,
            grouped(sum.results),
            grouped(sum.differ),
            start.elapsed().as_secs_f64()
        );
        if let Some(first) = sum.first {
            println!("  first difference: {first}");
        }
        results += sum.results;
        differ += sum.differ;
    }
    println!("compare: {} results, {} differ ({mode}, seed {seed})", grouped(results), grouped(differ));
    (differ != 0) as i32
}

/// The pieces of a part, given out to the cores in order. The first difference is that of the first piece.
fn on_all_cores(part: &Part, cores: usize) -> Tally {
    let (given, done, results) = (AtomicU64::new(0), AtomicU64::new(0), AtomicU64::new(0));
    let sum = Mutex::new((Tally::default(), u64::MAX));
    std::thread::scope(|scope| {
        for _ in 0..cores {
            scope.spawn(|| loop {
                let piece = given.fetch_add(1, Relaxed);
                if piece >= part.pieces {
                    break;
                }
                let mut tally = Tally::default();
                (part.run)(piece, &mut tally);
                results.fetch_add(tally.results, Relaxed);
                let (sum, first) = &mut *sum.lock().unwrap();
                sum.results += tally.results;
                sum.differ += tally.differ;
                if tally.first.is_some() && piece < *first {
                    sum.first = tally.first;
                    *first = piece;
                }
                done.fetch_add(1, Relaxed);
            });
        }
        progress(part, &done, &results);
    });
    sum.into_inner().unwrap().0
}

/// Shows how far a part is until it is done: on a terminal ever again on one line, else a line every minute.
fn progress(part: &Part, done: &AtomicU64, results: &AtomicU64) {
    let (start, terminal) = (Instant::now(), stderr().is_terminal());
    let mut shown = start;
    while done.load(Relaxed) < part.pieces {
        std::thread::sleep(Duration::from_millis(5));
        let (passed, since) = (start.elapsed().as_secs_f64(), shown.elapsed().as_secs_f64());
        if since > if terminal { 0.5 } else { 60. } {
            shown = Instant::now();
            let share = done.load(Relaxed) as f64 / part.pieces as f64;
            let left = if share > 0. { format!("{:.0} s left", passed / share - passed) } else { String::new() };
            let line = format!(
                "  {:20}{:30}{:>18} results {:>5.1} % {left}",
                part.name,
                part.label,
                grouped(results.load(Relaxed)),
                100. * share
            );
            if terminal {
                eprint!("\r{line}\x1b[K")
            } else {
                eprintln!("{line}")
            }
        }
    }
    if terminal {
        eprint!("\r\x1b[K");
        let _ = stderr().flush();
    }
}

/// Plants a fault in one drawn result of a drawn piece of each part. Without it nothing may differ, with it
/// exactly that result.
fn planted(all: &[Part], seed: u64) -> i32 {
    println!(
        "compare planted: one bit of one answer of the port is altered in each of {} parts, seed {seed}",
        all.len()
    );
    let mut caught = 0;
    for (i, part) in all.iter().enumerate() {
        let mut d = Draw::new(seed, "planted", i as u64);
        let piece = d.below(part.pieces);
        let run = |plant| {
            let mut tally = Tally { plant, ..Tally::default() };
            (part.run)(piece, &mut tally);
            tally
        };
        let clean = run(0);
        let faulty = run(1 + d.below(clean.results));
        let good = clean.differ == 0 && faulty.differ == 1;
        caught += good as u64;
        println!("  {:20}{:30} {}", part.name, part.label, if good { "caught" } else { "NOT CAUGHT" });
        println!("    {}", faulty.first.or(clean.first).unwrap_or_default().replace('\n', "\n    "));
    }
    println!("compare: {} faults planted, {caught} caught (planted, seed {seed})", all.len());
    (caught != all.len() as u64) as i32
}

/// A count in groups of three digits.
fn grouped(n: u64) -> String {
    let digits = n.to_string();
    let groups: Vec<&str> = digits.as_bytes().rchunks(3).rev().map(|g| std::str::from_utf8(g).unwrap()).collect();
    groups.join(",")
}
