//! TestFloat's own lists, whole and damaged, as tools/testfloat-lists starts it: `lists archive SEED FILE..` through
//! the archive, `lists program SEED RUNS PROGRAM FILE..` through the program; each is held to the second reading.
//! The last line has the counts; exit status 0 if nothing differs, 1 if something does, 2 if nothing was compared.

mod damage;
#[allow(dead_code)] // the comparison uses the rest
mod listing;
#[allow(dead_code)]
mod reader;
#[allow(dead_code)]
mod words;

use damage::{Damage, DAMAGES};
use reader::{fed, Totals};
use std::io::Write;
use std::process::{exit, Command, Output, Stdio};
use words::Draw;

/// The sizes of pieces in which whole lists are read, and all of a list at once.
const SIZES: [usize; 14] = [1, 2, 3, 5, 13, 21, 36, 37, 38, 39, 777, 16_384, 65_537, usize::MAX];

/// Bytes of a line that goes on through many pieces.
const VERY_LONG: usize = 1_000_000;

/// Lines of a part of a list that is read in pieces of every size.
const PART: usize = 16;

/// What has been compared, and what differed.
#[derive(Default)]
struct Sum {
    results: u64,
    differ: u64,
}

impl Sum {
    /// The first difference is told in full, its list kept beside the real ones.
    fn held(&mut self, good: bool, what: impl FnOnce() -> String, list: &[u8], beside: &str) {
        self.results += 1;
        self.differ += !good as u64;
        if !good && self.differ == 1 {
            let kept = format!("{beside}.differs");
            std::fs::write(&kept, list).unwrap_or_else(|e| fail(&format!("cannot write {kept}: {e}")));
            println!("  first difference, of the list now in {kept}: {}", what());
        }
    }
}

fn main() {
    let words: Vec<String> = std::env::args().skip(1).collect();
    let number = |at: usize| words.get(at).and_then(|word| word.parse::<u64>().ok());
    let sum = match (words.first().map(String::as_str), number(1), number(2)) {
        (Some("archive"), Some(seed), _) => through_archive(seed, &words[2..]),
        (Some("program"), Some(seed), Some(runs)) if words.len() > 4 => {
            through_program(seed, runs, &words[3], &words[4..])
        }
        _ => fail("lists archive SEED FILE.. or lists program SEED RUNS PROGRAM FILE.. is needed"),
    };
    println!("lists: {} results, {} differ", sum.results, sum.differ);
    exit((sum.differ != 0) as i32)
}

fn fail(why: &str) -> ! {
    eprintln!("lists: {why}");
    exit(2)
}

/// The lines of a file, each with its newline.
fn lines_of(file: &str) -> Vec<Vec<u8>> {
    let list = std::fs::read(file).unwrap_or_else(|e| fail(&format!("cannot read {file}: {e}")));
    list.split_inclusive(|&byte| byte == b'\n').map(<[u8]>::to_vec).collect()
}

/// A copy with one line of every `share` damaged, and one at least.
fn damaged(lines: &[Vec<u8>], (_, damage): Damage, share: u64, d: &mut Draw) -> Vec<u8> {
    let mut copy = lines.to_vec();
    let one = d.below(copy.len() as u64) as usize;
    for (place, line) in copy.iter_mut().enumerate() {
        if place == one || d.below(share) == 0 {
            damage(line, d)
        }
    }
    copy.concat()
}

/// Each list as it is, twice with a very long line between, and once with each damage, in pieces of the sizes above;
/// then in parts of some lines, each with the next of the damages, in pieces of every size.
fn through_archive(seed: u64, files: &[String]) -> Sum {
    let mut sum = Sum::default();
    for file in files {
        let mut d = Draw::new(seed, file.rsplit('/').next().unwrap_or_default(), 0);
        let lines = lines_of(file);
        let before = sum.results;
        in_pieces(&mut sum, &lines.concat(), &SIZES, file, "none");
        in_pieces(
            &mut sum,
            &[lines.concat(), vec![b'0'; VERY_LONG], lines.concat()].concat(),
            &SIZES,
            file,
            "a very long line",
        );
        for damage in DAMAGES {
            in_pieces(&mut sum, &damaged(&lines, damage, 8, &mut d), &SIZES, file, damage.0);
        }
        let whole = sum.results;
        for (part, damage) in lines.chunks(PART).zip(DAMAGES.into_iter().cycle()) {
            let list = damaged(part, damage, 4, &mut d);
            let every: Vec<usize> = (1..=list.len()).collect();
            in_pieces(&mut sum, &list, &every, file, damage.0);
        }
        println!(
            "  {:16} {:>6} lines: {:>4} readings of whole copies, {:>9} of parts in pieces of every size",
            file.rsplit('/').next().unwrap_or_default(),
            lines.len(),
            whole - before,
            sum.results - whole
        );
    }
    sum
}

fn in_pieces(sum: &mut Sum, list: &[u8], sizes: &[usize], file: &str, damage: &str) {
    let expected = Totals::of(&listing::read(list));
    for &size in sizes {
        let got = fed(list.chunks(size));
        let what = || {
            let (wanted, port) = (expected.told(), got.told());
            format!("damage {damage}, in pieces of {size}\n    it should be {wanted}\n    the port     {port}")
        };
        sum.held(got == expected, what, list, file);
    }
}

/// Runs of the program on stretches of the lists, most of them damaged, written into its standard input in pieces.
fn through_program(seed: u64, runs: u64, program: &str, files: &[String]) -> Sum {
    let lists: Vec<Vec<Vec<u8>>> = files.iter().map(|file| lines_of(file)).collect();
    let mut sum = Sum::default();
    for run in 0..runs {
        let mut d = Draw::new(seed, "program", run);
        let place = d.below(lists.len() as u64) as usize;
        let lines = &lists[place];
        let from = d.below(lines.len() as u64) as usize;
        let stretch = match d.below(16) {
            0 => &lines[..0],
            1 => &lines[..],
            _ => &lines[from..lines.len().min(from + d.sized(11) as usize)],
        };
        let share = d.sized(10);
        let list = match d.below(8) {
            _ if stretch.is_empty() => Vec::new(),
            0 => stretch.concat(),
            _ => damaged(stretch, d.of(&DAMAGES), share, &mut d),
        };
        let sizes: Vec<usize> = (0..16).map(|_| d.sized(if run % 2 == 0 { 6 } else { 17 }) as usize).collect();
        let expected = listing::read(&list).report();
        let output = answered(program, &list, &sizes).unwrap_or_else(|e| fail(&format!("{program}: {e}")));
        let good = output.stdout == expected.as_bytes() && output.stderr.is_empty() && output.status.success();
        let what = || {
            let [printed, wrong] = [&output.stdout, &output.stderr].map(|text| text.escape_ascii());
            format!(
                "run {run}\n    it should print {}\n    it printed      {printed}\n    on standard error {wrong}, {}",
                expected.escape_default(),
                output.status
            )
        };
        sum.held(good, what, &list, &files[place]);
    }
    sum
}

/// What the program answers to a list that comes in pieces of the sizes given, again and again.
fn answered(program: &str, list: &[u8], sizes: &[usize]) -> std::io::Result<Output> {
    let mut child =
        Command::new(program).stdin(Stdio::piped()).stdout(Stdio::piped()).stderr(Stdio::piped()).spawn()?;
    let mut input = child.stdin.take().expect("it was asked for");
    std::thread::scope(|scope| {
        scope.spawn(move || {
            let mut rest = list;
            for &size in sizes.iter().cycle() {
                let (piece, after) = rest.split_at(size.min(rest.len()));
                // A program that ends too early is told by what it printed.
                if piece.is_empty() || input.write_all(piece).is_err() {
                    break;
                }
                rest = after;
            }
        });
        child.wait_with_output()
    })
}
