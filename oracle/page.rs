//! The benchmark's tables, as text in columns or as Markdown, and the page that has them.

use crate::musl::SETS;
use crate::rows::PASS;
use crate::{Beside, Timed};
use std::fmt::Write;

/// What was measured.
pub struct Results<'a> {
    pub timed: &'a [Timed],
    pub subnormal: &'a [Beside],
    /// Empty if bench was built without musl.
    pub musl: &'a [Beside],
}

impl Results<'_> {
    /// The medians and the ratios of the rows.
    fn timed_table(&self, markdown: bool) -> String {
        let mut lines = vec![head(&[
            "call",
            "operands",
            "without sse",
            "as it stands",
            "C library",
            "port",
            "port / without sse",
            "port / as it stands",
            "port / C library",
            "target",
        ])];
        for row in self.timed {
            let mut line = head(&[row.call, row.operands]);
            line.extend(row.ns.map(|ns| format!("{ns:.1}")));
            line.push(format!("{:.3}", row.ratio(0)));
            line.extend([1, 2].map(|side| format!("{:.2}", row.ratio(side))));
            line.push(against(row.target, row.met()));
            lines.push(line);
        }
        laid(&lines, 2, markdown)
    }

    fn subnormal_table(&self, markdown: bool) -> String {
        let names = ["call", "normal", "subnormal", "subnormal / normal", "target"];
        beside_table(&names, self.subnormal, markdown)
    }

    fn musl_table(&self, markdown: bool) -> String {
        let names = ["call", "called", "operands", "musl", "port", "port / musl", "target"];
        beside_table(&names, self.musl, markdown)
    }

    /// The tables that were measured, as text.
    pub fn tables(&self) -> String {
        let mut text = format!("{}\n{}", self.timed_table(false), self.subnormal_table(false));
        if !self.musl.is_empty() {
            text += &format!("\n{}", self.musl_table(false));
        }
        text
    }

    /// BENCHMARK.md. The machine and musl are told of as ./bench has it.
    pub fn page(&self, rounds: usize, machine: &str, musl: &str, verdict: &str) -> String {
        format!(
            "# Benchmark

Written by `./bench`; run it again for the figures of another machine. {verdict}.

Nanoseconds for one operand, the median of {rounds} passes over {PASS} operands; the four sides of a row take
their passes in turn, in one binary, and a ratio is the median of the ratios of those {rounds} rounds. {machine}

- **original without sse**: libm.rs of lexical-parse-float 1.0.6 without its sse and sse2 branches, which is what a
  target without these has and what the port is rewritten from. **original as it stands**: on x86-64 its roots are
  one instruction of the processor. **C library**: sqrtf, sqrt, scalbnf, scalbn, powf, pow of the system.
- The port has two engines for roots that give the same bits: sqrtf and sqrtd start from a table, sqrtf_digits and
  sqrtd_digits go digit by digit as the original does.
- A row without `_batch` times one call that is not inlined for each operand. A row with `_batch` times one call
  of the port beside a Rust loop over the original, or over the C library. In the rows *by 16* and *by 100* the port is
  called once for every 16 or 100 of the open pairs, and for the 96 that are left.
- Subnormal operands have from 1 to all of their digits. Open pairs have a normal power; in the subnormal row x or
  the power is subnormal. Settled pairs are those that a rule decides. Mixed pairs are open but for one in 20, at drawn
  places, which is settled.
- A target is the most that the port may take of the time of the original without sse.
- fabs is one instruction on every side; partial roots and the sorting are not in the original.

![nanoseconds for one operand, by call and side](benchmark.svg)

{}
## Subnormal roots beside normal ones

The port's roots by digits, their passes over the normal and the subnormal operands of the table above in turn. A
target is the most that a subnormal root may take of the time of a normal one. The roots by table are not held to
this: their subnormal rows have targets of their own in the table above.

{}
## Beside musl's integer roots

{}",
            self.timed_table(true),
            self.subnormal_table(true),
            self.musl_section(musl)
        )
    }

    fn musl_section(&self, musl: &str) -> String {
        if self.musl.is_empty() {
            return "Not measured: musl's roots were not there. `tools/musl` gets them, then `./bench` times them.\n"
                .into();
        }
        format!(
            "The port's sqrtf and sqrtd beside musl's sqrtf.c and sqrt.c, which compute in whole numbers too: {musl}.
Before the timing both gave the same bits on every operand timed. Neither is inlined, and their passes are taken in
turn in one binary.

- **one by one**: a call for each operand, as in the rows above. **in a chain**: each operand waits for the answer
  before. **in a batch**: one call of the port beside a Rust loop over musl.
- The passes take {SETS} sets of {PASS} operands in turn. Compiled by gcc, musl's sqrtf branches on the parity of the
  exponent, and a processor learns that branch from operands that come again: with one set its time would fall the
  more passes are made. Operands whose exponents all have one parity, such as numbers from 1 to 2, spare musl that
  branch; they have rows of their own.
- musl ends a root with one addition of floats, which raises the inexact flag, and multiplies a subnormal operand as a
  float to make it normal; the port computes in whole numbers alone and raises no flag.
- A target is the most that the port may take of musl's time; normal operands have one.

{}",
            self.musl_table(true)
        )
    }
}

/// Names, the first time over which the second is the ratio, the second, the ratio, the target.
fn beside_table(names: &[&str], pairs: &[Beside], markdown: bool) -> String {
    let mut lines = vec![head(names)];
    for pair in pairs {
        let mut line = head(&pair.names);
        line.extend(pair.ns.map(|ns| format!("{ns:.1}")));
        line.push(format!("{:.3}", pair.ratio));
        line.push(against(pair.target, pair.met()));
        lines.push(line);
    }
    laid(&lines, names.len() - 4, markdown)
}

fn head(names: &[&str]) -> Vec<String> {
    names.iter().copied().map(String::from).collect()
}

fn against(target: Option<f64>, met: bool) -> String {
    target.map_or(String::new(), |most| format!("{most:?} {}", if met { "met" } else { "MISSED" }))
}

/// Lines of cells, the first its head, as text in columns or as a table of Markdown; the first cells are names.
fn laid(lines: &[Vec<String>], names: usize, markdown: bool) -> String {
    let cells = lines[0].len();
    let wide: Vec<usize> = (0..cells).map(|i| lines.iter().map(|line| line[i].len()).max().unwrap()).collect();
    let mut text = String::new();
    for (n, line) in lines.iter().enumerate() {
        for (i, (cell, wide)) in line.iter().zip(&wide).enumerate() {
            let (before, after) = if markdown { ("| ", " ") } else { ("", "  ") };
            let _ = if i < names {
                write!(text, "{before}{cell:wide$}{after}")
            } else {
                write!(text, "{before}{cell:>wide$}{after}")
            };
        }
        text = text.trim_end().to_string() + if markdown { " |\n" } else { "\n" };
        if markdown && n == 0 {
            text += &format!("|{}{}\n", "---|".repeat(names), "--:|".repeat(cells - names));
        }
    }
    text
}
