//! The root instructions of x86-64 with the flags that they raise: lines for the port, and a check of the second
//! reading itself.

use crate::checks::{line, Tally};
use crate::list_draws::written;
use crate::listing::{self, Counts, INEXACT, INVALID};
use crate::reader::{fed, Totals};
use crate::streams::{shown, NAME};
use crate::words::{Format, SINGLE};

impl Tally {
    /// A line of the processor's root and flags: the port finds that it agrees, and the second reading finds both.
    pub fn by_processor(&mut self, f: Format, x: u64) {
        let (word, flags) = root(f, x);
        let list = written(f, x, word, flags);
        let agrees = Counts { lines: 1, agree: 1, ..Counts::default() };
        self.totals(true, fed([&list[..]]), &Totals::of(&agrees), || shown(&list));
        let (second, raised) = listing::root(f, x);
        let second = self.taken(second);
        self.held(f.same(second, word) && raised == flags, || {
            let reading = line("the second reading", &shown(&written(f, x, second, raised)));
            format!("{NAME}, the root of {x:#x}{}{reading}", line("the processor", &shown(&list)))
        });
    }
}

/// The processor's root of an f32 or f64 word, and the flags that it raised alone.
fn root(f: Format, x: u64) -> (u64, u64) {
    let (mut kept, clear, mut after, mut word) = (0u32, 0x1f80u32, 0u32, x);
    // SAFETY: the control register is what it was when the instructions are done.
    unsafe {
        macro_rules! rooted {
            ($instruction:literal) => {
                std::arch::asm!(
                    "stmxcsr [{kept}]", "ldmxcsr [{clear}]", "movq {float}, {word}",
                    concat!($instruction, " {float}, {float}"),
                    "movq {word}, {float}", "stmxcsr [{after}]", "ldmxcsr [{kept}]",
                    kept = in(reg) &mut kept, clear = in(reg) &clear, after = in(reg) &mut after,
                    word = inout(reg) word, float = out(xmm_reg) _, options(nostack)
                )
            };
        }
        if f.p == SINGLE.p {
            rooted!("sqrtss")
        } else {
            rooted!("sqrtsd")
        }
    }
    // Of the six flags the second, a subnormal operand, is none of IEEE 754's.
    let bits = [INVALID, 0, 8, 4, 2, INEXACT];
    (word, (0..6).filter(|place| after >> place & 1 != 0).map(|place| bits[place]).sum())
}
