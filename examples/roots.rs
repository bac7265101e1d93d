//! Asks the port for roots, powers and batches. Run by examples/run.

use igholmaz::{libm, partial_sqrtf, scalbnf, sort_powf, sqrtd_batch, sqrtf, Refusal, Sorted};

fn main() -> Result<(), Refusal> {
    // Floats, by the names that libm.rs has.
    println!("sqrtf(2) = {:.7}", libm::sqrtf(2.0));
    println!("powd(10, -3) = {:.20}", libm::powd(10.0, -3.0));

    // Words, bit by bit.
    println!("the root of the least f32 is {:#010x}", sqrtf(1));
    println!("1.5 times 2^-150 is {:#010x}", scalbnf(1.5f32.to_bits(), -150));

    // The root of 2, digit by digit.
    for rounds in [1, 3, 6] {
        let partial = partial_sqrtf(2f32.to_bits(), rounds)?;
        println!("after {} rounds the digits are {}, left over is {}", partial.rounds, partial.digits, partial.left);
    }
    if let Err(refusal) = partial_sqrtf(2f32.to_bits(), 26) {
        println!("26 rounds are refused with {}: {refusal}", refusal as u32);
    }

    // Which powers a rule settles.
    for (x, y) in [(-2f32, 0.5f32), (-2., 3.)] {
        match sort_powf(x.to_bits(), y.to_bits()) {
            Sorted::Settled(word) => println!("{x} to the {y} is settled: {word:#010x}"),
            Sorted::Open { negative } => println!("{x} to the {y} is open, negative: {negative}"),
        }
    }

    // A batch, and one that is refused.
    let xs = [1f64, 4., 9., 16.].map(f64::to_bits);
    let mut out = [0; 4];
    let count = sqrtd_batch(&xs, &mut out)?;
    println!("{count} roots: {:?}", out.map(f64::from_bits));
    if let Err(refusal) = sqrtd_batch(&xs[..3], &mut out) {
        println!("3 operands for 4 results are refused with {}: {refusal}", refusal as u32);
    }
    Ok(())
}
