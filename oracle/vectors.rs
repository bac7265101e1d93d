// Prints the original's answers to the vectors' operands, as the program `vectors` prints the port's.
// With the original's libm.rs beside this file:
//   rustc -O --edition 2021 --cfg 'feature="compact"' vectors.rs -o vectors
//   ./vectors > ../crates/vectors/stdout
//   ./vectors roots > ../crates/second_root/stdout
//   ./vectors sqrtf in > ../crates/sqrtf/stdin; ./vectors sqrtf out > ../crates/sqrtf/stdout
// and so on for the other programs: a few records more than one piece, the last of them cut off.
// A NaN is printed as the one that the port returns. Partial roots, which the original has not, are
// found by trial from document 01's inequality.
#![allow(dead_code)]
#[path = "libm.rs"]
mod libm;

const SINGLES: [u32; 32] = [
    0x00000000, 0x80000000, 0x00000001, 0x80000001, 0x00000003, 0x007fffff,
    0x00800000, 0x00800001, 0x33800000, 0x3e99999a, 0x3f000000, 0x3f7fffff,
    0x3f800000, 0x3f800001, 0x3fc00000, 0x40000000, 0x40400000, 0x41200000,
    0x42f60000, 0x4b7fffff, 0x4b800000, 0x7f7fffff, 0x7f800000, 0x7f800001,
    0x7fc00000, 0xbf000000, 0xbf800000, 0xc0000000, 0xc0400000, 0xc2c80000,
    0xff800000, 0xffc00001,
];

const DOUBLES: [u64; 32] = [
    0x0000000000000000, 0x8000000000000000, 0x0000000000000001, 0x8000000000000001,
    0x0000000000000400, 0x0000000080000000, 0x000fffffffffffff, 0x0010000000000000,
    0x3ca0000000000000, 0x3fd3333333333333, 0x3fe0000000000000, 0x3fefffffffffffff,
    0x3ff0000000000000, 0x3ff0000000000001, 0x3ff8000000000000, 0x4000000000000000,
    0x4008000000000000, 0x4024000000000000, 0x405ec00000000000, 0x433fffffffffffff,
    0x4340000000000000, 0x7fefffffffffffff, 0x7ff0000000000000, 0x7ff0000000000001,
    0x7ff8000000000000, 0xbfe0000000000000, 0xbff0000000000000, 0xc000000000000000,
    0xc008000000000000, 0xc059000000000000, 0xfff0000000000000, 0xfff8000000000001,
];

const EXPONENTS: [i32; 16] = [
    0, 1, -1, -24, 127, -126, -149, -150,
    276, 277, -277, -278, -1074, -1075, 2098, -2147483648,
];

fn single_word(x: f32) -> u32 {
    let w = x.to_bits();
    if w & 0x7fffffff > 0x7f800000 { 0x7fc00000 } else { w }
}

fn double_word(x: f64) -> u64 {
    let w = x.to_bits();
    if w & 0x7fffffffffffffff > 0x7ff0000000000000 { 0x7ff8000000000000 } else { w }
}

// k rounds of the root of the f32 word 2.0: M is 2, so W is 2^24.
fn partial_of_two(k: u32) {
    let w = 1u128 << 24;
    let mut q = 0u128;
    while (1u128 << 25) * (q + 1) * (q + 1) <= (1u128 << (2 * k)) * w {
        q += 1;
    }
    println!("{} {} {}", q, (1u128 << (k + 1)) * w - (1u128 << (26 - k)) * q * q, k);
}

fn roots() {
    println!("sqrtf");
    for x in SINGLES {
        println!("{:08x} {:08x}", x, single_word(libm::sqrtf(f32::from_bits(x))));
    }
    println!("sqrtd");
    for x in DOUBLES {
        println!("{:016x} {:016x}", x, double_word(libm::sqrtd(f64::from_bits(x))));
    }
}

// Records of a program: the sample words first, then words of a xorshift generator.
fn stream(name: &str, answers: bool) {
    let double = name.ends_with('d');
    let size = if double { 8 } else { 4 };
    let (record, piece) = match name {
        "sqrtf" => (4, 4096),
        "scalbnd" => (12, 1024),
        "powd" => (16, 1024),
        _ => (8, 2048),
    };
    let (mut input, mut output) = (Vec::new(), Vec::new());
    let mut state = 0x9e3779b97f4a7c15u64;
    let mut next = |i: usize| {
        state ^= state << 13;
        state ^= state >> 7;
        state ^= state << 17;
        if i < 32 {
            return if double { DOUBLES[i] } else { SINGLES[i] as u64 };
        }
        state
    };
    for i in 0..piece + 3 {
        let x = next(i);
        input.extend(&x.to_le_bytes()[..size]);
        let (xf, xd) = (f32::from_bits(x as u32), f64::from_bits(x));
        let answer = match &name[..name.len() - 1] {
            "sqrt" if double => double_word(libm::sqrtd(xd)),
            "sqrt" => single_word(libm::sqrtf(xf)) as u64,
            "scalbn" => {
                let range = if double { 2400 } else { 300 };
                let n = if i < 32 { EXPONENTS[i % 16] } else { (next(i) % (2 * range + 1)) as i32 - range as i32 };
                input.extend(n.to_le_bytes());
                if double { double_word(libm::scalbnd(xd, n)) } else { single_word(libm::scalbnf(xf, n)) as u64 }
            }
            _ => {
                let y = next(if i < 32 { 31 - i } else { i });
                input.extend(&y.to_le_bytes()[..size]);
                let (yf, yd) = (f32::from_bits(y as u32), f64::from_bits(y));
                if double { double_word(libm::powd(xd, yd)) } else { single_word(libm::powf(xf, yf)) as u64 }
            }
        };
        output.extend(&answer.to_le_bytes()[..size]);
    }
    input.extend(vec![0x3fu8; record - 1]);
    std::io::Write::write_all(&mut std::io::stdout(), if answers { &output } else { &input }).unwrap();
}

fn main() {
    let arguments: Vec<String> = std::env::args().collect();
    if arguments.len() == 3 {
        return stream(&arguments[1], arguments[2] == "out");
    }
    roots();
    if arguments.len() == 2 {
        return;
    }
    println!("scalbnf");
    for x in SINGLES {
        print!("{:08x}", x);
        for n in EXPONENTS {
            print!(" {:08x}", single_word(libm::scalbnf(f32::from_bits(x), n)));
        }
        println!();
    }
    println!("scalbnd");
    for x in DOUBLES {
        print!("{:016x}", x);
        for n in EXPONENTS {
            print!(" {:016x}", double_word(libm::scalbnd(f64::from_bits(x), n)));
        }
        println!();
    }
    println!("powf");
    for x in SINGLES {
        print!("{:08x}", x);
        for y in SINGLES {
            print!(" {:08x}", single_word(libm::powf(f32::from_bits(x), f32::from_bits(y))));
        }
        println!();
    }
    println!("powd");
    for x in DOUBLES {
        print!("{:016x}", x);
        for y in DOUBLES {
            print!(" {:016x}", double_word(libm::powd(f64::from_bits(x), f64::from_bits(y))));
        }
        println!();
    }
    println!("partial_sqrtf");
    for k in [0, 1, 2, 3, 4, 5, 6, 25] {
        partial_of_two(k);
    }
    println!("refused 4");
    println!("refused 3");
}
