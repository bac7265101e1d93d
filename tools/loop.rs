// loop NAME make: 100,000,003 bytes of a program's input from a xorshift generator: roots of any
// positive word, scalings of any word with n from -20 to 20, powers of numbers from 0.5 to 2 with y
// within 128. loop bytes make: as many bytes of any value.
// loop NAME FILE: the less time, in microseconds, of two loops over a function of the C face, one
// call for each whole record of the file, results kept in memory. tools/throughput holds the
// programs to it.
use std::io::Write;

#[repr(C)]
struct Answer {
    number: u32,
    word: u64,
}

extern "C" {
    fn igholmaz_sqrtf(x: u32) -> Answer;
    fn igholmaz_sqrtd(x: u64) -> Answer;
    fn igholmaz_scalbnf(x: u32, n: i32) -> Answer;
    fn igholmaz_scalbnd(x: u64, n: i32) -> Answer;
    fn igholmaz_powf(x: u32, y: u32) -> u32;
    fn igholmaz_powd(x: u64, y: u64) -> u64;
}

fn single(r: &[u8], at: usize) -> u32 {
    u32::from_le_bytes(r[at..at + 4].try_into().unwrap())
}

fn double(r: &[u8], at: usize) -> u64 {
    u64::from_le_bytes(r[at..at + 8].try_into().unwrap())
}

fn make(name: &str) -> Vec<u8> {
    let mut state = 0x9e3779b97f4a7c15u64;
    let mut next = || {
        state ^= state << 13;
        state ^= state >> 7;
        state ^= state << 17;
        state
    };
    let mut input = Vec::new();
    while input.len() < 100_000_003 {
        let (x, y) = (next(), next());
        let near = 0.5 + 1.5 * (x >> 11) as f64 / (1u64 << 53) as f64;
        let power = 256.0 * ((y >> 11) as f64 / (1u64 << 53) as f64 - 0.5);
        let n = (y % 41) as i32 - 20;
        match name {
            "sqrtf" => input.extend((x as u32 >> 1).to_le_bytes()),
            "sqrtd" => input.extend((x >> 1).to_le_bytes()),
            "scalbnf" => input.extend([(x as u32).to_le_bytes(), n.to_le_bytes()].concat()),
            "scalbnd" => input.extend([&x.to_le_bytes()[..], &n.to_le_bytes()[..]].concat()),
            "bytes" => input.extend(x.to_le_bytes()),
            "powf" => input.extend([(near as f32).to_le_bytes(), (power as f32).to_le_bytes()].concat()),
            _ => input.extend([near.to_le_bytes(), power.to_le_bytes()].concat()),
        }
    }
    input.truncate(100_000_003);
    input
}

fn main() {
    let arguments: Vec<String> = std::env::args().collect();
    if arguments[2] == "make" {
        return std::io::stdout().write_all(&make(&arguments[1])).unwrap();
    }
    let input = std::fs::read(&arguments[2]).unwrap();
    let (size, call): (usize, fn(&[u8]) -> u64) = match arguments[1].as_str() {
        "sqrtf" => (4, |r| unsafe { igholmaz_sqrtf(single(r, 0)).word }),
        "sqrtd" => (8, |r| unsafe { igholmaz_sqrtd(double(r, 0)).word }),
        "scalbnf" => (8, |r| unsafe { igholmaz_scalbnf(single(r, 0), single(r, 4) as i32).word }),
        "scalbnd" => (12, |r| unsafe { igholmaz_scalbnd(double(r, 0), single(r, 8) as i32).word }),
        "powf" => (8, |r| unsafe { igholmaz_powf(single(r, 0), single(r, 4)) as u64 }),
        _ => (16, |r| unsafe { igholmaz_powd(double(r, 0), double(r, 8)) }),
    };
    let mut results = vec![0u64; input.len() / size];
    let mut least = u128::MAX;
    for _ in 0..2 {
        let start = std::time::Instant::now();
        for (r, to) in input.chunks_exact(size).zip(&mut results) {
            *to = call(r);
        }
        least = least.min(start.elapsed().as_micros());
    }
    std::hint::black_box(&results);
    println!("{least}");
}
