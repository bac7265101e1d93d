//! Damage to the lines of TestFloat lists.

use crate::words::Draw;

/// A name, and what is done to a line that ends in its newline. Not every damage makes a line disagree or malformed.
pub type Damage = (&'static str, fn(&mut Vec<u8>, &mut Draw));

pub const DAMAGES: [Damage; 14] = [
    ("a flag", |line, d| {
        let (from, digit) = (line.len().saturating_sub(3), d.of(DIGITS));
        replace(line, d, from, digit)
    }),
    ("a digit", |line, d| {
        let digit = d.of(DIGITS);
        replace(line, d, 0, digit)
    }),
    ("no digit", |line, d| {
        let byte = if d.below(2) == 0 { d.of(b"gG@`/:+-xX_.") } else { d.next() as u8 };
        replace(line, d, 0, byte)
    }),
    ("the case", |line, _| line.iter_mut().for_each(|byte| *byte ^= byte.is_ascii_alphabetic() as u8 * 0x20)),
    ("a blank", |line, d| {
        let blanks: Vec<usize> = (0..line.len()).filter(|&i| line[i] == b' ').collect();
        let place = if blanks.is_empty() { 0 } else { d.of(&blanks) };
        match d.below(6) {
            0 => drop(line.remove(place)),
            1 => line[place] = b'\t',
            2 => line.insert(0, b' '),
            3 => line.insert(line.len() - 1, b' '),
            4 => insert(line, d, b' '),
            _ => line.insert(place, b' '),
        }
    }),
    ("a carriage return", |line, d| match d.below(4) {
        0 => insert(line, d, b'\r'),
        _ => line.insert(line.len() - 1, b'\r'),
    }),
    ("a NUL", |line, d| match d.below(3) {
        0 => replace(line, d, 0, 0),
        1 => line.insert(line.len() - 1, 0),
        _ => insert(line, d, 0),
    }),
    ("a byte more", |line, d| {
        let byte = if d.below(2) == 0 { d.of(DIGITS) } else { d.next() as u8 };
        insert(line, d, byte)
    }),
    ("a byte less", |line, d| {
        line.remove(d.below(line.len() as u64) as usize);
    }),
    ("another width", |line, d| {
        // The operand is doubled or halved, or the line loses half of each of its two words.
        let word = line.iter().position(|&byte| byte == b' ').unwrap_or(0);
        match d.below(3) {
            0 => drop(line.splice(..0, line[..word].to_vec())),
            1 => drop(line.drain(..word / 2)),
            _ => {
                line.drain(word + 1..(word + 1 + word / 2).min(line.len() - 1));
                line.drain(..word / 2);
            }
        }
    }),
    ("a newline", |line, d| match d.below(3) {
        0 => drop(line.pop()),
        1 => line.push(b'\n'),
        _ => insert(line, d, b'\n'),
    }),
    ("cut off", |line, d| line.truncate(d.below(line.len() as u64) as usize)),
    ("a long line", |line, d| {
        let (length, end) = (d.of(&[36, 37, 38, 1000]), line.len() - 1);
        let filling = d.of(b"0 aF\0");
        if end < length {
            line.splice(end..end, std::iter::repeat_n(filling, length - end));
        }
    }),
    ("an empty line", |line, d| match d.below(2) {
        0 => line.insert(0, b'\n'),
        _ => drop(line.drain(..line.len() - 1)),
    }),
];

const DIGITS: &[u8] = b"0123456789abcdefABCDEF";

/// A byte in the place of one that is neither blank nor newline, from a place on; of none if there is none.
fn replace(line: &mut [u8], d: &mut Draw, from: usize, byte: u8) {
    let places: Vec<usize> = (from..line.len()).filter(|&i| !b" \n".contains(&line[i])).collect();
    if !places.is_empty() {
        line[d.of(&places)] = byte
    }
}

/// A byte before any other.
fn insert(line: &mut Vec<u8>, d: &mut Draw, byte: u8) {
    line.insert(d.below(line.len() as u64) as usize, byte)
}
