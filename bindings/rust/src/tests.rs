//! Document 01's hand-checked values, and what the bindings add: slices, refusals, floats, the reader of lists.

extern crate std;
use super::*;
use std::string::ToString;
use std::vec::Vec;
use std::{format, vec};
use testfloat::{Reader, Tally};

const INF: u32 = 0x7f80_0000;
const MINUS: u32 = 0x8000_0000;

fn f(x: f32) -> u32 {
    x.to_bits()
}

#[test]
fn roots() {
    let values = [
        (1, 0x1a35_04f3),
        (0x4000_0000, 0x3fb5_04f3),
        (0x7f7f_ffff, 0x5f7f_ffff),
        (MINUS, MINUS),
        (MINUS | 1, NAN_F),
        (INF, INF),
    ];
    for (x, root) in values {
        assert_eq!([sqrtf(x), sqrtf_digits(x)], [root; 2]);
    }
    for (x, root) in [(0x8000_0000, 0x1f56_a09e_667f_3bcd), (f64::NEG_INFINITY.to_bits(), NAN_D)] {
        assert_eq!([sqrtd(x), sqrtd_digits(x)], [root; 2]);
    }
}

#[test]
fn partial_roots() {
    for (k, q) in [0, 1, 2, 5, 11, 22, 45].into_iter().enumerate() {
        let partial = partial_sqrtf(f(2.), k as u32).unwrap();
        assert_eq!((partial.digits, partial.rounds), (q, k as u32));
    }
    assert_eq!(partial_sqrtf(f(2.), 3), Ok(Partial { digits: 5, left: 58_720_256, rounds: 3 }));
    assert_eq!(partial_sqrtf(f(2.), ROUNDS_MOST_F).map(|partial| partial.rounds), Ok(25));
    assert_eq!(partial_sqrtf(f(2.), ROUNDS_MOST_F + 1), Err(Refusal::TooManyRounds));
    assert_eq!(partial_sqrtf(f(-1.), 26), Err(Refusal::NotPositive));
    assert!(partial_sqrtd(2f64.to_bits(), ROUNDS_MOST_D).is_ok());
    assert_eq!(partial_sqrtd(2f64.to_bits(), ROUNDS_MOST_D + 1), Err(Refusal::TooManyRounds));
}

#[test]
fn scaling() {
    let values = [
        (f(1.), -149, 1),
        (f(1.), -150, 0),
        (f(1.5), -150, 1),
        (0x7f7f_ffff, -277, 1),
        (0x7f7f_ffff, -278, 0),
        (1, 276, 0x7f00_0000),
        (1, 277, INF),
        (f(1.), i32::MAX, INF),
        (f(-1.), i32::MIN, MINUS),
    ];
    for (x, n, scaled) in values {
        assert_eq!(scalbnf(x, n), scaled);
    }
    assert_eq!((scalbnd(1f64.to_bits(), -1074), scalbnd(1f64.to_bits(), -1075)), (1, 0));
}

#[test]
fn powers() {
    let settled = [
        (-0., 0.5, 0.),
        (f32::NEG_INFINITY, 0.5, f32::INFINITY),
        (1., f32::NAN, 1.),
        (f32::NAN, 0., 1.),
        (-1., f32::NEG_INFINITY, 1.),
        (-0., -3., f32::NEG_INFINITY),
        (-0., -2., f32::INFINITY),
        (-1., 16_777_215., -1.),
        (-1., 16_777_216., 1.),
    ];
    for (x, y, power) in settled {
        assert_eq!(powf(f(x), f(y)), f(power));
        assert_eq!(sort_powf(f(x), f(y)), Sorted::Settled(f(power)));
    }
    assert_eq!(sort_powf(f(-2.), f(0.5)), Sorted::Settled(NAN_F));
    assert_eq!(sort_powd((-2f64).to_bits(), 3f64.to_bits()), Sorted::Open { negative: true });
    assert_eq!(powd((-2f64).to_bits(), 3f64.to_bits()), (-8f64).to_bits());
}

#[test]
fn batches() {
    let engines: [fn(&[u32], &mut [u32]) -> Result<usize, Refusal>; 2] = [sqrtf_batch, sqrtf_digits_batch];
    for roots in engines {
        let mut out = vec![7; BATCH_MOST + 1];
        assert_eq!(roots(&[], &mut []), Ok(0));
        assert_eq!(roots(&[f(4.); BATCH_MOST + 1], &mut out), Err(Refusal::TooLong));
        assert_eq!(roots(&[f(4.); BATCH_MOST], &mut out), Err(Refusal::LengthsDiffer));
        assert!(out.iter().all(|&word| word == 7));
        assert_eq!(roots(&[f(4.); BATCH_MOST], &mut out[..BATCH_MOST]), Ok(BATCH_MOST));
        assert!(out[..BATCH_MOST].iter().all(|&word| word == f(2.)));
        assert_eq!(out[BATCH_MOST], 7);
    }
    let mut out = [7; 2];
    assert_eq!(powd_batch(&[], &[], &mut []), Ok(0));
    assert_eq!(scalbnf_batch(&[f(4.); 2], &[1; 3], &mut out), Err(Refusal::LengthsDiffer));
    assert_eq!(out, [7; 2]);
}

#[test]
fn floats() {
    assert!(libm::sqrtd(-1.).is_nan());
    assert_eq!(libm::fabsf(-0.).to_bits(), 0);
    assert_eq!(fabsd(NAN_D | 1 << 63 | 5), NAN_D | 5);
    assert_eq!(libm::scalbnf(3., 4), 48.);
    assert_eq!(libm::powf(3., 4.), 81.);
}

#[test]
fn refusals_say_what_they_mean() {
    assert_eq!(Refusal::LengthsDiffer as u32, 1);
    assert_eq!(Refusal::TooManyRounds.to_string(), "a partial root has at most 25 (f32) or 54 (f64) rounds");
}

/// The tally of a list that comes in these pieces.
fn tally(pieces: &[&[u8]]) -> Tally {
    let mut reader = Reader::new();
    for piece in pieces {
        reader.feed(piece);
    }
    reader.finish()
}

/// Lines, those that agree, those that are malformed, and the first that disagrees with its number.
fn seen(tally: &Tally) -> (u64, u64, u64, Option<(u64, &[u8])>) {
    (tally.lines, tally.agree, tally.malformed, tally.first.as_ref().map(|first| (first.number, first.line())))
}

const AGREE: [&[u8]; 19] = [
    // Inexact: of 2, and of the least f32, which is 2^-149.
    b"4000 3DA8 01",
    b"40000000 3FB504F3 01",
    b"4000000000000000 3FF6A09E667F3BCD 01",
    b"00000001 1A3504F3 01",
    // Either case.
    b"4000000000000000 3ff6a09e667f3bcd 01",
    b"40000000 3fB504f3 01",
    // Exact: of 4, of zeros, of infinity, of the least f16, which is 2^-24.
    b"4400 4000 00",
    b"40800000 40000000 00",
    b"0000 0000 00",
    b"8000 8000 00",
    b"8000000000000000 8000000000000000 00",
    b"7F800000 7F800000 00",
    b"0001 0C00 00",
    // A NaN agrees with any NaN; below 0 it is invalid.
    b"BC00 7E00 10",
    b"BC00 fc01 10",
    b"FF800000 FFC00000 10",
    // Of a quiet NaN it is not, of a signalling one it is.
    b"FFFFFFFF 7FC00000 00",
    b"7F800001 7FC00001 10",
    b"FFF0000000000001 7FF0000000000001 10",
];

const DISAGREE: [&[u8]; 14] = [
    // The last bit of the result, its sign, its exponent.
    b"4000 3DA9 01",
    b"40000000 BFB504F3 01",
    b"4000000000000000 7FF6A09E667F3BCD 01",
    // A flag too few, a flag too many, another flag, a bit that is no flag.
    b"4000 3DA8 00",
    b"BF800000 7FC00000 00",
    b"4400 4000 01",
    b"40000000 3FB504F3 03",
    b"7FC00000 7FC00000 10",
    b"40000000 3FB504F3 10",
    b"40000000 3FB504F3 81",
    // A NaN agrees with nothing else, a zero not with the other.
    b"BC00 7C00 10",
    b"40800000 7FC00000 00",
    b"8000 0000 00",
    b"0000 8000 00",
];

const MALFORMED: [&[u8]; 31] = [
    b"",
    b" ",
    b"\r",
    b"4400 4000 00\r",
    b"4400 4000 00\x00",
    b"4400 4000 00 ",
    b" 4400 4000 00",
    b"4400\x004000 00",
    b"4400\t4000 00",
    b"4400 4000\t00",
    b"440\x00 4000 00",
    b"4400  4000 00",
    b"4400 4000  00",
    b"4400 4000",
    b"4400 4000 ",
    b"4400 4000 0",
    b"4400 4000 000",
    b"440 400 00",
    b"04400 04000 00",
    b"4400 40000000 00",
    b"40800000 4000 00",
    b"0x4400 0x4000 00",
    b"440/ 4000 00",
    b"440: 4000 00",
    b"440@ 4000 00",
    b"440G 4000 00",
    b"440` 4000 00",
    b"4400 400g 00",
    b"4400 4000 0\xff",
    b"440\xb0 4000 00",
    b"4000000000000000 3FF6A09E667F3BCD 01x",
];

#[test]
fn lines() {
    for (lines, agree, malformed) in [(&AGREE[..], 1, 0), (&DISAGREE, 0, 0), (&MALFORMED, 0, 1)] {
        for &line in lines {
            let told = (1, agree, malformed, (agree + malformed == 0).then_some((1, line)));
            assert_eq!(seen(&tally(&[line, b"\n"])), told, "{}", line.escape_ascii());
            // Without a newline; then an empty line is none.
            let told = if line.is_empty() { (0, 0, 0, None) } else { told };
            assert_eq!(seen(&tally(&[line])), told, "{}", line.escape_ascii());
        }
    }
}

#[test]
fn long_lines() {
    let good = b"4000000000000000 3FF6A09E667F3BCD 01";
    for tail in [1, 2, 35, 36, 37, 38, 220, 1 << 8, 1 << 16, (1 << 16) + 36] {
        for filler in [b' ', b'0', b'\r', 0] {
            let tail = vec![filler; tail];
            assert_eq!(seen(&tally(&[good, &tail, b"\n", good])), (2, 1, 1, None));
            assert_eq!(seen(&tally(&[&tail, good, b"\n", good])), (2, 1, 1, None));
        }
    }
}

#[test]
fn any_cutting_gives_the_same_tally() {
    let list = b"4400 4000 00\n\nBC00 FE00 10\r\n4000000000000000 3ff6a09e667f3bcd 01\n40000000 3fb504f3 00\n\
        4000 3DA8 03\n4000000000000000 3FF6A09E667F3BCD 01 and more\n\n440\x00 4000 00\n40800000 40000000 00";
    let told = (10, 3, 5, Some((5, &b"40000000 3fb504f3 00"[..])));
    for size in 1..=list.len() {
        assert_eq!(seen(&tally(&list.chunks(size).collect::<Vec<_>>())), told, "pieces of {size}");
    }
    for second in 0..=list.len() {
        for first in 0..=second {
            let pieces = [&list[..first], &list[first..second], &list[second..]];
            assert_eq!(seen(&tally(&pieces)), told, "cuts at {first} and {second}");
        }
    }
}

#[test]
fn ends_of_a_list() {
    let nothing = (0, 0, 0, None);
    assert_eq!(seen(&Reader::default().finish()), nothing);
    assert_eq!(seen(&tally(&[b"", b""])), nothing);
    assert_eq!(seen(&tally(&[b"\n"])), (1, 0, 1, None));
    assert_eq!(seen(&tally(&[b"\n\n"])), (2, 0, 2, None));
    assert_eq!(seen(&tally(&[b"4400 4000 00", b"\n", b""])), (1, 1, 0, None));
    assert_eq!(seen(&tally(&[b"4400 4000 00\n\n"])), (2, 1, 1, None));
    assert_eq!(seen(&tally(&[b"4400 4000 00\n4"])), (2, 1, 1, None));
}

#[test]
fn the_first_line_that_disagrees() {
    let all = |lists: &[&[&[u8]]]| lists.concat().join(&b"\n"[..]);
    let list = all(&[&AGREE, &MALFORMED, &DISAGREE, &AGREE]);
    let of_all = tally(&[&list]);
    assert_eq!(seen(&of_all), (83, 38, 31, Some((51, DISAGREE[0]))));
    assert!(!of_all.all_agree());
    assert!(tally(&[&all(&[&AGREE])]).all_agree());
    for (list, why) in [(&b""[..], "no line"), (b"\n", "a malformed line"), (DISAGREE[0], "one that disagrees")] {
        assert!(!tally(&[list]).all_agree(), "{why}");
    }
    let text =
        "Tally { lines: 2, agree: 1, malformed: 0, first: Some(Disagreement { number: 2, line: \"4000 3DA8 00\" }) }";
    assert_eq!(format!("{:?}", tally(&[b"4400 4000 00\n4000 3DA8 00"])), text);
}

#[test]
fn a_reader_and_its_copy_read_on_their_own() {
    let mut reader = Reader::new();
    reader.feed(b"4400 4000 00\n4400 40");
    let mut copy = reader.clone();
    copy.feed(b"01 00\n");
    reader.feed(b"00 00\n");
    assert_eq!(seen(&copy.finish()), (2, 1, 0, Some((2, &b"4400 4001 00"[..]))));
    assert_eq!(seen(&reader.finish()), (2, 2, 0, None));
}

#[test]
fn counts_stop_and_any_state_is_taken() {
    let line = |text: &[u8]| {
        let mut bytes = [0; face::LINE_KEPT];
        bytes[..text.len()].copy_from_slice(text);
        face::Line { bytes, held: text.len() }
    };
    let fed = |tally, line, piece: &[u8]| unsafe {
        let state = face::Testfloat { tally, line };
        face::igholmaz_testfloat_finish(face::igholmaz_testfloat_feed(state, piece.as_ptr(), piece.len()))
    };
    let full = face::Tally { lines: u64::MAX, agree: u64::MAX, malformed: u64::MAX, number: 0, first: line(b"") };
    let below = face::Tally { lines: u64::MAX - 3, agree: u64::MAX - 1, malformed: u64::MAX - 1, ..full };
    for tally in [full, below] {
        let face::Tally { lines, agree, malformed, number, first } =
            fed(tally, line(b""), b"4400 4000 00\n4400 4000 00\n\n\n4000 3DA8 00\n4000 3DA8 03\n");
        assert_eq!([lines, agree, malformed, number], [u64::MAX; 4]);
        assert_eq!(first, line(b"4000 3DA8 00")); // zeros follow
    }
    let wild = face::Line { bytes: [b'4'; face::LINE_KEPT], held: usize::MAX };
    let state = face::Tally { lines: 0, first: wild, ..full };
    assert_eq!(fed(state, wild, b"0\n4400 4000 00").lines, 2);
}
