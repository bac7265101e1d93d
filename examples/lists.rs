//! Checks two lists as Berkeley TestFloat writes them, in pieces of 7 bytes. Run by examples/run.

use igholmaz::testfloat::Reader;

fn check(list: &str) {
    let mut reader = Reader::new();
    for piece in list.as_bytes().chunks(7) {
        reader.feed(piece);
    }
    let tally = reader.finish();
    println!("{} lines, {} agree, {} malformed", tally.lines, tally.agree, tally.malformed);
    if let Some(first) = tally.first {
        println!("line {} is the first that disagrees: {}", first.number, first.line().escape_ascii());
    }
    if tally.all_agree() {
        println!("every line agrees");
    }
}

fn main() {
    // The root of 2 in each width; it is inexact.
    check("4000 3DA8 01\n40000000 3FB504F3 01\n4000000000000000 3FF6A09E667F3BCD 01\n");

    // The root of -1 is any NaN, and invalid; the next line ends in a carriage return, the one after it lacks the
    // flag inexact, and the last has no newline.
    check("bf800000 ffc00000 10\n40800000 40000000 00\r\n40000000 3fb504f3 00\n40800000 40000000 00");
}
