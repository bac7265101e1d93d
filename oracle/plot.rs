//! The benchmark as a picture: for each row a mark for each side on a logarithmic scale of nanoseconds.

use crate::rows::SIDES;
use crate::Timed;
use std::fmt::Write;

const LEFT: f64 = 250.;
const WIDE: f64 = 560.;
const TOP: f64 = 92.;
const STEP: f64 = 22.;
const COLOURS: [&str; 4] = ["#c0392b", "#d68910", "#5d6d7e", "#1f618d"];

pub fn svg(timed: &[Timed]) -> String {
    let all = || timed.iter().flat_map(|row| row.ns);
    let low = all().fold(f64::MAX, f64::min).log10().floor();
    let high = all().fold(0., f64::max).log10().ceil();
    let place = |ns: f64| LEFT + WIDE * (ns.log10() - low) / (high - low);
    let bottom = TOP + STEP * timed.len() as f64;

    let mut s = format!("<svg xmlns=\"http://www.w3.org/2000/svg\" width=\"{:.0}\" height=\"{:.0}\" font-family=\"sans-serif\" font-size=\"12\">\n\
        <rect width=\"100%\" height=\"100%\" fill=\"white\"/>\n", LEFT + WIDE + 150., bottom + 50.);
    text(&mut s, 16., 24., "start", "#000", "Nanoseconds for one operand (logarithmic; further left is faster)");
    for (i, name) in SIDES.iter().enumerate() {
        let x = LEFT + 165. * i as f64 - 60.;
        mark(&mut s, i, x, 46.);
        text(&mut s, x + 12., 50., "start", "#000", name);
    }
    text(&mut s, LEFT + WIDE + 20., TOP - 20., "start", "#000", "port / without sse");

    for decade in low as i32..=high as i32 {
        for digit in 1..10 {
            let ns = f64::from(digit) * 10f64.powi(decade);
            if ns <= 10f64.powf(high) * 1.0001 {
                let (x, colour) = (place(ns), if digit == 1 { "#999" } else { "#e4e4e4" });
                let _ = writeln!(s, "<path d=\"M{x:.1} {:.1}V{bottom:.1}\" stroke=\"{colour}\"/>", TOP - 10.);
                if [1, 2, 5].contains(&digit) {
                    text(&mut s, x, bottom + 16., "middle", "#333", &format!("{ns}"));
                }
            }
        }
    }
    text(&mut s, LEFT + WIDE / 2., bottom + 36., "middle", "#333", "ns");

    for (i, row) in timed.iter().enumerate() {
        let y = TOP + STEP * (i as f64 + 0.5);
        if i % 2 == 0 {
            let _ = writeln!(
                s,
                "<rect x=\"8\" y=\"{:.1}\" width=\"{:.0}\" height=\"{STEP}\" fill=\"#000\" opacity=\"0.04\"/>",
                y - STEP / 2.,
                LEFT + WIDE + 134.
            );
        }
        text(&mut s, 16., y + 4., "start", "#000", row.call);
        text(&mut s, LEFT - 14., y + 4., "end", "#555", row.operands);
        for (side, &ns) in row.ns.iter().enumerate() {
            mark(&mut s, side, place(ns), y);
        }
        let colour = if row.met() { "#000" } else { COLOURS[0] };
        text(&mut s, LEFT + WIDE + 60., y + 4., "end", colour, &format!("{:.3}", row.ratio(0)));
        if let Some(most) = row.target {
            text(&mut s, LEFT + WIDE + 70., y + 4., "start", "#777", &format!("\u{2264} {most:?}"));
        }
    }
    s + "</svg>\n"
}

fn text(s: &mut String, x: f64, y: f64, anchor: &str, colour: &str, words: &str) {
    let _ = writeln!(s, "<text x=\"{x:.1}\" y=\"{y:.1}\" text-anchor=\"{anchor}\" fill=\"{colour}\">{words}</text>");
}

/// A side's mark: diamond, square, triangle, and for the port a ring that leaves the others visible.
fn mark(s: &mut String, side: usize, x: f64, y: f64) {
    let shape = match side {
        0 => "M0 -6L6 0L0 6L-6 0Z",
        1 => "M-4.5 -4.5H4.5V4.5H-4.5Z",
        2 => "M0 -5.5L5.5 4.5H-5.5Z",
        _ => "M-7 0A7 7 0 1 0 7 0A7 7 0 1 0 -7 0Z",
    };
    let (colour, filled) = (COLOURS[side], if side == 3 { 0. } else { 0.85 });
    let _ = writeln!(
        s,
        "<path transform=\"translate({x:.1} {y:.1})\" d=\"{shape}\" fill=\"{colour}\" fill-opacity=\"{filled}\" \
        stroke=\"{colour}\" stroke-width=\"{}\"/>",
        if side == 3 { 2.5 } else { 0. }
    );
}
