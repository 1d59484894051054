// The square weights as boards, a8 at the top left as White sees it: of each kind and phase before, after and the difference.
use crate::iterations::Weights;
use crate::weights::{KINDS, NAMED, PHASES};
use std::fmt::Write;

const CELL: usize = 34;
const MARGIN: usize = 18;
const SIDE: usize = 8 * CELL;

/// The colour at the end of a scale, for numbers above zero and below.
struct Scale {
    above: [f64; 3],
    below: [f64; 3],
    most: f64,
}

const WORTH: ([f64; 3], [f64; 3]) = ([33.0, 102.0, 172.0], [200.0, 80.0, 30.0]);
const CHANGE: ([f64; 3], [f64; 3]) = ([27.0, 120.0, 55.0], [118.0, 42.0, 131.0]);

impl Scale {
    fn of((above, below): ([f64; 3], [f64; 3]), numbers: impl Iterator<Item = f64>) -> Scale {
        Scale { above, below, most: numbers.fold(1e-9, |most, number| most.max(number.abs())) }
    }

    /// The colour of a number, and whether it is a dark one, which wants a light text: by its luminance, about.
    fn colour(&self, number: f64) -> (String, bool) {
        let part = (number.abs() / self.most).min(1.0).powf(0.8);
        let end = if number < 0.0 { self.below } else { self.above };
        let mixed = end.map(|end| 250.0 + (end - 250.0) * part);
        let luminance: f64 = mixed.iter().zip([0.2126, 0.7152, 0.0722]).map(|(colour, share)| share * (colour / 255.0).powi(2)).sum();
        let [red, green, blue] = mixed.map(|colour| colour.round() as u8);
        (format!("#{red:02x}{green:02x}{blue:02x}"), luminance < 0.25)
    }
}

/// 64 numbers, a1 first. `exact` says a square's number in full, where the pointer rests.
fn board(numbers: &[f64], scale: &Scale, signed: bool, exact: impl Fn(usize) -> String) -> String {
    let (width, height) = (SIDE + MARGIN + 2, SIDE + MARGIN + 2);
    let mut out = format!("<svg class=\"board\" viewBox=\"0 0 {width} {height}\">");
    for (square, &number) in numbers.iter().enumerate() {
        let (x, y) = (MARGIN + square % 8 * CELL, (7 - square / 8) * CELL);
        let ((colour, dark), rounded) = (scale.colour(number), number.round() + 0.0);
        let text = if signed && rounded > 0.0 { format!("+{rounded}") } else { format!("{rounded}").replace('-', "\u{2212}") };
        let class = if dark { " class=\"dark\"" } else { "" };
        let _ = write!(out, "<g{class}><title>{}</title><rect x=\"{x}\" y=\"{y}\" width=\"{CELL}\" height=\"{CELL}\" fill=\"{colour}\"/>", exact(square));
        let _ = write!(out, "<text x=\"{}\" y=\"{}\">{text}</text></g>", x + CELL / 2, y + CELL / 2 + 4);
    }
    for place in 0..8 {
        let _ = write!(out, "<text class=\"edge\" x=\"{}\" y=\"{}\">{}</text>", MARGIN / 2, place * CELL + CELL / 2 + 4, 8 - place);
        let _ = write!(out, "<text class=\"edge\" x=\"{}\" y=\"{}\">{}</text>", MARGIN + place * CELL + CELL / 2, SIDE + 14, (b'a' + place as u8) as char);
    }
    out + "</svg>"
}

fn legend(scale: &Scale) -> String {
    let mut out = String::from("<span class=\"legend\">");
    for fifth in -4..=4 {
        let number = scale.most * fifth as f64 / 4.0;
        let _ = write!(out, "<i style=\"background:{}\"></i>", scale.colour(number).0);
    }
    let _ = write!(out, " \u{2212}{0:.0} to {0:.0}</span>", scale.most);
    out
}

/// All boards, twelve of each sort; a kind's colours are on one scale, the differences of all kinds on another.
pub fn boards(before: &Weights, after: &Weights) -> String {
    let squares = |weights: &Weights, kind: usize, phase: usize| weights[NAMED.len() + kind * 128 + phase * 64..][..64].to_vec();
    let change = Scale::of(CHANGE, before.iter().zip(after).skip(NAMED.len()).map(|(before, after)| after - before));
    let mut out = format!("<p class=\"key\">Differences, on one scale for all boards: {}</p>", legend(&change));
    for (kind, name) in KINDS.iter().enumerate() {
        let range = NAMED.len() + kind * 128..NAMED.len() + (kind + 1) * 128;
        let worth = Scale::of(WORTH, before[range.clone()].iter().chain(&after[range]).copied());
        let _ = write!(out, "<section class=\"kind\"><h3>{}</h3><p class=\"key\">Weights: {}</p>", crate::report::capital(name), legend(&worth));
        for (phase, phase_name) in PHASES.iter().enumerate() {
            let (one, other) = (squares(before, kind, phase), squares(after, kind, phase));
            let apart: Vec<f64> = one.iter().zip(&other).map(|(one, other)| other - one).collect();
            let exact = |square: usize| {
                let at = format!("{}{}", (b'a' + (square % 8) as u8) as char, square / 8 + 1);
                format!("{name}, {phase_name}, {at}: {:.3} before, {:.3} after, {:+.3}", one[square], other[square], apart[square])
            };
            let pictures = [board(&one, &worth, false, exact), board(&other, &worth, false, exact), board(&apart, &change, true, exact)];
            out += "<div class=\"row\">";
            for (picture, sort) in pictures.iter().zip(["before", "after", "difference"]) {
                let _ = write!(out, "<figure>{picture}<figcaption>{phase_name}, {sort}</figcaption></figure>");
            }
            out += "</div>";
        }
        out += "</section>";
    }
    out
}

#[cfg(test)]
mod tests {
    use super::*;

    #[test]
    fn twelve_boards_of_each_sort() {
        let (before, mut after) = ([0.0; 779], [0.0; 779]);
        after[11] = 12.4;
        let page = boards(&before, &after);
        assert_eq!(page.matches("<svg class=\"board\"").count(), 36);
        assert_eq!(page.matches("+12</text>").count(), 1);
        assert!(page.contains("pawn, opening, a1: 0.000 before, 12.400 after, +12.400") && !page.contains("NaN"));
    }
}
