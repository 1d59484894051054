// The report of a fit: one page of HTML with no outside parts.
use crate::boards::boards;
use crate::collection::Refused;
use crate::curve::curve;
use crate::iterations::Weights;
use crate::refusals::words;
use crate::weights::{expected_word, name, File, KINDS, NAMED, VERSION};
use std::collections::BTreeMap;
use std::fmt::Write;

pub struct Report<'a> {
    pub file: &'a File,
    pub start: &'a Weights,
    pub shipped: &'a Weights,
    /// Before each iteration and after the last.
    pub errors: &'a [f64],
    pub refused: &'a [Refused],
}

const STYLE: &str = include_str!("report.css");

pub fn capital(word: &str) -> String {
    word[..1].to_uppercase() + &word[1..]
}

/// Text of docs/REFUSALS.md as HTML: what stands between backticks is code.
fn marked(text: &str) -> String {
    let plain = text.replace('&', "&amp;").replace('<', "&lt;").replace('>', "&gt;");
    let parts = plain.split('`').enumerate();
    parts.map(|(place, part)| if place % 2 == 1 { format!("<code>{part}</code>") } else { part.to_string() }).collect()
}

/// Digits in threes.
fn grouped(number: u64) -> String {
    let digits = number.to_string();
    let mut out = String::new();
    for (place, digit) in digits.chars().enumerate() {
        if place > 0 && (digits.len() - place) % 3 == 0 {
            out.push(',');
        }
        out.push(digit);
    }
    out
}

/// Ascending line numbers, runs of them as one: 3, 7–9.
fn runs(lines: &[u64]) -> String {
    let mut parts: Vec<String> = Vec::new();
    let mut place = 0;
    while place < lines.len() {
        let mut end = place;
        while end + 1 < lines.len() && lines[end + 1] == lines[end] + 1 {
            end += 1;
        }
        parts.push(if end == place { lines[place].to_string() } else { format!("{}\u{2013}{}", lines[place], lines[end]) });
        place = end + 1;
    }
    parts.join(", ")
}

/// A signed number with a real minus; what rounds to zero has no sign.
fn signed(number: f64) -> String {
    let text = format!("{number:+.2}");
    if text.ends_with("0.00") && text.len() == 5 { "0.00".into() } else { text.replace('-', "\u{2212}") }
}

fn plain(number: f64) -> String {
    format!("{number:.2}").replace('-', "\u{2212}")
}

/// How far two lists of weights lie apart over some places: the mean, the most, and where that is.
fn apart(one: &Weights, other: &Weights, places: impl Iterator<Item = usize>) -> (f64, f64, usize) {
    let (mut sum, mut count, mut most, mut at) = (0.0, 0.0, -1.0, 0);
    for place in places {
        let distance = (one[place] - other[place]).abs();
        (sum, count) = (sum + distance, count + 1.0);
        if distance > most {
            (most, at) = (distance, place);
        }
    }
    (sum / count, most, at)
}

impl Report<'_> {
    pub fn html(&self) -> String {
        let parts = [self.head(), self.error(), self.shown(), self.named(), self.squares(), self.lines(), self.made_from()];
        format!(
            "<!DOCTYPE html>\n<html lang=\"en\"><head><meta charset=\"utf-8\"><meta name=\"viewport\" content=\"width=device-width\">\
             <title>Weights fitted to a collection</title><style>{STYLE}</style></head>\n<body><main>\n{}\n</main></body></html>\n",
            parts.join("\n")
        )
    }

    fn head(&self) -> String {
        let counted = &self.file.counted;
        let (before, after) = (self.errors[0], self.errors[self.errors.len() - 1]);
        let percent = if before == 0.0 { 0.0 } else { (after - before) / before * 100.0 };
        let refused = if counted.refused == 0 { "" } else { " warn" };
        let mut out = String::from("<header><h1>Weights fitted to a collection</h1></header><div class=\"cards\">");
        for (class, number, words) in [
            ("", grouped(counted.lines), "lines"),
            ("", grouped(counted.loaded), "loaded, and fitted to"),
            (refused, grouped(counted.refused), "refused"),
            ("", grouped(self.file.iterations), "iterations"),
            ("", format!("{before:.6}"), "error before"),
            ("", format!("{after:.6}"), "error after"),
            ("", format!("{} %", signed(percent)), "change of the error"),
        ] {
            let _ = write!(out, "<div class=\"card{class}\"><b>{number}</b><span>{words}</span></div>");
        }
        out += "</div>";
        if counted.refused > 0 {
            let _ = write!(
                out,
                "<p class=\"note warn\"><b>{} of {} lines were refused</b> and took no part in this fit, which <code>--refused allow</code> let go on. \
                 <a href=\"#lines\">Which, and why</a>.</p>",
                grouped(counted.refused),
                grouped(counted.lines)
            );
        }
        out
    }

    fn error(&self) -> String {
        format!("<h2>Error over iterations</h2><p>The mean squared distance of a result, in points, from what the double of its position lets expect.</p>{}",
            curve(self.errors))
    }

    /// The sentence about the scores that are shown, and how far the fitted weights lie from those that they have.
    fn shown(&self) -> String {
        let (mean, most, at) = apart(&self.file.weights, self.shipped, 0..self.shipped.len());
        let mut out = format!(
            "<h2>What is shown, and what is fitted</h2><p class=\"note\"><b>Shown scores keep the shipped weights.</b> No score that the ledger shows changes \
             by this fit: that the number shown and the number fitted agree is proved of the shipped weights. The fitted ones lie {mean:.2} hundredths \
             of a pawn from them on average, and {most:.2} at most ({}).</p><table><thead><tr><th>group</th><th>weights</th><th>mean distance from the shipped</th>\
             <th>largest</th><th class=\"left\">where</th></tr></thead><tbody>",
            name(at)
        );
        let mut group = |title: String, from: usize, to: usize| {
            let (mean, most, at) = apart(&self.file.weights, self.shipped, from..to);
            let _ = write!(out, "<tr><th>{title}</th><td>{}</td><td>{mean:.2}</td><td>{most:.2}</td><td class=\"left\">{}</td></tr>", to - from, name(at));
        };
        group("piece values and pair".into(), 0, 6);
        group("mobility".into(), 6, 10);
        group("tempo".into(), 10, 11);
        for (kind, word) in KINDS.iter().enumerate() {
            group(format!("squares of the {word}"), NAMED.len() + kind * 128, NAMED.len() + (kind + 1) * 128);
        }
        out + "</tbody></table>"
    }

    fn named(&self) -> String {
        let changes = |place: usize| self.file.weights[place] - self.start[place];
        let most = (0..NAMED.len()).map(|place| changes(place).abs()).fold(1e-9, f64::max);
        let mut out = String::from(
            "<h2>Piece values and mobility</h2><p>In hundredths of a pawn; mobility in tenths of that for each square that is attacked. \
             The pawn stays at 100, as in the original.</p><table class=\"named\"><thead><tr>\
             <th>weight</th><th>shipped</th><th>before</th><th>after</th><th>difference</th><th></th></tr></thead><tbody>",
        );
        for (place, word) in NAMED.iter().enumerate() {
            let (change, part) = (changes(place), changes(place).abs() / most * 50.0);
            let (class, left) = if change < 0.0 { ("down", 50.0 - part) } else { ("up", 50.0) };
            let bar = format!("<div class=\"bar\"><i class=\"{class}\" style=\"left:{left:.1}%;width:{part:.1}%\"></i></div>");
            let _ = write!(out, "<tr><th>{}</th><td>{}</td><td>{}</td><td><b>{}</b></td><td>{}</td><td>{bar}</td></tr>", capital(word).replace('-', " "),
                plain(self.shipped[place]), plain(self.start[place]), plain(self.file.weights[place]), signed(change));
        }
        out + "</tbody></table>"
    }

    fn squares(&self) -> String {
        format!(
            "<h2>Square weights</h2><p>As White sees the board; Black's pieces read it from the other side. Rounded to hundredths of a pawn: \
             the pointer on a square shows more.</p>{}",
            boards(self.start, &self.file.weights)
        )
    }

    /// The refused lines, all of them, by reason.
    fn lines(&self) -> String {
        if self.refused.is_empty() {
            return "<h2 id=\"lines\">Refused lines</h2><p>None: every line of the collection was fitted to.</p>".into();
        }
        let mut reasons: BTreeMap<u8, Vec<u64>> = BTreeMap::new();
        self.refused.iter().for_each(|row| reasons.entry(row.number).or_default().push(row.line));
        let mut out = String::from(
            "<h2 id=\"lines\">Refused lines</h2><table class=\"refused\"><thead><tr><th>No.</th><th class=\"left\">name</th><th class=\"left\">reason</th>\
             <th class=\"left\">how to mend it</th><th>how many</th><th class=\"left\">lines</th></tr></thead><tbody>",
        );
        for (number, lines) in reasons {
            let said = words(number);
            let (reason, mend, count) = (marked(said.when), marked(said.mend), grouped(lines.len() as u64));
            let _ = write!(out, "<tr><td>{number}</td><th>{}</th><td class=\"left\">{reason}</td><td class=\"left\">{mend}</td>", said.name);
            let _ = write!(out, "<td>{count}</td><td class=\"left\">{}</td></tr>", runs(&lines));
        }
        out + "</tbody></table>"
    }

    fn made_from(&self) -> String {
        let (file, counted) = (self.file, &self.file.counted);
        let expected = match expected_word(file.expected) {
            "table" => "table: the proved table and IEEE operations alone, the same bits on every machine",
            _ => "power: the original's powers of ten, by this machine's library",
        };
        let from = file.from.as_ref().map_or("the shipped weights".to_string(), |sum| format!("a weights file, sha256 <code>{sum}</code>"));
        let mut out = String::from("<h2>What it was made from</h2><table class=\"made\"><tbody>");
        for (what, said) in [
            ("collection, sha256", format!("<code>{}</code>", counted.sha256)),
            ("lines, loaded, refused", format!("{}, {}, {}", counted.lines, counted.loaded, counted.refused)),
            ("iterations, rate, K", format!("{}, {}, {}", file.iterations, file.rate, file.k)),
            ("expected score", expected.to_string()),
            ("began with", from),
            ("version", VERSION.to_string()),
        ] {
            let _ = write!(out, "<tr><th>{what}</th><td>{said}</td></tr>");
        }
        out + "</tbody></table>"
    }
}

#[cfg(test)]
mod tests {
    use super::*;

    #[test]
    fn numbers_as_people_read_them() {
        assert_eq!((grouped(0), grouped(999), grouped(1000), grouped(1234567)), ("0".into(), "999".into(), "1,000".into(), "1,234,567".into()));
        assert_eq!(runs(&[3, 7, 8, 9, 11]), "3, 7\u{2013}9, 11");
        assert_eq!((signed(-0.001), signed(-1.5), signed(2.0)), ("0.00".into(), "\u{2212}1.50".into(), "+2.00".into()));
        assert_eq!(marked("a `b` < c"), "a <code>b</code> &lt; c");
    }
}
