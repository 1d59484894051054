// The weights file: what the weights were made from, the 779 weights, and a sum of all that. Exact, and the same bytes wherever it is made.
use crate::arguments::Expected;
use crate::chess_scores::WEIGHTS;
use crate::collection::Counted;
use crate::iterations::Weights;
use crate::sha256::sum_of;
use std::fmt::Write;

#[derive(Clone, Debug, PartialEq)]
pub struct File {
    pub counted: Counted,
    pub iterations: u64,
    pub rate: f64,
    pub k: f64,
    pub expected: Expected,
    /// The sum of the weights file that the fit began with, or none for the shipped weights.
    pub from: Option<String>,
    pub weights: Weights,
}

/// Which fit this is: another number wherever the same call may give other bytes.
pub const VERSION: u32 = 1;

const TITLE: &str = "chess weights, fitted by bin/fit";
pub const NAMED: [&str; 11] = [
    "pawn", "knight", "bishop", "rook", "queen", "bishop-pair", "knight-mobility", "bishop-mobility", "rook-mobility", "queen-mobility", "tempo",
];
pub const KINDS: [&str; 6] = ["pawn", "knight", "bishop", "rook", "queen", "king"];
pub const PHASES: [&str; 2] = ["opening", "endgame"];

/// The name of a weight: a named one's, or kind, phase and square.
pub fn name(place: usize) -> String {
    let Some(square) = place.checked_sub(NAMED.len()) else { return NAMED[place].to_string() };
    format!("{} {} {}{}", KINDS[square / 128], PHASES[square / 64 % 2], (b'a' + (square % 8) as u8) as char, square / 8 % 8 + 1)
}

pub fn expected_word(expected: Expected) -> &'static str {
    match expected {
        Expected::Power => "power",
        Expected::Table => "table",
    }
}

/// 17 digits, which read back as the same bits in any language.
fn exact(number: f64) -> String {
    format!("{number:.16e}")
}

impl File {
    pub fn text(&self) -> String {
        let counted = &self.counted;
        let from = self.from.as_ref().map_or("shipped".to_string(), |sum| format!("sha256 {sum}"));
        let mut text = format!("{TITLE}\nversion {VERSION}\nlines {} loaded {} refused {}", counted.lines, counted.loaded, counted.refused);
        text += if counted.refused == 0 { "\n" } else { " allowed\n" };
        let _ = writeln!(text, "collection sha256 {}", counted.sha256);
        let _ = writeln!(text, "iterations {}\nrate {}\nk {}", self.iterations, exact(self.rate), exact(self.k));
        let _ = writeln!(text, "expected {}\nfrom {from}", expected_word(self.expected));
        for (place, weight) in self.weights.iter().enumerate() {
            let _ = writeln!(text, "{} {}", name(place), exact(*weight));
        }
        let sum = sum_of(text.as_bytes());
        let _ = writeln!(text, "sum sha256 {sum}");
        text
    }

    /// What a file's bytes say, if they are just what `text` would write.
    pub fn read(bytes: &[u8]) -> Result<File, String> {
        let text = std::str::from_utf8(bytes).ok().filter(|text| text.starts_with(TITLE)).ok_or("is no weights file of bin/fit")?;
        let (body, sum) = text.strip_suffix('\n').and_then(|text| text.rsplit_once('\n')).ok_or("is cut short")?;
        let sum = sum.strip_prefix("sum sha256 ").ok_or("is cut short: its last line is no sum")?;
        if sum_of(format!("{body}\n").as_bytes()) != sum {
            return Err("was changed after it was written: its sum is another".into());
        }
        let version = body.lines().nth(1).unwrap_or("");
        if version != format!("version {VERSION}") {
            return Err(format!("is of {version}, and this is version {VERSION}"));
        }
        let file = parsed(body).filter(|file| file.text() == text && file.weights.iter().all(|weight| weight.is_finite()));
        file.ok_or("has a line that bin/fit does not write".into())
    }
}

fn parsed(body: &str) -> Option<File> {
    let mut lines = body.lines().skip(2);
    let counts: Vec<&str> = lines.next()?.split(' ').collect();
    let ["lines", all, "loaded", loaded, "refused", refused, ..] = counts[..] else { return None };
    let (all, loaded, refused) = (all.parse().ok()?, loaded.parse().ok()?, refused.parse().ok()?);
    let mut field = |name: &str| lines.next()?.strip_prefix(name)?.strip_prefix(' ');
    let counted = Counted { lines: all, loaded, refused, sha256: field("collection sha256")?.to_string() };
    let (iterations, rate, k) = (field("iterations")?.parse().ok()?, field("rate")?.parse().ok()?, field("k")?.parse().ok()?);
    let expected = match field("expected")? {
        "power" => Expected::Power,
        "table" => Expected::Table,
        _ => return None,
    };
    let from = field("from")?.strip_prefix("sha256 ").map(str::to_string);
    let mut weights = [0.0; WEIGHTS];
    for (place, weight) in weights.iter_mut().enumerate() {
        *weight = field(&name(place))?.parse().ok()?;
    }
    Some(File { counted, iterations, rate, k, expected, from, weights })
}

#[cfg(test)]
mod tests {
    use super::*;

    fn file() -> File {
        let mut weights = [0.0; WEIGHTS];
        for (place, weight) in weights.iter_mut().enumerate() {
            *weight = f64::from_bits((place as u64).wrapping_mul(0x9E37_79B9_7F4A_7C15) & !(1 << 62));
        }
        weights[1..9].copy_from_slice(&[0.1, 1.0 / 3.0, -0.0, 5e-324, f64::MAX, -f64::MIN_POSITIVE, 1e22, 123456789.0]);
        let counted = Counted { lines: 12, loaded: 10, refused: 2, sha256: sum_of(b"a collection") };
        File { counted, iterations: 7, rate: 0.1, k: 1.13, expected: Expected::Table, from: Some(sum_of(b"")), weights }
    }

    #[test]
    fn it_reads_back_bit_for_bit() {
        let (one, plain) = (file(), File { counted: Counted { refused: 0, ..file().counted }, from: None, expected: Expected::Power, ..file() });
        for file in [one, plain] {
            let back = File::read(file.text().as_bytes()).unwrap();
            assert_eq!(back, file);
            assert!(back.weights.iter().zip(&file.weights).all(|(a, b)| a.to_bits() == b.to_bits()));
        }
    }

    #[test]
    fn no_byte_may_change_and_no_line_may_go() {
        let text = file().text();
        for place in (0..text.len()).step_by(97).chain(text.len() - 80..text.len()) {
            let mut bytes = text.clone().into_bytes();
            bytes[place] ^= 1;
            assert!(File::read(&bytes).is_err(), "byte {place}");
            assert!(File::read(&text.as_bytes()[..place]).is_err(), "the first {place} bytes");
        }
        assert!(File::read(format!("{text}\n").as_bytes()).is_err());
        assert!(File::read(b"").is_err());
    }

    #[test]
    fn a_sum_alone_is_not_enough() {
        let resummed = |text: &str| {
            let body = &text[..text.rfind("sum ").unwrap()];
            format!("{body}sum sha256 {}\n", sum_of(body.as_bytes()))
        };
        let text = file().text();
        assert_eq!(resummed(&text), text);
        let infinite = ("1.7976931348623157e308", "inf");
        for (old, new) in [("version 1", "version 2"), ("e22\n", "e+22\n"), ("knight 1.0", "knight 01.0"), ("tempo", "temp"), ("rate ", "rate  "), infinite] {
            assert!(text.contains(old), "{old}");
            assert!(File::read(resummed(&text.replacen(old, new, 1)).as_bytes()).is_err(), "{old}");
        }
    }
}
