// What the command line asks for: a fit, or a check of a weights file. Whatever is not understood is said, and nothing is done.
use std::ffi::OsString;

pub enum Asked {
    Fit(Fit),
    Check { weights: OsString, collection: OsString },
}

pub struct Fit {
    pub collection: OsString,
    pub iterations: u64,
    pub rate: f64,
    pub k: f64,
    pub expected: Expected,
    pub allowed: bool,
    pub from: Option<OsString>,
    pub out: Option<OsString>,
    pub report: Option<OsString>,
}

/// Which expected score a coefficient has: the original's, by a power of ten, or that of the proved table.
#[derive(Clone, Copy, Debug, PartialEq, Eq)]
pub enum Expected {
    Power,
    Table,
}

/// As many as the fitting step numbers.
const MOST_ITERATIONS: u64 = 1_000_000;

type Options = Vec<(String, OsString)>;

const OPTIONS: [&str; 7] = ["--rate", "--k", "--out", "--from", "--report", "--refused", "--expected"];

pub fn asked(words: Vec<OsString>) -> Result<Asked, String> {
    if words.first().is_some_and(|word| word == "--check") {
        return match <[OsString; 3]>::try_from(words) {
            Ok([_, weights, collection]) => Ok(Asked::Check { weights, collection }),
            Err(_) => Err("--check takes WEIGHTS and COLLECTION, and nothing else".into()),
        };
    }
    let (names, mut options) = parted(words)?;
    let mut given = |name: &str| options.iter().position(|(option, _)| option == name).map(|place| options.swap_remove(place).1);
    let (rate, k) = (positive(given("--rate"), "--rate")?, positive(given("--k"), "--k")?);
    let expected = match given("--expected") {
        None => Expected::Power,
        Some(word) if word == "table" => Expected::Table,
        Some(word) => return Err(format!("--expected takes `table`, not `{}`; without it the original's powers are taken", word.to_string_lossy())),
    };
    let allowed = match given("--refused") {
        None => false,
        Some(word) if word == "allow" => true,
        Some(word) => return Err(format!("--refused takes `allow`, not `{}`; without it a refused line stops the fit", word.to_string_lossy())),
    };
    let (from, out, report) = (given("--from"), given("--out"), given("--report"));
    let Ok([collection, iterations]) = <[OsString; 2]>::try_from(names) else {
        return Err("a fit takes COLLECTION and ITERATIONS".into());
    };
    Ok(Asked::Fit(Fit { collection, iterations: number(&iterations)?, rate, k, expected, allowed, from, out, report }))
}

/// The words that are no options, and each option once with its word.
fn parted(words: Vec<OsString>) -> Result<(Vec<OsString>, Options), String> {
    let (mut names, mut options) = (Vec::new(), Options::new());
    let mut words = words.into_iter();
    while let Some(word) = words.next() {
        let text = word.to_string_lossy().into_owned();
        if text == "-" || !text.starts_with('-') {
            names.push(word);
        } else if text == "--" {
            names.extend(words.by_ref());
        } else if text == "--check" {
            return Err("--check comes first".into());
        } else if !OPTIONS.contains(&text.as_str()) {
            return Err(format!("there is no option {text}"));
        } else if options.iter().any(|(option, _)| *option == text) {
            return Err(format!("{text} is given twice"));
        } else {
            let value = words.next().filter(|value| !value.is_empty()).ok_or(format!("{text} takes a word after it"))?;
            options.push((text, value));
        }
    }
    Ok((names, options))
}

fn positive(word: Option<OsString>, option: &str) -> Result<f64, String> {
    let Some(word) = word else { return Ok(1.0) };
    let number = word.to_str().and_then(|text| text.parse::<f64>().ok());
    number.filter(|number| number.is_finite() && *number > 0.0).ok_or_else(|| format!("{option} takes a number above 0, not `{}`", word.to_string_lossy()))
}

fn number(word: &OsString) -> Result<u64, String> {
    let text = word.to_str().filter(|text| !text.is_empty() && text.bytes().all(|byte| byte.is_ascii_digit()));
    let number = text.and_then(|text| text.parse::<u64>().ok()).filter(|number| (1..=MOST_ITERATIONS).contains(number));
    number.ok_or_else(|| format!("ITERATIONS is a whole number from 1 to 1000000, not `{}`", word.to_string_lossy()))
}

#[cfg(test)]
mod tests {
    use super::*;

    fn said(line: &str) -> Result<Asked, String> {
        asked(line.split(' ').map(OsString::from).collect())
    }

    #[test]
    fn a_fit_with_every_option() {
        let Ok(Asked::Fit(fit)) = said("--rate 0.5 c --k 1.13 100 --out w --from v --report r --refused allow --expected table") else { panic!() };
        assert_eq!((fit.rate, fit.k, fit.iterations, fit.allowed, fit.expected), (0.5, 1.13, 100, true, Expected::Table));
        assert!(fit.collection == "c" && fit.out.unwrap() == "w" && fit.from.unwrap() == "v" && fit.report.unwrap() == "r");
    }

    #[test]
    fn without_options() {
        let Ok(Asked::Fit(fit)) = said("- 1") else { panic!() };
        assert!(fit.collection == "-" && fit.rate == 1.0 && fit.k == 1.0 && !fit.allowed && fit.expected == Expected::Power && fit.out.is_none());
        assert!(matches!(said("-- --odd 1"), Ok(Asked::Fit(fit)) if fit.collection == "--odd"));
        assert!(matches!(said("--check w c"), Ok(Asked::Check { weights, collection }) if weights == "w" && collection == "c"));
    }

    #[test]
    fn what_is_not_understood() {
        for line in [
            "c", "c 1 d", "c 0", "c 1000001", "c -1", "c 1.5", "c x", "c +1", "c 18446744073709551617", "c 1 --rate", "c 1 --rate 0", "c 1 --rate -1",
            "c 1 --rate nan", "c 1 --rate inf", "c 1 --rate 1e999", "c 1 --k NaN", "c 1 --k -0", "c 1 --k infinity", "c 1 --k 1 --k 1", "c 1 --fast",
            "c 1 --refused yes", "c 1 --expected power", "--check w", "--check w c d", "--check w c --k 1", "c 1 --check",
        ] {
            assert!(said(line).is_err(), "{line}");
        }
    }
}
