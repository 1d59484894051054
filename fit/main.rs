// bin/fit: weights fitted to a collection, over the library's proved doors; `bin/fit --help` says how it is called.
//
// What is decided here: how the samples are held, when to stop, the coefficient's formula, and what files say. Which line counts, its trace, its double,
// its part of the gradient and the step are the doors' (docs/TRUST.md).
mod arguments;
mod boards;
#[allow(dead_code)]
#[path = "../include/chess_scores.rs"]
mod chess_scores;
mod collection;
mod curve;
mod held;
mod iterations;
mod progress;
mod put;
mod refusals;
mod report;
mod sha256;
mod weights;

use arguments::{Asked, Fit};
use collection::{Collection, Counted};
use iterations::{Fitted, Plan, Weights};
use progress::Progress;
use put::Place;
use std::collections::BTreeSet;
use std::ffi::{OsStr, OsString};
use std::io::{self, Write};
use std::process::ExitCode;
use weights::File;

fn main() -> ExitCode {
    let asked = match arguments::asked(std::env::args_os().skip(1).collect()) {
        Ok(asked) => asked,
        Err(wrong) => {
            say(&format!("{wrong} (bin/fit --help says more)"));
            return ExitCode::from(2);
        }
    };
    let done = match asked {
        Asked::Fit(fit) => fitted(&fit),
        Asked::Check { weights, collection } => checked(&weights, &collection),
    };
    match done {
        Ok(()) => ExitCode::SUCCESS,
        Err(reason) => {
            say(&reason);
            ExitCode::FAILURE
        }
    }
}

/// Standard error may be gone: that changes nothing.
fn say(text: &str) {
    let _ = writeln!(io::stderr(), "bin/fit: {text}");
}

/// An error without the number that follows its words.
pub fn reason(error: &io::Error) -> String {
    let text = error.to_string();
    text.split(" (os error").next().unwrap_or(&text).to_string()
}

fn naming<T>(name: &OsStr, result: io::Result<T>) -> Result<T, String> {
    result.map_err(|error| format!("{}: {}", name.to_string_lossy(), reason(&error)))
}

// ---- a fit

fn fitted(fit: &Fit) -> Result<(), String> {
    let (shipped, from) = (chess_scores::Fit::shipped().weights, began(fit)?);
    let (out, report) = (place(fit, &fit.out)?, place(fit, &fit.report)?);
    if let (Some(out), Some(report)) = (&out, &fit.report) {
        refuse_over(out, report, "the report would take the weights' place")?;
    }
    let collection = collection::read(&fit.collection, true)?;
    stop_if_refused(fit, &collection)?;
    let start = from.as_ref().map_or(shipped, |(weights, _)| *weights);
    let plan = Plan { held: &collection.held, iterations: fit.iterations, rate: fit.rate, k: fit.k, expected: fit.expected };
    let mut progress = Progress::new(fit.iterations);
    let Fitted { weights, errors } = iterations::fit(&plan, &start, &mut |done, error| progress.tell(done, error))?;
    drop(progress);
    let file = File {
        counted: collection.counted.clone(),
        iterations: fit.iterations,
        rate: fit.rate,
        k: fit.k,
        expected: fit.expected,
        from: from.map(|(_, sum)| sum),
        weights,
    };
    let page = report::Report { file: &file, start: &start, shipped: &shipped, errors: &errors, refused: &collection.refused };
    keep(fit, &file, out.as_ref(), report.as_ref().map(|place| (place, page.html())))
}

/// The weights of `--from` and the sum of that file.
fn began(fit: &Fit) -> Result<Option<(Weights, String)>, String> {
    let Some(name) = &fit.from else { return Ok(None) };
    let bytes = naming(name, std::fs::read(name))?;
    let file = File::read(&bytes).map_err(|wrong| format!("{}: {wrong}", name.to_string_lossy()))?;
    Ok(Some((file.weights, sha256::sum_of(&bytes))))
}

/// Where a file is to go, if it can; and not where something stands that the fit was made from.
fn place(fit: &Fit, name: &Option<OsString>) -> Result<Option<Place>, String> {
    let Some(name) = name else { return Ok(None) };
    let place = naming(name, Place::new(name)).map_err(|wrong| format!("{wrong}; nothing was fitted"))?;
    refuse_over(&place, &fit.collection, &format!("{} is the collection", name.to_string_lossy()))?;
    if let Some(from) = &fit.from {
        refuse_over(&place, from, &format!("{} is what the fit begins with", name.to_string_lossy()))?;
    }
    Ok(Some(place))
}

fn refuse_over(place: &Place, name: &OsStr, why: &str) -> Result<(), String> {
    if place.is(name) { Err(format!("{why}; nothing was fitted")) } else { Ok(()) }
}

/// The ledger's rows of the refused lines, each with its name; then the counts, and of each name the reason and how to mend it.
fn tell_refused(collection: &Collection) {
    let Counted { lines, loaded, refused, .. } = collection.counted;
    let mut error = io::BufWriter::new(io::stderr().lock());
    for row in &collection.refused {
        let _ = writeln!(error, "{} refused {} {}", row.line, row.number, refusals::words(row.number).name);
    }
    let _ = writeln!(error, "lines {lines} loaded {loaded} refused {refused}");
    let numbers: BTreeSet<u8> = collection.refused.iter().map(|row| row.number).collect();
    for number in numbers {
        let words = refusals::words(number);
        let _ = writeln!(error, "\n{number} {}: {}\n    to mend it: {}", words.name, words.when, words.mend);
    }
    let _ = writeln!(error);
}

/// No fit to what is left of a collection, unless that was asked for; and none to nothing.
fn stop_if_refused(fit: &Fit, collection: &Collection) -> Result<(), String> {
    let Counted { lines, loaded, refused, .. } = collection.counted;
    if refused > 0 {
        tell_refused(collection);
    }
    if lines == 0 {
        return Err("the collection is empty; nothing was fitted".into());
    }
    if loaded == 0 {
        return Err(format!("no line of {lines} is loaded; nothing was fitted"));
    }
    if refused > 0 && !fit.allowed {
        return Err(format!("{refused} of {lines} lines are refused; nothing was fitted. Mend them, or say --refused allow to fit to the other {loaded}"));
    }
    if refused > 0 {
        say(&format!("goes on with the {loaded} lines that are loaded, as --refused allow says"));
    }
    Ok(())
}

/// All files beside their places first, so that where one can't be written none is put; without `--out` the weights go to standard output.
fn keep(fit: &Fit, file: &File, out: Option<&Place>, report: Option<(&Place, String)>) -> Result<(), String> {
    let named = |name: &Option<OsString>, error: io::Error| {
        format!("{}: {}; it was not put there", name.as_deref().unwrap_or_default().to_string_lossy(), reason(&error))
    };
    let text = file.text();
    let page = report.map(|(place, html)| place.write(html.as_bytes()).map_err(|error| named(&fit.report, error))).transpose()?;
    match out {
        Some(place) => place.write(text.as_bytes()).and_then(|written| written.put()).map_err(|error| named(&fit.out, error))?,
        None => {
            let mut output = io::stdout().lock();
            let wrote = write!(output, "\n{text}").and_then(|()| output.flush());
            wrote.map_err(|error| format!("standard output: {}", reason(&error)))?;
        }
    }
    page.map_or(Ok(()), |written| written.put().map_err(|error| named(&fit.report, error)))
}

// ---- a check

/// Whether the collection is the one that the weights say they were fitted to.
fn checked(weights: &OsStr, collection: &OsStr) -> Result<(), String> {
    let bytes = naming(weights, std::fs::read(weights))?;
    let said = File::read(&bytes).map_err(|wrong| format!("{}: {wrong}", weights.to_string_lossy()))?.counted;
    let found = collection::read(collection, false)?.counted;
    let rows = [
        ("lines", said.lines.to_string(), found.lines.to_string()),
        ("loaded", said.loaded.to_string(), found.loaded.to_string()),
        ("refused", said.refused.to_string(), found.refused.to_string()),
        ("sha256", said.sha256.clone(), found.sha256.clone()),
    ];
    let mut output = io::stdout().lock();
    let mut wrote = Ok(());
    for (name, one, other) in &rows {
        let row = if one == other { format!("{name:<8} {one}") } else { format!("{name:<8} the weights say {one}, the collection has {other}") };
        wrote = wrote.and_then(|()| writeln!(output, "{row}"));
    }
    wrote.and_then(|()| output.flush()).map_err(|error| format!("standard output: {}", reason(&error)))?;
    if said.sha256 != found.sha256 {
        return Err("the weights were NOT fitted to this collection".into());
    }
    if said != found {
        return Err("the bytes are the same and the counts are not: the weights are of another version of the library".into());
    }
    say("the weights were fitted to this collection");
    Ok(())
}
