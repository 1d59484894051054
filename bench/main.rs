// The benchmark: the original Rust and this library on the same positions in the same process. bench/README.md says how it is run.
#[macro_use]
#[path = "../oracle/harness/shims/lazy_static.rs"]
mod lazy_static;

include!(env!("LITTLEWING_MODULES"));

#[path = "../oracle/harness/shims/color.rs"]
pub mod color;
#[path = "../oracle/harness/shims/eval.rs"]
pub mod eval;
#[path = "../oracle/harness/shims/fen.rs"]
pub mod fen;
#[path = "../oracle/harness/shims/piece_move.rs"]
pub mod piece_move;
#[path = "../oracle/harness/shims/positions.rs"]
pub mod positions;
#[path = "../oracle/harness/shims/sliders.rs"]
pub mod sliders;
#[path = "../oracle/harness/shims/tune.rs"]
pub mod tune;
#[path = "../oracle/harness/shims/unused.rs"]
mod unused;
pub use unused::{clock, history, piece_move_list, protocols, transposition_table, zobrist};

#[path = "../oracle/harness/placement.rs"]
mod placement;
#[path = "../oracle/harness/play.rs"]
mod play;
#[path = "../oracle/harness/random.rs"]
mod random;

#[path = "../include/chess_scores.rs"]
mod chess_scores;
#[path = "positions.rs"]
mod drawn;
mod errors;
mod fits;
mod functions;
mod ledger;
mod many_lines;
mod ours;
mod processor;
mod rays;
mod records;
mod summaries;
mod whole_fits;

use processor::seconds;
use std::hint::black_box;
use std::io::{self, BufReader, BufWriter, Write};

/// Both ledgers over collections of growing size, in turn, the least processor time of some rounds.
fn ledgers(most: usize, rounds: usize) {
    println!("{:<14} {:>10} {:>10} {:>7}   lines a second: ours, theirs", "ledger lines", "ours ns", "theirs ns", "ratio");
    let text = drawn::lines(most);
    let mut count = 10_000;
    while count <= most {
        let end = text.iter().enumerate().filter(|(_, &byte)| byte == b'\n').nth(count - 1).unwrap().0 + 1;
        let input = &text[..end];
        let (mut best_ours, mut best_theirs) = (f64::MAX, f64::MAX);
        let (mut one, mut other) = (Vec::with_capacity(32 * count + 128), Vec::with_capacity(32 * count + 128));
        for _ in 0..rounds {
            one.clear();
            other.clear();
            best_ours = best_ours.min(seconds(|| ledger::ours(black_box(input), &mut one).unwrap()));
            best_theirs = best_theirs.min(seconds(|| ledger::theirs(black_box(input), &mut other).unwrap()));
            assert!(one == other, "the ledgers differ");
        }
        let each = 1e9 / count as f64;
        println!("{:<14} {:>10.1} {:>10.1} {:>7.2}   {:.0}, {:.0}", count, best_ours * each, best_theirs * each, best_ours / best_theirs,
            count as f64 / best_ours, count as f64 / best_theirs);
        count *= 10;
    }
}

/// The most memory that the process had so far.
fn peak() -> String {
    let status = std::fs::read_to_string("/proc/self/status").unwrap_or_default();
    status.lines().find(|line| line.starts_with("VmHWM")).unwrap_or("VmHWM: not known").to_string()
}

fn usage() -> ! {
    eprintln!("functions COUNT ROUNDS    each function over so many positions");
    eprintln!("rays ROUNDS               a queen's attacks on boards from empty to crowded");
    eprintln!("fits ROUNDS               gradients and steps over 40 and 500 positions");
    eprintln!("fit PROGRAM POSITIONS      a whole fit by PROGRAM, what bin/fit has built, against the original's tune with one thread");
    eprintln!("ledgers MOST ROUNDS       both ledgers over 10,000 lines, ten times as many, .. up to MOST");
    eprintln!("records LINES ROUNDS      so many lines read as text, beside their store read by number");
    eprintln!("summaries ROUNDS          a record added to stores of 1,000, 100,000 and 10,000,000");
    eprintln!("errors LINES ROUNDS       the sum of errors over so many lines, beside their ledger");
    eprintln!("many LINES ROUNDS         so many lines scored and traced by the doors over a collection, and line by line");
    eprintln!("lines COUNT               a collection of so many lines on standard output");
    eprintln!("ours, theirs              a ledger of standard input; the peak of memory on standard error");
    std::process::exit(2)
}

fn number(word: &str) -> usize {
    word.parse().unwrap_or_else(|_| usage())
}

fn main() -> io::Result<()> {
    let words: Vec<String> = std::env::args().skip(1).collect();
    let words: Vec<&str> = words.iter().map(String::as_str).collect();
    let output = BufWriter::new(io::stdout().lock());
    match words.as_slice() {
        ["functions", count, rounds] => functions::measure(number(count), number(rounds)),
        ["fits", rounds] => fits::table(number(rounds)),
        ["fit", program, count] => whole_fits::table(program, number(count))?,
        ["rays", rounds] => rays::measure(number(rounds)),
        ["ledgers", most, rounds] => ledgers(number(most), number(rounds)),
        ["records", count, rounds] => records::table(&drawn::lines(number(count)), number(rounds)),
        ["summaries", rounds] => summaries::table(number(rounds)),
        ["errors", count, rounds] => errors::table(&drawn::lines(number(count)), number(count), number(rounds)),
        ["many", count, rounds] => many_lines::table(&drawn::lines(number(count)), number(count), number(rounds)),
        ["lines", count] => io::stdout().write_all(&drawn::lines(number(count)))?,
        ["ours"] => ledger::ours(io::stdin().lock(), output)?,
        ["theirs"] => ledger::theirs(BufReader::new(io::stdin().lock()), output)?,
        _ => usage(),
    }
    if matches!(words[0], "ours" | "theirs") {
        eprintln!("{} {}", words[0], peak());
    }
    Ok(())
}
