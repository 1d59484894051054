// The harness: the original Rust, asked questions, and the questions to ask it. oracle/README.md says how it is run.
#[macro_use]
#[path = "shims/lazy_static.rs"]
mod lazy_static;

include!(env!("LITTLEWING_MODULES"));

#[path = "shims/color.rs"]
pub mod color;
#[path = "shims/eval.rs"]
pub mod eval;
#[path = "shims/fen.rs"]
pub mod fen;
#[path = "shims/piece_move.rs"]
pub mod piece_move;
#[path = "shims/positions.rs"]
pub mod positions;
#[path = "shims/sliders.rs"]
pub mod sliders;
#[path = "shims/tune.rs"]
pub mod tune;
#[path = "shims/unused.rs"]
mod unused;
pub use unused::{clock, history, piece_move_list, protocols, transposition_table, zobrist};

mod answer;
mod ask;
mod climb;
mod families;
mod fit;
mod loader;
mod placement;
mod play;
mod powers;
mod random;
mod seeded;
mod weight;
mod wide;

use std::io::{self, BufRead, BufWriter, Write};

fn answer_all() -> io::Result<()> {
    let mut out = BufWriter::new(io::stdout().lock());
    for question in io::stdin().lock().lines() {
        writeln!(out, "{}", answer::answer(&question?))?;
    }
    out.flush()
}

/// Each question behind the name of its family.
fn print_questions(questions: Vec<(&'static str, String)>) -> io::Result<()> {
    let mut out = BufWriter::new(io::stdout().lock());
    for (family, question) in questions {
        writeln!(out, "{} {}", family, question)?;
    }
    out.flush()
}

fn number(text: &str) -> u64 {
    text.parse().unwrap_or_else(|_| usage())
}

fn usage() -> ! {
    eprintln!("answer                    questions on standard input, answers on standard output");
    eprintln!("generate SEED FIRST COUNT questions about positions FIRST.. of the seed, each behind its family");
    eprintln!("tables                    questions about every entry of every table");
    eprintln!("fits                      questions of fits, one after the other");
    eprintln!("powers ITERATIONS         powi against running products");
    eprintln!("threads FILE              compute_gradient by several threads; FILE: lines HALF-POINTS POSITION");
    eprintln!("tune ITERATIONS FILE      the weights after each iteration of tune, in one number each");
    eprintln!("load_epd_lines FILE DIR   load_epd on each line of FILE by itself; DIR: a scratch folder");
    eprintln!("load_epd THREADS FILE     load_epd on the whole file");
    std::process::exit(2)
}

fn main() -> io::Result<()> {
    // A panic is an answer here; what it says is read where it is caught.
    std::panic::set_hook(Box::new(|_| {}));
    let words: Vec<String> = std::env::args().skip(1).collect();
    let words: Vec<&str> = words.iter().map(String::as_str).collect();
    match words.as_slice() {
        ["answer"] => answer_all(),
        ["generate", seed, first, count] => print_questions(ask::questions(number(seed), number(first), number(count))),
        ["tables"] => print_questions(ask::tables()),
        ["fits"] => Ok(fit::questions()),
        ["powers", iterations] => Ok(powers::powers(number(iterations) as usize)),
        ["threads", file] => Ok(powers::threads(&std::fs::read_to_string(file)?)),
        ["tune", iterations, file] => Ok(powers::tuned(&std::fs::read_to_string(file)?, number(iterations) as usize, 1.0)),
        ["load_epd_lines", file, scratch] => loader::each_line(file, scratch),
        ["load_epd", threads, file] => loader::whole(number(threads) as usize, file),
        _ => usage(),
    }
}
