// The original's load_epd over a load_fen that takes everything: what it makes of lines.
use crate::answer::message;
use crate::fen;
use crate::game::Game;
use crate::tune::Tuner;
use std::fs;
use std::io;
use std::panic;
use std::path::Path;

/// What one run of load_epd did: the results it kept, or how it failed.
fn outcome(threads: usize, path: &Path) -> String {
    fen::handed();
    let run = panic::catch_unwind(|| {
        let mut game = Game::new();
        game.threads_count = threads;
        let mut tuner = Tuner::new();
        tuner.load_epd(path, &game).map(|_| tuner.positions)
    });
    match run {
        Err(panic) => format!("panic \"{}\"", message(panic)),
        Ok(Err(error)) => format!("error {:?}", error.kind()),
        Ok(Ok(kept)) => {
            let results: Vec<String> = kept.iter().map(|one| half_points(one.wdl)).collect();
            format!("kept {} results {}", kept.len(), results.join(","))
        }
    }
}

fn half_points(wdl: f64) -> String {
    (2.0 * wdl).to_string()
}

fn hex(text: &str) -> String {
    text.bytes().map(|byte| format!("{:02x}", byte)).collect()
}

/// One row a line, behind `= ` since load_epd prints too: number, outcome, the text handed to load_fen in hex.
pub fn each_line(file: &str, scratch: &str) -> io::Result<()> {
    let bytes = fs::read(file)?;
    let path = Path::new(scratch).join("one.epd");
    for (number, line) in bytes.split_inclusive(|&byte| byte == b'\n').enumerate() {
        fs::write(&path, line)?;
        let outcome = outcome(1, &path);
        let handed: Vec<String> = fen::handed().iter().map(|text| format!("[{}]", hex(text))).collect();
        println!("= {} {} handed {}", number + 1, outcome, handed.join(","));
    }
    fs::remove_file(&path)
}

/// One row for the whole file: the outcome and how many texts were handed to load_fen.
pub fn whole(threads: usize, file: &str) -> io::Result<()> {
    let outcome = outcome(threads, Path::new(file));
    println!("= {} handed {}", outcome, fen::handed().len());
    Ok(())
}
