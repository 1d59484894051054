// What a person sees of a fit while it runs: the original's rows on standard output, and on a terminal how far it is.
use std::io::{self, IsTerminal, Write};
use std::time::{Duration, Instant};

/// As the original's tune: a row at the start and each so many iterations; and one at the end.
const EACH: u64 = 50;

pub struct Progress {
    iterations: u64,
    terminal: bool,
    begun: Instant,
    shown: Option<Instant>,
}

impl Progress {
    pub fn new(iterations: u64) -> Progress {
        Progress { iterations, terminal: io::stderr().is_terminal(), begun: Instant::now(), shown: None }
    }

    /// So many iterations are done, and that is the error then.
    pub fn tell(&mut self, done: u64, error: f64) -> Result<(), String> {
        let row = done % EACH == 0 || done == self.iterations;
        if row {
            self.clear();
            let head = if done == 0 { "Iteration,Error\n" } else { "" };
            let mut output = io::stdout().lock();
            let wrote = writeln!(output, "{head}{done},{error:.6}").and_then(|()| output.flush());
            wrote.map_err(|error| format!("standard output: {}", crate::reason(&error)))?;
        }
        self.show(done, error);
        Ok(())
    }

    fn show(&mut self, done: u64, error: f64) {
        let soon = self.shown.is_some_and(|shown| shown.elapsed() < Duration::from_millis(100));
        if !self.terminal || soon || done == self.iterations {
            return;
        }
        let spent = self.begun.elapsed().as_secs_f64();
        let left = if done == 0 { String::new() } else { format!(", {:.0} s to go", spent / done as f64 * (self.iterations - done) as f64) };
        let _ = write!(io::stderr(), "\r\x1b[Kiteration {done} of {}, error {error:.6}{left}", self.iterations);
        self.shown = Some(Instant::now());
    }

    fn clear(&mut self) {
        if self.shown.take().is_some() {
            let _ = write!(io::stderr(), "\r\x1b[K");
        }
    }
}

impl Drop for Progress {
    fn drop(&mut self) {
        self.clear();
    }
}
