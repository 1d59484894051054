// A whole fit: the program that bin/fit builds, reading its collection from a file, against the original's tune with one thread on the same positions in
// memory. Processor time of each, the weights compared, and the most memory that the program had.
use crate::drawn;
use crate::placement;
use crate::processor::{seconds, seconds_of_children};
use crate::tune::{self, EvaluatedPosition, Tuner, WEIGHTS};
use std::fs;
use std::io;
use std::path::Path;
use std::process::{Child, Command, Stdio};
use std::time::Duration;

/// The points for White of drawn::RESULTS.
const POINTS: [f64; 3] = [1.0, 0.0, 0.5];
const EQUAL: usize = 5;
const NEAR: usize = 100;

/// The kilobytes that a process had at most so far.
fn peak(child: &Child) -> Option<u64> {
    let status = fs::read_to_string(format!("/proc/{}/status", child.id())).ok()?;
    status.lines().find(|line| line.starts_with("VmHWM"))?.split_whitespace().nth(1)?.parse().ok()
}

/// The program's fit: its weights, the error of its last row, its processor time and the most kilobytes that were seen.
fn ours(program: &str, collection: &Path, iterations: usize) -> io::Result<([f64; WEIGHTS], String, f64, u64)> {
    let (out, mut most, mut rows) = (collection.with_extension("weights"), 0, None);
    let time = seconds_of_children(|| {
        let mut child = Command::new(program).arg(collection).arg(iterations.to_string()).arg("--out").arg(&out).stdout(Stdio::piped()).spawn().unwrap();
        while child.try_wait().unwrap().is_none() {
            most = most.max(peak(&child).unwrap_or(0));
            std::thread::sleep(Duration::from_millis(5));
        }
        rows = Some(child.wait_with_output().unwrap());
    });
    let rows = rows.unwrap();
    assert!(rows.status.success(), "the fit failed");
    let error = String::from_utf8_lossy(&rows.stdout).lines().last().unwrap_or("").split(',').nth(1).unwrap_or("").to_string();
    let text = fs::read_to_string(&out)?;
    fs::remove_file(&out)?;
    let mut weights = [0.0; WEIGHTS];
    let numbers = text.lines().skip_while(|line| !line.starts_with("pawn ")).map(|line| line.rsplit(' ').next().unwrap().parse().unwrap());
    weights.iter_mut().zip(numbers).for_each(|(weight, number): (&mut f64, f64)| *weight = number);
    Ok((weights, error, time, most))
}

fn theirs(positions: &[EvaluatedPosition], iterations: usize) -> (Tuner, f64) {
    let mut tuner = Tuner { positions: positions.to_vec(), ..Tuner::new() };
    let time = seconds(|| tuner.tune(iterations, 1.0));
    (tuner, time)
}

/// How many weights have other bits, and how far they lie apart at most.
fn apart(one: &[f64; WEIGHTS], other: &[f64; WEIGHTS]) -> (usize, f64) {
    let pairs = || one.iter().zip(other);
    (pairs().filter(|(a, b)| a.to_bits() != b.to_bits()).count(), pairs().map(|(a, b)| (a - b).abs()).fold(0.0, f64::max))
}

pub fn table(program: &str, count: usize) -> io::Result<()> {
    let drawn = drawn::drawn(count);
    let collection = std::env::temp_dir().join(format!("bench-fit-{}", std::process::id()));
    fs::write(&collection, drawn::loaded_lines(&drawn))?;
    println!("{:<40} {:>9} {:>9} {:>7}   weights with other bits, most apart, error", "a fit", "ours s", "theirs s", "ratio");
    let positions: Vec<EvaluatedPosition> = drawn.iter().enumerate().map(|(place, one)| {
        EvaluatedPosition { trace: tune::traced(&placement::game_of(&one.board, one.side)), wdl: POINTS[place % 3] }
    }).collect();
    let mut most = 0;
    for iterations in [EQUAL, NEAR] {
        let (weights, error, our_time, memory) = ours(program, &collection, iterations)?;
        let (tuner, their_time) = theirs(&positions, iterations);
        let (other, far) = apart(&weights, &tuner.params);
        let same = if error == format!("{:.6}", tuner.compute_error()) { "the same" } else { "ANOTHER" };
        let name = format!("{iterations} iterations, {count} positions");
        println!("{name:<40} {our_time:>9.2} {their_time:>9.2} {:>7.3}   {other}, {far:.1e}, {same}", our_time / their_time);
        assert!(if iterations == EQUAL { other == 0 } else { far <= 1e-9 }, "the weights differ");
        most = memory.max(most);
    }
    println!("the program's peak of memory: {most} kB, {:.0} bytes a position, all told", most as f64 * 1024.0 / count as f64);
    fs::remove_file(&collection)
}
