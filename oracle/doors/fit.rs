// The fit that questions go on with, through the doors; and a whole fit, its coefficients worked out as the original does.
use crate::chess_scores::{read_line, Fit, Refusal, Trace, WEIGHTS};
use crate::random::Random;
use std::cell::RefCell;

const NAN: u64 = 0x7FF8_0000_0000_0000;

struct Fitting {
    gradient: [f64; WEIGHTS],
    fit: Fit,
}

impl Fitting {
    fn new() -> Fitting {
        Fitting { gradient: [0.0; WEIGHTS], fit: Fit::shipped() }
    }

    fn list(&mut self, which: u64) -> &mut [f64; WEIGHTS] {
        match which {
            0 => &mut self.gradient,
            1 => &mut self.fit.first_moments,
            2 => &mut self.fit.second_moments,
            _ => &mut self.fit.weights,
        }
    }

    fn put(&mut self, which: u64, place: usize, x: f64) {
        let list = self.list(which);
        match list.get_mut(place) {
            Some(one) => *one = x,
            None => list.fill(x),
        }
    }
}

thread_local! {
    static FITTING: RefCell<Fitting> = RefCell::new(Fitting::new());
}

/// The bits of a double; a NaN is a NaN, whatever its bits.
pub fn said(x: f64) -> String {
    if x.is_nan() { "nan".to_string() } else { x.to_bits().to_string() }
}

/// All doubles of a list in one number (oracle/README.md).
fn stirred(list: &[f64]) -> u64 {
    list.iter().fold(1, |state, x| match state ^ if x.is_nan() { NAN } else { x.to_bits() } {
        0 => 0,
        seed => Random::from_seed(seed).next(),
    })
}

fn done(_: ()) -> String {
    "done".to_string()
}

/// A number of `odd_line`: none past 999.
fn small(n: u64) -> i32 {
    if n < 1000 { n as i32 } else { -1 }
}

pub fn answer(word: &str, n: &[u64], trace: Option<Trace>) -> Result<String, Refusal> {
    FITTING.with_borrow_mut(|fitting| Ok(match (word, trace) {
        ("fit", _) => done(*fitting = Fitting::new()),
        ("put", _) => done(fitting.put(n[0], n[1] as usize, f64::from_bits(n[2]))),
        ("line", Some(trace)) => done(trace.add_gradient(f64::from_bits(n[0]), &mut fitting.gradient)?),
        ("list_line", Some(trace)) => done(trace.list()?.add_gradient(f64::from_bits(n[0]), &mut fitting.gradient)?),
        ("odd_line", Some(mut trace)) => {
            (trace.entries[0], trace.piece_count) = (small(n[1]), small(n[2]));
            done(trace.add_gradient(f64::from_bits(n[0]), &mut fitting.gradient)?)
        }
        ("step", _) => done(fitting.fit.step(&fitting.gradient, n[1], f64::from_bits(n[0]))?),
        ("of", _) => stirred(fitting.list(n[0])).to_string(),
        ("at", _) => said(fitting.list(n[0])[n[1] as usize]),
        _ => "no door".to_string(),
    }))
}

/// A line's coefficient for K = 1, as compute_gradient has it.
fn coefficient(value: f64, wdl: f64, lines: usize) -> f64 {
    let k = 1.0;
    let s = 1.0 / (1.0 + 10_f64.powf(-k * value / 400.0));
    let dsigmoid_deval = s * (1.0 - s) * k * 10_f64.ln() / 400.0;
    -2.0 * (wdl - s) * dsigmoid_deval / lines as f64
}

/// The weights after each iteration over lines `HALF-POINTS POSITION`, at rate 1, all in one number a row.
pub fn tune(text: &str, iterations: u64) -> Result<(), Refusal> {
    let mut lines: Vec<(f64, Trace)> = Vec::new();
    for line in text.lines() {
        let (half_points, position) = line.split_once(' ').expect("HALF-POINTS POSITION");
        lines.push((half_points.parse::<f64>().expect("half points") / 2.0, read_line(position.as_bytes())?.0.trace()?));
    }
    let mut fit = Fit::shipped();
    for iteration in 1..=iterations {
        let (weights, mut gradient) = (fit.weights(), [0.0; WEIGHTS]);
        for (wdl, trace) in &lines {
            trace.add_gradient(coefficient(trace.eval(&weights)?, *wdl, lines.len()), &mut gradient)?;
        }
        fit.step(&gradient, iteration, 1.0)?;
        println!("{} {}", iteration, stirred(&fit.weights));
    }
    Ok(())
}
