// The original's fitting step, asked: roots, compute_gradient with one thread, tune. The fit goes on from question to question.
use crate::families;
use crate::game::Game;
use crate::placement;
use crate::random::Random;
use crate::tune::{self, EvaluatedPosition, Tuner, WEIGHTS};
use std::cell::RefCell;

const NAN: u64 = 0x7FF8_0000_0000_0000;
const SUMS: usize = 0;
const MOMENTS: usize = 2;

/// A fit: its lines with the coefficient that each is said to have, and the weights so far.
struct Fit {
    lines: Vec<(u64, EvaluatedPosition)>,
    tuner: Tuner,
}

impl Fit {
    fn new(k: f64) -> Fit {
        Fit { lines: Vec::new(), tuner: Tuner { k, ..Tuner::new() } }
    }

    /// The original's gradient of the lines, if each has the coefficient that the question says.
    fn gradient(&mut self) -> Option<[f64; WEIGHTS]> {
        self.tuner.positions = self.lines.iter().map(|(_, line)| line.clone()).collect();
        let same = self.lines.iter().all(|(bits, line)| bits_of(tune::coefficient(&self.tuner, line)) == *bits);
        same.then(|| self.tuner.compute_gradient())
    }

    /// The original's weights after so many iterations from the shipped ones.
    fn tune(&mut self, iterations: usize, rate: f64) {
        self.tuner.params = Tuner::new().params;
        self.tuner.positions = self.lines.iter().map(|(_, line)| line.clone()).collect();
        self.tuner.tune(iterations, rate);
    }
}

thread_local! {
    static FIT: RefCell<Fit> = RefCell::new(Fit::new(1.0));
}

/// A NaN is a NaN, whatever its bits.
pub fn bits_of(x: f64) -> u64 {
    if x.is_nan() { NAN } else { x.to_bits() }
}

fn said(x: f64) -> String {
    if x.is_nan() { "nan".to_string() } else { x.to_bits().to_string() }
}

/// All doubles of a list in one number: from 1 on, each one's bits xored in and a draw made.
pub fn stirred(list: &[f64]) -> u64 {
    list.iter().fold(1, |state, &x| match state ^ bits_of(x) {
        0 => 0,
        seed => Random::from_seed(seed).next(),
    })
}

/// A running product from 1, in place of `powi`: what the build `running` has instead.
pub fn running(beta: f64, iteration: usize) -> f64 {
    (0..iteration).fold(1.0, |product, _| product * beta)
}

pub fn answer(word: &str, numbers: &[u64], game: Option<&Game>) -> String {
    FIT.with_borrow_mut(|fit| match word {
        "root" => said(f64::from_bits(numbers[0]).sqrt()),
        "fit" => done(*fit = Fit::new(f64::from_bits(numbers[0]))),
        "put" if numbers == [SUMS as u64, WEIGHTS as u64, 0] => done(fit.lines.clear()),
        "line" => done(fit.lines.push((numbers[0], line_of(game.expect("a position"), f64::from_bits(numbers[1]))))),
        "step" => done(fit.tune(numbers[1] as usize, f64::from_bits(numbers[0]))),
        "of" => list(fit, numbers[0] as usize).map_or("unknown".to_string(), |list| stirred(&list).to_string()),
        "at" => list(fit, numbers[0] as usize).map_or("unknown".to_string(), |list| said(list[numbers[1] as usize])),
        _ => "unknown".to_string(),
    })
}

fn done(_: ()) -> String {
    "done".to_string()
}

/// The sums and the weights; the original shows its moments to nobody.
fn list(fit: &mut Fit, which: usize) -> Option<[f64; WEIGHTS]> {
    match which {
        SUMS => fit.gradient(),
        _ if which <= MOMENTS => None,
        _ => Some(fit.tuner.params),
    }
}

fn line_of(game: &Game, wdl: f64) -> EvaluatedPosition {
    EvaluatedPosition { trace: tune::traced(game), wdl }
}

/// The questions of one fit: its lines in each iteration, with the coefficients that the original has for them then.
fn ask(positions: &[(String, f64)], k: f64, rate: f64, iterations: usize) {
    println!("fit {}", k.to_bits());
    let mut fit = Fit::new(k);
    let lines: Vec<EvaluatedPosition> = positions.iter().map(|(text, wdl)| {
        let (board, side) = placement::read(text);
        line_of(&placement::game_of(&board, side), *wdl)
    }).collect();
    fit.tuner.positions = lines.clone();
    for iteration in 1..=iterations {
        for ((text, wdl), line) in positions.iter().zip(&lines) {
            println!("line {} {} {}", bits_of(tune::coefficient(&fit.tuner, line)), wdl.to_bits(), text);
        }
        println!("of 0");
        [0, 1, 5, 6, 10, 11 + 12, 778].iter().for_each(|place| println!("at 0 {}", place));
        fit.tuner.params = Tuner::new().params;
        fit.tuner.tune(iteration, rate);
        println!("step {} {}", rate.to_bits(), iteration);
        println!("of 3");
        [0, 1, 9, 10, 11 + 12, 778].iter().for_each(|place| println!("at 3 {}", place));
        println!("put 0 {} 0", WEIGHTS);
    }
}

/// Positions of a seed, every family among them, with results by the seed.
pub fn positions(seed: u64, count: u64) -> Vec<(String, f64)> {
    (0..count).map(|place| {
        let mut random = Random::at(seed, place);
        let (_, (board, side)) = families::position(place, &mut random);
        (placement::write(&board, side), random.below(3) as f64 / 2.0)
    }).collect()
}

/// The recorded fits: ordinary ones; lines whose result, K or rate makes wild coefficients; roots.
pub fn questions() {
    ask(&positions(211, 12), 1.0, 1.0, 3);
    ask(&positions(2110, 30), 0.7, 0.1, 2);
    let wild = [f64::INFINITY, f64::NEG_INFINITY, f64::NAN, 1e308, -1.7e308, f64::MAX, 1e-300, 0.0, -0.0, 5e-324];
    for (place, (text, _)) in positions(2111, 20).into_iter().enumerate() {
        let k = [1.0, 1e-310, 1e300, -1.0][place / 5];
        ask(&[(text, wild[place % 10])], k, [1.0, f64::MAX, 1e-308][place % 3], 1);
    }
    let mut random = Random::from_seed(2112);
    for draw in 0..400 {
        let bits = random.next();
        let subnormal = bits & ((1 << 52) - 1) >> (bits >> 58);
        println!("root {}", [bits, bits >> 1, subnormal, bits_of(((bits >> 38) as f64).powi(2)) + bits % 3][draw % 4]);
    }
    for bits in [0, 1 << 63, 1, 0x7FEF_FFFF_FFFF_FFFF, 0x7FF0_0000_0000_0000, 0xFFF0_0000_0000_0000, 0x10_0000_0000_0000, NAN] {
        println!("root {}", bits);
    }
}
