// What document 02's running products and line order come to against the original's `powi` and its threads: measured, for docs/DIFFERENCES.md.
use crate::fit;
use crate::placement;
use crate::tune::{self, EvaluatedPosition, Tuner, WEIGHTS};
use std::hint::black_box;

/// What was seen of one decay constant: how many iterations, the first and the last, the most steps between neighbouring doubles.
#[derive(Default)]
struct Seen {
    many: u64,
    first: usize,
    last: usize,
    most: u64,
    most_at: usize,
}

impl Seen {
    fn look(&mut self, iteration: usize, ours: f64, theirs: f64) {
        let apart = ours.to_bits().abs_diff(theirs.to_bits());
        if apart == 0 {
            return;
        }
        if self.many == 0 {
            self.first = iteration;
        }
        self.many += 1;
        self.last = iteration;
        if apart > self.most {
            (self.most, self.most_at) = (apart, iteration);
        }
    }

    fn show(&self, beta: f64, what: &str) {
        let Seen { many, first, last, most, most_at } = self;
        println!("{} {}: {} iterations differ, the first {}, the last {}; most {} steps, at {}", beta, what, many, first, last, most, most_at);
    }
}

/// `powi` against running products, for the iterations 1 to `iterations`: the power, and 1 less it, which is what a step sees.
pub fn powers(iterations: usize) {
    for beta in [0.9_f64, 0.999] {
        let (mut power, mut step) = (Seen::default(), Seen::default());
        let mut running = 1.0;
        for iteration in 1..=iterations {
            running *= beta;
            let powi = black_box(beta).powi(black_box(iteration) as i32);
            power.look(iteration, running, powi);
            step.look(iteration, 1.0 - running, 1.0 - powi);
        }
        power.show(beta, "power");
        step.show(beta, "1 - power");
    }
}

/// A tuner over lines `RESULT POSITION`, a result as half points.
pub fn tuner(text: &str, k: f64) -> Tuner {
    let positions = text.lines().map(|line| {
        let (result, position) = line.split_once(' ').expect("RESULT POSITION");
        let (board, side) = placement::read(position);
        let wdl = result.parse::<f64>().expect("half points") / 2.0;
        EvaluatedPosition { trace: tune::traced(&placement::game_of(&board, side)), wdl }
    });
    Tuner { positions: positions.collect(), k, ..Tuner::new() }
}

/// The gradient by so many threads against one thread's: how many of the 779 sums differ, and by how much of the sum at most.
pub fn threads(text: &str) {
    let mut tuner = tuner(text, 1.0);
    let one = tuner.compute_gradient();
    for threads in [2, 3, 4, 8, 16] {
        tuner.threads_count = threads;
        let many = tuner.compute_gradient();
        let differing: Vec<usize> = (0..WEIGHTS).filter(|&place| one[place] != many[place]).collect();
        let most = differing.iter().map(|&place| ((one[place] - many[place]) / one[place]).abs()).fold(0.0, f64::max);
        println!("{} threads: {} of {} sums differ, by at most {:e} of the sum", threads, differing.len(), WEIGHTS, most);
    }
}

/// The weights after each iteration, all in one number a row: the original's own tune, from the shipped weights.
pub fn tuned(text: &str, iterations: usize, rate: f64) {
    let mut tuner = tuner(text, 1.0);
    for iteration in 1..=iterations {
        tuner.params = Tuner::new().params;
        tuner.tune(iteration, rate);
        println!("{} {}", iteration, fit::stirred(&tuner.params));
    }
}
