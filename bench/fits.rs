// The fitting step: a line's part of the gradient, the step, and both of a whole iteration. The original's are the text of compute_gradient's and tune's
// loops, over traces as the original has them, flat in memory; the powers are running products on both sides. The least time of some rounds.
use crate::drawn;
use crate::ours::{self, Counts, List};
use crate::placement;
use crate::tune::{self, Trace, WEIGHTS};
use std::hint::black_box;
use std::time::Instant;

type Sums = [f64; WEIGHTS];

/// compute_gradient's loop body, from the coefficient on.
fn add(trace: &Trace, coefficient: f64, gradient: &mut Sums) {
    let pairs = [trace.pawns, trace.knights, trace.bishops, trace.rooks, trace.queens, trace.bishop_pair];
    for (place, pair) in pairs.iter().enumerate() {
        gradient[place] += coefficient * (pair[0] - pair[1]) as f64;
    }
    for i in 0..4 {
        let mob = trace.mobility[i + 1];
        gradient[6 + i] += coefficient * (mob[0] - mob[1]) as f64 / 10.0;
    }
    gradient[10] += coefficient * trace.side as f64;
    let x = trace.piece_count as f64;
    let (x0, x1) = (32.0, 2.0);
    for kind in 0..6 {
        for sq in 0..64 {
            for c in 0..2 {
                let count = trace.pst[kind][sq][c] as f64;
                if count == 0.0 {
                    continue;
                }
                let opening = 11 + kind * 64 * 2 + sq;
                let sign = if c == 0 { 1.0 } else { -1.0 };
                gradient[opening] += coefficient * sign * count * (x1 - x) / (x1 - x0);
                gradient[opening + 64] += coefficient * sign * count * (x - x0) / (x1 - x0);
            }
        }
    }
}

#[derive(Clone, PartialEq)]
struct Fit {
    m: Sums,
    v: Sums,
    weights: Sums,
}

impl Fit {
    /// tune's update, by the powers that are handed over.
    fn step(&mut self, gradient: &Sums, powers: (f64, f64), rate: f64) {
        let (beta1, beta2, epsilon) = (0.9, 0.999, 1e-8);
        for i in 1..WEIGHTS {
            self.m[i] = beta1 * self.m[i] + (1.0 - beta1) * gradient[i];
            self.v[i] = beta2 * self.v[i] + (1.0 - beta2) * gradient[i] * gradient[i];
            let m_hat = self.m[i] / (1.0 - powers.0);
            let v_hat = self.v[i] / (1.0 - powers.1);
            self.weights[i] -= rate * m_hat / (v_hat.sqrt() + epsilon);
        }
    }
}

fn timed(run: impl FnOnce()) -> f64 {
    let start = Instant::now();
    run();
    start.elapsed().as_nanos() as f64
}

fn show(name: &str, ours: f64, theirs: f64) {
    println!("{:<28} {:>10.1} {:>10.1} {:>7.2}", name, ours, theirs, ours / theirs);
}

/// Iterations over so many positions, both sides in turn; every gradient and every fit is compared.
pub fn measure(positions: usize, rounds: usize) {
    let games = drawn::drawn(positions).into_iter().map(|one| placement::game_of(&one.board, one.side));
    let traces: Vec<Trace> = games.map(|game| tune::traced(&game)).collect();
    let counts: Vec<Counts> = traces.iter().map(Counts::of).collect();
    let lists: Vec<List> = traces.iter().zip(&counts).map(|(trace, counts)| List::of(counts, trace.pst.as_flattened().as_flattened())).collect();
    let coefficients: Vec<f64> = (0..positions).map(|place| ((place % 17) as f64 - 8.3) / 1e5).collect();
    let fresh = Fit { m: [0.0; WEIGHTS], v: [0.0; WEIGHTS], weights: tune::Tuner::new().params };
    let (mut one, mut other, mut powers) = (fresh.clone(), fresh, (1.0, 1.0));
    let mut best = [(f64::MAX, f64::MAX); 3];
    for iteration in 1..=rounds as u64 * 10 {
        powers = (powers.0 * 0.9, powers.1 * 0.999);
        let (mut a, mut b, mut c, mut d) = ([0.0; WEIGHTS], [0.0; WEIGHTS], [0.0; WEIGHTS], [0.0; WEIGHTS]);
        let lines = (
            timed(|| (0..positions).for_each(|place| ours::gradient_add(&counts[place], traces[place].pst.as_flattened().as_flattened(), coefficients[place], black_box(&mut a)))),
            timed(|| (0..positions).for_each(|place| add(&traces[place], coefficients[place], black_box(&mut b)))),
        );
        let listed = (
            timed(|| (0..positions).for_each(|place| ours::list_add(&counts[place], &lists[place], coefficients[place], black_box(&mut c)))),
            timed(|| (0..positions).for_each(|place| add(&traces[place], coefficients[place], black_box(&mut d)))),
        );
        assert!(a == b && a == c && a == d, "the gradients differ");
        let steps = (
            timed(|| ours::adam_step(black_box(&a), &mut one.m, &mut one.v, &mut one.weights, iteration, 1.0)),
            timed(|| other.step(black_box(&b), powers, 1.0)),
        );
        assert!(one == other, "the fits differ");
        for (best, now) in best.iter_mut().zip([lines, steps, listed]) {
            *best = (best.0.min(now.0), best.1.min(now.1));
        }
    }
    let [lines, step, listed] = best;
    let each = positions as f64;
    show(&format!("a line's gradient, of {positions}"), lines.0 / each, lines.1 / each);
    show(&format!("from a list, of {positions}"), listed.0 / each, listed.1 / each);
    show("a step", step.0, step.1);
    show(&format!("an iteration over {positions}"), lines.0 + step.0, lines.1 + step.1);
}

pub fn table(rounds: usize) {
    println!("{:<28} {:>10} {:>10} {:>7}", "the fitting step", "ours ns", "theirs ns", "ratio");
    measure(40, rounds);
    measure(500, rounds);
}
