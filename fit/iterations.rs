// The fit: for each iteration every sample's double, coefficient and part of the gradient, in the order of the lines, and then the step.
use crate::arguments::Expected;
use crate::chess_scores::doors::{chess_list_add, chess_list_eval, chess_table_coefficient};
use crate::chess_scores::{Code, Fit, WEIGHTS};
use crate::held::{Held, Sample};

pub type Weights = [f64; WEIGHTS];

/// What an iteration works with beside its weights.
pub struct Plan<'a> {
    pub held: &'a Held,
    pub iterations: u64,
    pub rate: f64,
    pub k: f64,
    pub expected: Expected,
}

/// The weights after the last iteration, and the error before each and after the last.
pub struct Fitted {
    pub weights: Weights,
    pub errors: Vec<f64>,
}

/// `tell` hears of each iteration that is done, from 0 on, and of the error then; the fit ends where it fails.
pub fn fit(plan: &Plan, start: &Weights, tell: &mut dyn FnMut(u64, f64) -> Result<(), String>) -> Result<Fitted, String> {
    let mut fit = Fit { first_moments: [0.0; WEIGHTS], second_moments: [0.0; WEIGHTS], weights: *start };
    let mut errors = Vec::new();
    for iteration in 1..=plan.iterations {
        let (error, gradient) = plan.pass(&fit.weights);
        tell(iteration - 1, finite(error, iteration - 1)?)?;
        errors.push(error);
        fit.step(&gradient, iteration, plan.rate).map_err(|refusal| format!("iteration {iteration}: {refusal}"))?;
        fit.weights.iter().try_for_each(|&weight| finite(weight, iteration).map(|_| ()))?;
    }
    let error = finite(plan.error(&fit.weights), plan.iterations)?;
    tell(plan.iterations, error)?;
    errors.push(error);
    Ok(Fitted { weights: fit.weights, errors })
}

/// A weight or an error, if it is a number that a fit can go on with.
fn finite(number: f64, done: u64) -> Result<f64, String> {
    if number.is_finite() { Ok(number) } else { Err(format!("the numbers leave the doubles after iteration {done}: take a smaller --rate")) }
}

impl Plan<'_> {
    /// The expected score and the coefficient of a sample under the weights.
    fn expected_of(&self, sample: &Sample, weights: &Weights) -> (f64, f64) {
        let (value, count) = (value(sample, weights), self.held.count());
        match self.expected {
            Expected::Power => powered(value, sample.half_points, self.k, count as f64),
            Expected::Table => tabled(value, sample.half_points, self.k, count),
        }
    }

    /// The error under the weights, as the original's compute_error has it.
    fn error(&self, weights: &Weights) -> f64 {
        let mut total = 0.0;
        self.held.each(|sample| total += squared(&sample, self.expected_of(&sample, weights).0));
        total / self.held.count() as f64
    }

    /// That error, and the gradient as the original's compute_gradient has it with one thread.
    fn pass(&self, weights: &Weights) -> (f64, Weights) {
        let (mut total, mut gradient) = (0.0, [0.0; WEIGHTS]);
        self.held.each(|sample| {
            let (expected, coefficient) = self.expected_of(&sample, weights);
            total += squared(&sample, expected);
            add(&sample, coefficient, &mut gradient);
        });
        (total / self.held.count() as f64, gradient)
    }
}

fn squared(sample: &Sample, expected: f64) -> f64 {
    let error = points(sample.half_points) - expected;
    error * error
}

fn points(half_points: u8) -> f64 {
    half_points as f64 / 2.0
}

/// The original's expected score and coefficient, in the order of its operations.
fn powered(value: f64, half_points: u8, k: f64, n: f64) -> (f64, f64) {
    let s = 1.0 / (1.0 + 10_f64.powf(-k * value / 400.0));
    let error = points(half_points) - s;
    let dsigmoid_deval = s * (1.0 - s) * k * 10_f64.ln() / 400.0;
    (s, -2.0 * error * dsigmoid_deval / n)
}

/// The table's, the same bits on every machine.
fn tabled(value: f64, half_points: u8, k: f64, lines: u64) -> (f64, f64) {
    let (mut expected, mut coefficient) = (0.0, 0.0);
    // SAFETY: the pointers are those of two locals.
    taken(unsafe { chess_table_coefficient(value, half_points, k, lines, &mut expected, &mut coefficient) });
    (expected, coefficient)
}

fn value(sample: &Sample, weights: &Weights) -> f64 {
    let (numbers, (named, squares)) = (sample.numbers, weights.split_at(11));
    let mut value = 0.0;
    // SAFETY: the pointers are those of arrays that live through the call, with their lengths; 12 counts stand before 12 numbers of mobility.
    taken(unsafe {
        chess_list_eval(numbers.as_ptr(), numbers[12..].as_ptr(), numbers[24], numbers[25], sample.used, sample.list.as_ptr(), named.as_ptr(),
            squares.as_ptr(), squares.len(), &mut value)
    });
    value
}

fn add(sample: &Sample, coefficient: f64, gradient: &mut Weights) {
    let numbers = sample.numbers;
    // SAFETY: as in `value`.
    taken(unsafe {
        chess_list_add(numbers.as_ptr(), numbers[12..].as_ptr(), numbers[24], numbers[25], sample.used, sample.list.as_ptr(), coefficient,
            gradient.as_mut_ptr(), WEIGHTS)
    });
}

/// A sample that the doors wrote is refused by none of them: to go on without it would skip a line in silence.
fn taken(code: Code) {
    assert_eq!(code.number, 0, "a sample is refused");
}
