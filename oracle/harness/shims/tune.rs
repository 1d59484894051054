// The original's tune.rs, and doors to its private functions and size. It prints as it goes on: its prints go nowhere, since answers are printed here.
macro_rules! println {
    ($($words:tt)*) => {
        ()
    };
}

include!(concat!(env!("LITTLEWING"), "/tune.rs"));

pub const WEIGHTS: usize = MAX_PARAMS;

pub fn traced(game: &Game) -> Trace {
    compute_trace(game)
}

/// A line's coefficient, as compute_gradient works it out.
pub fn coefficient(tuner: &Tuner, pos: &EvaluatedPosition) -> f64 {
    let s = sigmoid(tuner.k, pos.trace.eval(&tuner.params));
    let error = pos.wdl - s;
    let dsigmoid_deval = s * (1.0 - s) * tuner.k * 10_f64.ln() / 400.0;
    -2.0 * error * dsigmoid_deval / tuner.positions.len() as f64
}
