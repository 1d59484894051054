// Weights and traces made from a seed: the README's rule, so that every voice makes the same ones.
use crate::random::Random;
use crate::tune::{Trace, Tuner, WEIGHTS};
use crate::weight::{weight, KINDS};

/// All 779 weights in the original's places.
pub fn weights(kind: usize, seed: u64) -> [f64; WEIGHTS] {
    if kind == 0 {
        return Tuner::new().params;
    }
    let mut stream = Random::from_seed(seed);
    let mut weights = [0.0; WEIGHTS];
    for place in weights.iter_mut() {
        *place = weight(&KINDS[kind], stream.next());
    }
    weights
}

/// A trace's numbers in the README's order: ten counts, two pair flags, twelve mobility numbers, side, piece count, and
/// then the 768 entries by place.
pub fn numbers(trace: &mut Trace) -> Vec<&mut i32> {
    let counts = [&mut trace.pawns, &mut trace.knights, &mut trace.bishops, &mut trace.rooks, &mut trace.queens];
    let mut listed: Vec<&mut i32> = counts.into_iter().flatten().collect();
    listed.extend(&mut trace.bishop_pair);
    listed.extend(trace.mobility.iter_mut().flatten());
    listed.push(&mut trace.side);
    listed.push(&mut trace.piece_count);
    listed.extend(trace.pst.iter_mut().flatten().flatten());
    listed
}

/// Where in that order the numbers of one range end.
const COUNTS_END: usize = 10;
const PAIRS_END: usize = 12;
const MOBILITY_END: usize = 24;
const SIDE: usize = 24;
pub const NUMBERS: usize = 26;

/// A trace inside TRACE's ranges that need be no position's.
pub fn trace(seed: u64) -> Trace {
    let mut stream = Random::from_seed(seed);
    let mut trace = Trace::default();
    let mut sparse = 0;
    for (place, number) in numbers(&mut trace).into_iter().enumerate() {
        if place == NUMBERS {
            sparse = stream.next() % 8;
        }
        let draw = stream.next();
        *number = match place {
            _ if place < COUNTS_END => (draw % 65) as i32,
            _ if place < PAIRS_END => (draw % 2) as i32,
            _ if place < MOBILITY_END => (draw % 1729) as i32,
            SIDE => 1 - 2 * (draw % 2) as i32,
            _ if place < NUMBERS => (draw % 65) as i32,
            _ => (draw % (1 << sparse) == 0) as i32,
        };
    }
    trace
}

/// The same with one of its numbers changed, in range or not.
pub fn odd_trace(seed: u64, place: usize, value: i32) -> Trace {
    let mut trace = trace(seed);
    *numbers(&mut trace).swap_remove(place) = value;
    trace
}
