// Weights and traces made from a seed, by the rule of oracle/README.md.
use crate::chess_scores::{Trace, Weights};
use crate::random::Random;
use crate::weight::{weight, KINDS};

/// The named weights first, then the square weights: the original's order.
pub fn weights(kind: u8, seed: u64) -> Weights {
    let mut weights = Weights::shipped();
    if kind > 0 {
        let mut draws = Random::from_seed(seed);
        for place in weights.named.iter_mut().chain(&mut weights.squares) {
            *place = weight(&KINDS[kind as usize], draws.next());
        }
    }
    weights
}

/// A trace's numbers: ten counts, two pair flags, twelve of mobility, side, piece count, and then the 768 entries.
pub fn numbers(trace: &mut Trace) -> Vec<&mut i32> {
    let mut listed: Vec<&mut i32> = trace.counts.iter_mut().chain(&mut trace.mobility).collect();
    listed.push(&mut trace.sign);
    listed.push(&mut trace.piece_count);
    listed.extend(&mut trace.entries);
    listed
}

/// A trace inside TRACE's ranges that need be no position's.
pub fn trace(seed: u64) -> Trace {
    let mut draws = Random::from_seed(seed);
    let mut trace = Trace { counts: [0; 12], mobility: [0; 12], sign: 0, piece_count: 0, entries: [0; 768] };
    let mut sparse = 0;
    for (place, number) in numbers(&mut trace).into_iter().enumerate() {
        if place == 26 {
            sparse = draws.next() % 8;
        }
        let draw = draws.next();
        *number = match place {
            0..=9 | 25 => (draw % 65) as i32,
            10 | 11 => (draw % 2) as i32,
            12..=23 => (draw % 1729) as i32,
            24 => 1 - 2 * (draw % 2) as i32,
            _ => (draw % (1 << sparse) == 0) as i32,
        };
    }
    trace
}
