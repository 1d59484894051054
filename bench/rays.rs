// A queen's attacks on boards from empty to crowded: the original's walk and the library's door in turn, the least time of some rounds.
use crate::attack::piece_attacks;
use crate::ours;
use crate::piece::WHITE_QUEEN;
use crate::random::Random;
use std::hint::black_box;
use std::time::Instant;

const SEED: u64 = 11;
/// So many occupancies for each count of pieces, each asked from every square.
const BOARDS: usize = 64;
const MOST: u32 = 48;

/// An occupancy of so many pieces.
fn occupied(random: &mut Random, pieces: u32) -> u64 {
    let mut board: u64 = 0;
    while board.count_ones() < pieces {
        board |= 1 << random.below(64);
    }
    board
}

fn timed(board: u64, ask: impl Fn(u8, u64) -> u64) -> (f64, [u64; 64]) {
    let mut given = [0; 64];
    let start = Instant::now();
    for square in 0..64 {
        given[square as usize] = ask(square, black_box(board));
    }
    (start.elapsed().as_nanos() as f64, given)
}

/// The counts of pieces in turn in every round, so that a machine that slows down slows all of them.
pub fn measure(rounds: usize) {
    let counts: Vec<u32> = (0..=MOST).step_by(8).collect();
    let drawn = |pieces: &u32| (0..BOARDS as u64).map(|place| occupied(&mut Random::at(SEED, place), *pieces)).collect();
    let boards: Vec<Vec<u64>> = counts.iter().map(drawn).collect();
    let mut best = vec![[(f64::MAX, f64::MAX); BOARDS]; counts.len()];
    for _ in 0..rounds * 10 {
        for (boards, best) in boards.iter().zip(&mut best) {
            for (board, best) in boards.iter().zip(best) {
                let theirs = timed(*board, |square, board| piece_attacks(WHITE_QUEEN, square, board));
                let ours = timed(*board, |square, board| ours::piece_attacks(WHITE_QUEEN, square, board));
                assert!(theirs.1 == ours.1, "a queen's attacks differ");
                *best = (best.0.min(ours.0), best.1.min(theirs.0));
            }
        }
    }
    println!("{:<14} {:>10} {:>10} {:>7}", "a queen among", "ours ns", "theirs ns", "ratio");
    let (mut least, mut most) = (f64::MAX, 0.0_f64);
    for (pieces, best) in counts.iter().zip(&best) {
        let mean = |of: fn(&(f64, f64)) -> f64| best.iter().map(of).sum::<f64>() / (BOARDS * 64) as f64;
        let (ours, theirs) = (mean(|best| best.0), mean(|best| best.1));
        println!("{:<14} {:>10.1} {:>10.1} {:>7.2}", format!("{pieces} pieces"), ours, theirs, ours / theirs);
        (least, most) = (least.min(ours), most.max(ours));
    }
    println!("ours, the slowest of these rows over the quickest: {:.3}", most / least);
}
