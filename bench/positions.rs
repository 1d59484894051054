// The positions that are measured: random play from the starting position, each with a capture of the side to move.
use crate::attack::piece_attacks;
use crate::bitboard::BitboardIterator;
use crate::game::Game;
use crate::placement;
use crate::play;
use crate::random::Random;

const SEED: u64 = 7;

#[derive(Clone)]
pub struct Position {
    pub board: [u8; 64],
    pub side: u8,
    pub from: u8,
    pub to: u8,
}

/// The first capture of the side to move.
fn capture(game: &Game, side: u8) -> Option<(u8, u8)> {
    let occupied = game.bitboards[0] | game.bitboards[1];
    let mut own = game.bitboards[side as usize];
    while let Some(from) = own.next() {
        let mut targets = piece_attacks(game.board[from as usize], from, occupied) & game.bitboards[(side ^ 1) as usize];
        if let Some(to) = targets.next() {
            return Some((from, to));
        }
    }
    None
}

pub fn drawn(count: usize) -> Vec<Position> {
    let mut game = Game::new();
    let mut found = Vec::new();
    for place in 0.. {
        if found.len() == count {
            break;
        }
        let (board, side) = play::played(&mut Random::at(SEED, place));
        placement::fill(&mut game, &board, side);
        if let Some((from, to)) = capture(&game, side) {
            found.push(Position { board, side, from, to });
        }
    }
    found
}

/// The results of lines, in turn.
pub const RESULTS: [&str; 3] = ["1-0", "0-1", "1/2-1/2"];

/// A line of a collection.
fn line(position: &Position, result: &str) -> String {
    let line = placement::write(&position.board, position.side);
    format!("{} - - 0 1;{}\n", line.split(';').next().unwrap(), result)
}

/// Their lines, results in turn, one in fifty with none that is known.
pub fn lines(count: usize) -> Vec<u8> {
    let drawn = drawn(count.min(100_000));
    (0..count).flat_map(|place| line(&drawn[place % drawn.len()], if place % 50 == 49 { "*" } else { RESULTS[place % 3] }).into_bytes()).collect()
}

/// Lines that are loaded, all of them, results in turn.
pub fn loaded_lines(drawn: &[Position]) -> Vec<u8> {
    drawn.iter().enumerate().flat_map(|(place, position)| line(position, RESULTS[place % 3]).into_bytes()).collect()
}
