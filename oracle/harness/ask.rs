// The questions: everything that is asked of a position, and what is asked of bitboards and tables alone.
use crate::attack::{piece_attacks, Attack};
use crate::bitboard::BitboardIterator;
use crate::color::Color;
use crate::families;
use crate::game::Game;
use crate::piece::*;
use crate::placement::{self, many, pieces_on};
use crate::random::Random;

type Asked = Vec<(&'static str, String)>;

/// All questions about the positions `first`, `first + 1`, .. of a seed.
pub fn questions(seed: u64, first: u64, count: u64) -> Asked {
    let mut asked = Vec::new();
    for place in first..first + count {
        let mut random = Random::at(seed, place);
        let (family, (board, side)) = families::position(place, &mut random);
        for question in of_position(&board, side, &mut random) {
            asked.push((family, question));
        }
        for question in of_no_position(&mut random) {
            asked.push(("plain", question));
        }
    }
    asked
}

fn of_position(board: &[Piece; 64], side: Color, random: &mut Random) -> Vec<String> {
    let game = placement::game_of(board, side);
    let line = placement::write(board, side);
    let mut asked = vec![format!("eval {}", line), format!("ending {}", line), format!("trace {}", line)];
    for colour in 0..2 {
        asked.push(format!("material {} {}", colour, line));
        asked.push(format!("check {} {}", colour, line));
    }
    asked.push(format!("attacked {} {} {}", random.square(), random.below(2), line));
    attack_questions(&game, &line, random, &mut asked);
    asked.push(format!("double 0 0 {}", line));
    asked.push(format!("double {} {} {}", random.between(1, 5), random.next(), line));
    for (start, target) in captures(&game) {
        asked.push(format!("see {} {} {}", start, target, line));
    }
    asked
}

/// attacks_to and lvp, with the position's own occupancy, with less, and with any.
fn attack_questions(game: &Game, line: &str, random: &mut Random, asked: &mut Vec<String>) {
    let own = game.bitboards[0] | game.bitboards[1];
    let square = random.square();
    let occupied = match random.below(3) {
        0 => own,
        1 => own & random.bitboard(),
        _ => random.bitboard(),
    };
    asked.push(format!("attacks_to {} {} {}", square, occupied, line));
    let attacks = if random.one_in(2) { game.attacks_to(square, occupied) } else { random.bitboard() };
    asked.push(format!("lvp {} {} {} {}", random.below(2), attacks, occupied, line));
}

/// Every capture that MOVE allows; none where CROWD refuses the position.
fn captures(game: &Game) -> Vec<(u8, u8)> {
    let mut found = Vec::new();
    if pieces_on(&game.board) > 32 || many(&game.board, WHITE_KING) > 1 || many(&game.board, BLACK_KING) > 1 {
        return found;
    }
    let (side, occupied) = (game.side(), game.bitboards[0] | game.bitboards[1]);
    let mut own = game.bitboards[side as usize];
    while let Some(start) = own.next() {
        let attacks = piece_attacks(game.board[start as usize], start, occupied);
        let mut targets = attacks & game.bitboards[(side ^ 1) as usize];
        while let Some(target) = targets.next() {
            found.push((start, target));
        }
    }
    found
}

/// One question of each word that takes no position.
fn of_no_position(random: &mut Random) -> Vec<String> {
    let square_words = ["get", "set", "toggle", "reset"];
    vec![
        format!("piece_attacks {} {} {}", random.between(2, 13), random.square(), random.bitboard()),
        format!("shift {} {}", random.between(-63, 63), random.bitboard()),
        format!("{} {}", random.pick(&["count", "scan", "next"]), random.bitboard()),
        format!("{} {} {}", random.pick(&square_words), random.square(), random.bitboard()),
        format!("wild {} {} {}", random.between(0, 5), random.next(), random.next()),
    ]
}

/// Every entry of PST, of the step tables and of the single squares, and every shift of two bitboards.
pub fn tables() -> Asked {
    let mut asked = Vec::new();
    for code in 0..14 {
        for square in 0..64 {
            for phase in 0..2 {
                asked.push(format!("pst {} {} {}", code, square, phase));
            }
        }
    }
    for square in 0..64 {
        asked.push(format!("knight {}", square));
        asked.push(format!("king {}", square));
        asked.push(format!("pawn 0 {}", square));
        asked.push(format!("pawn 1 {}", square));
        asked.push(format!("from_square {}", square));
    }
    for by in -63..64 {
        asked.push(format!("shift {} {}", by, u64::MAX));
        asked.push(format!("shift {} {}", by, 0x8102_0408_1020_4081u64));
    }
    for board in [0, 1, 1 << 63, u64::MAX] {
        for word in ["count", "scan", "next"] {
            asked.push(format!("{} {}", word, board));
        }
    }
    asked.into_iter().map(|question| ("tables", question)).collect()
}
