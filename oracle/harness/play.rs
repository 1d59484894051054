// Game-like positions: random play from the starting position that never leaves the own king attacked.
use crate::attack::{piece_attacks, Attack};
use crate::bitboard::{Bitboard, BitboardIterator};
use crate::color::{Color, WHITE};
use crate::game::Game;
use crate::piece::*;
use crate::placement;
use crate::random::Random;

const START: &str = "rnbqkbnr/pppppppp/8/8/8/8/PPPPPPPP/RNBQKBNR w";

fn occupied(game: &Game) -> Bitboard {
    game.bitboards[0] | game.bitboards[1]
}

/// One or two squares ahead of a pawn, as far as they are empty.
fn pushes(game: &Game, from: u8, side: Color) -> Bitboard {
    let ahead = |square: u8| if side == WHITE { square.checked_add(8) } else { square.checked_sub(8) };
    let free = |square: Option<u8>| square.filter(|&to| to < 64 && occupied(game) & 1 << to == 0);
    let home = if side == WHITE { 1 } else { 6 };
    let mut targets = 0;
    if let Some(one) = free(ahead(from)) {
        targets |= 1 << one;
        if let Some(two) = free(ahead(one)).filter(|_| from / 8 == home) {
            targets |= 1 << two;
        }
    }
    targets
}

/// Every move of the side to move, as start and target.
fn moves(game: &Game, side: Color) -> Vec<(u8, u8)> {
    let mut found = Vec::new();
    for &kind in &PIECES {
        let mut pieces = game.bitboards[(side | kind) as usize];
        while let Some(from) = pieces.next() {
            let attacks = piece_attacks(side | kind, from, occupied(game));
            let mut targets = if kind == PAWN {
                attacks & game.bitboards[(side ^ 1) as usize] | pushes(game, from, side)
            } else {
                attacks & !game.bitboards[side as usize]
            };
            while let Some(to) = targets.next() {
                found.push((from, to));
            }
        }
    }
    found
}

/// The board after a move; a pawn on its last rank becomes a piece of any kind but pawn and king.
fn moved(game: &Game, from: u8, to: u8, random: &mut Random) -> [Piece; 64] {
    let mut board = game.board;
    let piece = board[from as usize];
    board[from as usize] = EMPTY;
    board[to as usize] = piece;
    if piece.is_pawn() && (to < 8 || to >= 56) {
        board[to as usize] = piece.color() | random.pick(&[QUEEN, QUEEN, QUEEN, ROOK, BISHOP, KNIGHT]);
    }
    board
}

/// Captures are preferred half of the time, so that boards thin out as in games.
fn chosen(game: &Game, all: &[(u8, u8)], random: &mut Random) -> (u8, u8) {
    let captures: Vec<(u8, u8)> = all.iter().copied().filter(|&(_, to)| game.board[to as usize] != EMPTY).collect();
    if !captures.is_empty() && random.one_in(2) {
        random.pick(&captures)
    } else {
        random.pick(all)
    }
}

/// The board and side after a random number of plies.
pub fn played(random: &mut Random) -> ([Piece; 64], Color) {
    let (mut board, mut side) = placement::read(START);
    let mut game = placement::game_of(&board, side);
    for _ in 0..random.below(120) {
        let all = moves(&game, side);
        if all.is_empty() {
            break;
        }
        let (from, to) = chosen(&game, &all, random);
        let after = moved(&game, from, to, random);
        placement::fill(&mut game, &after, side ^ 1);
        if game.is_check(side) {
            placement::fill(&mut game, &board, side);
            continue;
        }
        board = after;
        side ^= 1;
    }
    (board, side)
}
