// The library's doors, by the declarations of its Rust face, with no more around them than the original's functions have.
use crate::chess_scores::doors::*;
use crate::chess_scores::{Code, Mode, State, ORDER};
use crate::color::WHITE;
use crate::game::Game;
use crate::tune;

/// What a trace has beside its entries.
#[derive(Clone, Copy, Default, PartialEq)]
pub struct Counts {
    counts: [i32; 12],
    mobility: [i32; 12],
    sign: i32,
    pieces: i32,
}

impl Counts {
    pub fn of(trace: &tune::Trace) -> Counts {
        let mut all = Counts { sign: trace.side, pieces: trace.piece_count, ..Counts::default() };
        let pairs = [trace.pawns, trace.knights, trace.bishops, trace.rooks, trace.queens, trace.bishop_pair];
        all.counts.copy_from_slice(pairs.as_flattened());
        all.mobility.copy_from_slice(trace.mobility.as_flattened());
        all
    }
}

/// What stands for a refusal among the answers: no answer of the original.
const REFUSED: i64 = 1 << 40;

fn answer(code: Code, given: i64) -> i64 {
    if code.number == 0 { given } else { REFUSED + code.number as i64 }
}

// Of each call: the pointers are those of the position's arrays, of slices and of locals, with their lengths.
pub fn eval(game: &Game) -> i64 {
    let (mut verdict, mut score) = (0, 0);
    let code = unsafe { chess_eval(game.bitboards.as_ptr(), 14, game.board.as_ptr(), 64, State::of_side(game.side()), &mut verdict, &mut score) };
    let inf = crate::common::INF as i64;
    answer(code, [score as i64, -inf, inf, 0][verdict as usize])
}

pub fn eval_material(game: &Game) -> i64 {
    let mut material = 0;
    answer(unsafe { chess_eval_material(game.bitboards.as_ptr(), 14, game.board.as_ptr(), 64, State::of_side(WHITE), game.side(), &mut material) }, material as i64)
}

pub fn is_check(game: &Game) -> i64 {
    let mut check = false;
    answer(unsafe { chess_is_check(game.bitboards.as_ptr(), 14, game.board.as_ptr(), 64, State::of_side(WHITE), game.side(), &mut check) }, check as i64)
}

pub fn see(game: &Game, from: u8, to: u8) -> i64 {
    let mut worth = 0;
    answer(unsafe { chess_see(game.bitboards.as_ptr(), 14, game.board.as_ptr(), 64, State::of_side(game.side()), Mode::First as u8, ORDER.as_ptr(), from, to, &mut worth) }, worth as i64)
}

pub fn piece_attacks(piece: u8, square: u8, occupied: u64) -> u64 {
    let mut squares = 0;
    let code = unsafe { chess_piece_attacks(piece, square, occupied, &mut squares) };
    assert!(code.number == 0, "refused {}", code.number);
    squares
}

pub fn compute_trace(game: &Game, counts: &mut Counts, entries: &mut [i32]) -> Code {
    unsafe {
        chess_compute_trace(game.bitboards.as_ptr(), 14, game.board.as_ptr(), 64, State::of_side(game.side()), counts.counts.as_mut_ptr(), counts.mobility.as_mut_ptr(),
            &mut counts.sign, &mut counts.pieces, entries.as_mut_ptr(), entries.len())
    }
}

pub fn trace_eval(counts: &Counts, entries: &[i32], weights: &[f64; tune::WEIGHTS]) -> f64 {
    let (mut value, (named, squares)) = (0.0, weights.split_at(11));
    unsafe {
        chess_trace_eval(counts.counts.as_ptr(), counts.mobility.as_ptr(), counts.sign, counts.pieces, entries.as_ptr(), entries.len(), named.as_ptr(),
            squares.as_ptr(), squares.len(), &mut value)
    };
    value
}

/// A trace's list, without its counts.
#[derive(Clone, Copy, PartialEq)]
pub struct List {
    used: u8,
    entries: [u8; 192],
}

impl Default for List {
    fn default() -> List {
        List { used: 0, entries: [0; 192] }
    }
}

impl List {
    pub fn of(counts: &Counts, entries: &[i32]) -> List {
        let mut list = List::default();
        let code = unsafe {
            chess_list_of(counts.counts.as_ptr(), counts.mobility.as_ptr(), counts.sign, counts.pieces, entries.as_ptr(), entries.len(), &mut list.used,
                list.entries.as_mut_ptr())
        };
        assert!(code.number == 0, "a trace is refused");
        list
    }
}

pub fn compute_list(game: &Game, counts: &mut Counts, list: &mut List) {
    let code = unsafe {
        chess_compute_list(game.bitboards.as_ptr(), 14, game.board.as_ptr(), 64, State::of_side(game.side()), counts.counts.as_mut_ptr(), counts.mobility.as_mut_ptr(),
            &mut counts.sign, &mut counts.pieces, &mut list.used, list.entries.as_mut_ptr())
    };
    assert!(code.number == 0, "a position is refused");
}

pub fn list_eval(counts: &Counts, list: &List, weights: &[f64; tune::WEIGHTS]) -> f64 {
    let (mut value, (named, squares)) = (0.0, weights.split_at(11));
    let code = unsafe {
        chess_list_eval(counts.counts.as_ptr(), counts.mobility.as_ptr(), counts.sign, counts.pieces, list.used, list.entries.as_ptr(), named.as_ptr(),
            squares.as_ptr(), squares.len(), &mut value)
    };
    assert!(code.number == 0, "a list is refused");
    value
}

pub fn list_add(counts: &Counts, list: &List, coefficient: f64, gradient: &mut [f64]) {
    let code = unsafe {
        chess_list_add(counts.counts.as_ptr(), counts.mobility.as_ptr(), counts.sign, counts.pieces, list.used, list.entries.as_ptr(), coefficient,
            gradient.as_mut_ptr(), gradient.len())
    };
    assert!(code.number == 0, "a line is refused");
}

pub fn gradient_add(counts: &Counts, entries: &[i32], coefficient: f64, gradient: &mut [f64]) {
    let code = unsafe {
        chess_gradient_add(counts.counts.as_ptr(), counts.mobility.as_ptr(), counts.sign, counts.pieces, entries.as_ptr(), entries.len(), coefficient,
            gradient.as_mut_ptr(), gradient.len())
    };
    assert!(code.number == 0, "a line is refused");
}

pub fn adam_step(gradient: &[f64], m: &mut [f64], v: &mut [f64], weights: &mut [f64], iteration: u64, rate: f64) {
    let code = unsafe {
        chess_adam_step(gradient.as_ptr(), gradient.len(), m.as_mut_ptr(), m.len(), v.as_mut_ptr(), v.len(), weights.as_mut_ptr(), weights.len(), iteration, rate)
    };
    assert!(code.number == 0, "a step is refused");
}
