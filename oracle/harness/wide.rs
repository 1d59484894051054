// The numbers of the score in wide arithmetic: they steer the search for positions, and answer no question.
use crate::attack::piece_attacks;
use crate::bitboard::BitboardExt;
use crate::color::Color;
use crate::eval::{BISHOP_PAIR, MOBILITY, PIECE_VALUES, TEMPO};
use crate::piece::{Piece, PieceAttr, BISHOP, EMPTY};
use crate::piece_square_table::PST;

pub const LOW: i64 = i16::MIN as i64;
pub const HIGH: i64 = i16::MAX as i64;

/// 01's list of SCORE, clause by clause; the mobility clause can never hold and has no place here.
#[derive(Clone, Copy, PartialEq, Debug)]
pub enum Clause {
    Material,
    Opening,
    Ending,
    Products,
    Position,
    Mobility,
    Tempo,
}

pub const CLAUSES: [Clause; 7] = [
    Clause::Material,
    Clause::Opening,
    Clause::Ending,
    Clause::Products,
    Clause::Position,
    Clause::Mobility,
    Clause::Tempo,
];

/// What each clause speaks of: by colour for the first four, for the side to move in the last three.
pub struct Wide {
    material: [i64; 2],
    opening: [i64; 2],
    ending: [i64; 2],
    sums: [i64; 3],
}

impl Wide {
    pub fn of(board: &[Piece; 64], side: Color) -> Wide {
        let occupied = (0..64).filter(|&square| board[square] != EMPTY).fold(0u64, |all, square| all | 1 << square);
        let mut material = [0i64; 2];
        let mut mobility = [0i64; 2];
        let mut weights = [[0i64; 2]; 2];
        let mut bishops = [0; 2];
        for square in 0..64u8 {
            let piece = board[square as usize];
            if piece == EMPTY {
                continue;
            }
            let colour = piece.color() as usize;
            let factor = MOBILITY[piece.kind() as usize] as i64;
            if factor > 0 {
                mobility[colour] += factor * piece_attacks(piece, square, occupied).count() as i64;
            }
            material[colour] += PIECE_VALUES[piece as usize] as i64;
            bishops[colour] += (piece.kind() == BISHOP) as i64;
            for phase in 0..2 {
                weights[colour][phase] += PST[piece as usize][square as usize][phase] as i64;
            }
        }
        for colour in 0..2 {
            material[colour] += if bishops[colour] > 1 { BISHOP_PAIR as i64 } else { 0 };
        }
        Wide::summed(occupied.count() as i64, side as usize, material, mobility, weights)
    }

    fn summed(x: i64, own: usize, material: [i64; 2], mobility: [i64; 2], weights: [[i64; 2]; 2]) -> Wide {
        let opening = [weights[0][0] * (2 - x), weights[1][0] * (2 - x)];
        let ending = [weights[0][1] * (x - 32), weights[1][1] * (x - 32)];
        let part = |colour: usize| (opening[colour] + ending[colour]) / -30;
        let other = own ^ 1;
        let first = part(own) - part(other) + material[own] - material[other];
        let second = first + mobility[own] / 10 - mobility[other] / 10;
        Wide { material, opening, ending, sums: [first, second, second + TEMPO as i64] }
    }

    /// The number, or the two colours' numbers, that the clause tests.
    pub fn tested(&self, clause: Clause) -> [i64; 2] {
        match clause {
            Clause::Material => self.material,
            Clause::Opening => self.opening,
            Clause::Ending => self.ending,
            Clause::Products => [self.opening[0] + self.ending[0], self.opening[1] + self.ending[1]],
            Clause::Position => [self.sums[0]; 2],
            Clause::Mobility => [self.sums[1]; 2],
            Clause::Tempo => [self.sums[2]; 2],
        }
    }

    /// How far outside the range the clause's numbers are; 0 if it does not hold.
    pub fn outside(&self, clause: Clause) -> i64 {
        let beyond = |number: i64| (number - HIGH).max(LOW - number).max(0);
        self.tested(clause).iter().map(|&number| beyond(number)).max().unwrap()
    }

    /// How far the clause is from holding; 0 if it holds.
    pub fn inside(&self, clause: Clause) -> i64 {
        let short = |number: i64| (HIGH + 1 - number).min(number - LOW + 1).max(0);
        self.tested(clause).iter().map(|&number| short(number)).min().unwrap()
    }
}
