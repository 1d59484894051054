// The families of positions, each drawn from a seed; the README says what each is for.
use crate::attack::piece_attacks;
use crate::climb;
use crate::color::Color;
use crate::piece::*;
use crate::placement::{self, many};
use crate::play;
use crate::random::Random;
use crate::wide::CLAUSES;

pub type Position = ([Piece; 64], Color);

/// How often each family comes in one round.
const SHARES: [(&str, usize); 14] = [
    ("game", 7),
    ("endgame", 3),
    ("random", 3),
    ("crowded", 2),
    ("queens", 1),
    ("kings", 1),
    ("oneking", 1),
    ("noking", 1),
    ("pawns", 2),
    ("exchange", 4),
    ("thirtyone", 1),
    ("few", 2),
    ("bound", 1),
    ("alone", 1),
];

const NO_KING: [Piece; 10] = [
    WHITE_PAWN,
    BLACK_PAWN,
    WHITE_KNIGHT,
    BLACK_KNIGHT,
    WHITE_BISHOP,
    BLACK_BISHOP,
    WHITE_ROOK,
    BLACK_ROOK,
    WHITE_QUEEN,
    BLACK_QUEEN,
];

/// An exchange of 31 captures: all 32 pieces, e4 the target.
const LONGEST: &str = "Q3q3/1Q2q2Q/3nrn2/2nQRqN1/r1qQqRqQ/2NQqbn1/2bNQNQ1/4Q2q w";

/// The family's name and the position at this place of the seed.
pub fn position(place: u64, random: &mut Random) -> (&'static str, Position) {
    let round: Vec<&'static str> = SHARES.iter().flat_map(|&(name, share)| vec![name; share]).collect();
    let name = round[place as usize % round.len()];
    (name, drawn(name, random))
}

fn drawn(name: &str, random: &mut Random) -> Position {
    match name {
        "game" => play::played(random),
        "endgame" => with_kings(&[WHITE_KING, BLACK_KING], 0, 6, &NO_KING, random),
        "random" => with_kings(&[WHITE_KING, BLACK_KING], 0, 30, &NO_KING, random),
        "crowded" => with_kings(&[WHITE_KING, BLACK_KING], 31, 62, &NO_KING, random),
        "queens" => queens(random),
        "kings" => several_kings(random),
        "oneking" => with_kings(&[random.pick(&[WHITE_KING, BLACK_KING])], 0, 20, &NO_KING, random),
        "noking" => with_kings(&[], 0, 24, &NO_KING, random),
        "pawns" => pawns(random),
        "exchange" => exchange(random),
        "thirtyone" => thirty_one(random),
        "few" => few(random),
        "bound" => climb::at_bound(random),
        _ => alone(random),
    }
}

/// Puts so many pieces, each one of those given, on squares still empty.
pub fn scattered(board: &mut [Piece; 64], count: usize, from: &[Piece], random: &mut Random) {
    for _ in 0..count {
        let empty: Vec<usize> = (0..64).filter(|&square| board[square] == EMPTY).collect();
        if empty.is_empty() {
            return;
        }
        board[random.pick(&empty)] = random.pick(from);
    }
}

fn with_kings(kings: &[Piece], fewest: i64, most: i64, others: &[Piece], random: &mut Random) -> Position {
    let mut board = [EMPTY; 64];
    for &king in kings {
        scattered(&mut board, 1, &[king], random);
    }
    let count = random.between(fewest, most) as usize;
    scattered(&mut board, count, others, random);
    (board, random.below(2) as Color)
}

/// Up to 40 queens, of one colour or of both: the material sum passes 32767 at the 23rd beside a king.
fn queens(random: &mut Random) -> Position {
    let of = random.pick(&[&[WHITE_QUEEN][..], &[BLACK_QUEEN], &[WHITE_QUEEN, BLACK_QUEEN]]);
    let (mut board, side) = with_kings(&[WHITE_KING, BLACK_KING], 12, 40, of, random);
    let count = random.below(4) as usize;
    scattered(&mut board, count, &NO_KING, random);
    (board, side)
}

fn several_kings(random: &mut Random) -> Position {
    let kings = [WHITE_KING, BLACK_KING];
    let mut board = [EMPTY; 64];
    let count = random.between(2, 7) as usize;
    scattered(&mut board, count, &kings, random);
    let count = random.below(20) as usize;
    scattered(&mut board, count, &NO_KING, random);
    (board, random.below(2) as Color)
}

/// Pawns on any rank, the first and the last among them.
fn pawns(random: &mut Random) -> Position {
    let mut board = [EMPTY; 64];
    scattered(&mut board, 1, &[WHITE_KING], random);
    scattered(&mut board, 1, &[BLACK_KING], random);
    for _ in 0..random.between(1, 8) {
        let edge = random.pick(&[0, 56]) + random.below(8) as usize;
        if board[edge] == EMPTY {
            board[edge] = random.pick(&[WHITE_PAWN, BLACK_PAWN]);
        }
    }
    let count = random.below(20) as usize;
    scattered(&mut board, count, &[WHITE_PAWN, BLACK_PAWN], random);
    (board, random.below(2) as Color)
}

/// At most five pieces, kings, knights and bishops preferred: the draws and what is next to them.
fn few(random: &mut Random) -> Position {
    let kings = [WHITE_KING, BLACK_KING];
    let minor = [WHITE_KING, BLACK_KING, WHITE_KNIGHT, BLACK_KNIGHT, WHITE_BISHOP, BLACK_BISHOP];
    let mut board = [EMPTY; 64];
    let count = random.pick(&[0, 1, 2, 2, 2, 2]);
    scattered(&mut board, count, &kings, random);
    let count = random.below(3) as usize;
    scattered(&mut board, count, &minor, random);
    if random.one_in(4) {
        scattered(&mut board, 1, &NO_KING, random);
    }
    (board, random.below(2) as Color)
}

/// The kinds that can attack a square from another, beside the queen; nothing where none can.
fn fitting(target: u8, square: u8) -> &'static [Piece] {
    let on = |piece: Piece| piece_attacks(piece, target, 0) & 1 << square != 0;
    if on(KNIGHT) {
        &[KNIGHT]
    } else if on(BISHOP) {
        if on(KING) {
            &[PAWN, PAWN, BISHOP, QUEEN, KING]
        } else {
            &[BISHOP, QUEEN]
        }
    } else if on(ROOK) {
        if on(KING) {
            &[ROOK, ROOK, QUEEN, KING]
        } else {
            &[ROOK, QUEEN]
        }
    } else {
        &[]
    }
}

/// Many attackers of one square, of both colours and on every line, at times with pieces that only stand in the way.
fn exchange(random: &mut Random) -> Position {
    let target = random.square();
    let side = random.below(2) as Color;
    let mut board = [EMPTY; 64];
    board[target as usize] = side ^ 1 | random.pick(&PIECES[..5]);
    for _ in 0..random.between(4, 120) {
        let square = random.square();
        if board[square as usize] != EMPTY || placement::pieces_on(&board) == 32 {
            continue;
        }
        let fit = if random.one_in(10) { &PIECES[..] } else { fitting(target, square) };
        if !fit.is_empty() {
            let piece = random.pick(fit) | random.below(2) as Color;
            let second_king = piece.is_king() && many(&board, piece) > 0;
            board[square as usize] = if second_king { piece.color() | QUEEN } else { piece };
        }
    }
    (board, side)
}

/// The longest exchange turned, mirrored, its colours changed, and at times one piece more or less its own.
fn thirty_one(random: &mut Random) -> Position {
    let (from, side) = placement::read(LONGEST);
    let (turn, colours) = (random.below(8) as usize, random.below(2) as Color);
    let mut board = [EMPTY; 64];
    for square in 0..64 {
        let (mut rank, mut file) = (square / 8, square % 8);
        rank = if turn & 1 != 0 { 7 - rank } else { rank };
        file = if turn & 2 != 0 { 7 - file } else { file };
        let turned = if turn & 4 != 0 { 8 * file + rank } else { 8 * rank + file };
        let piece = from[square];
        board[turned] = if piece == EMPTY { EMPTY } else { piece ^ colours };
    }
    if random.one_in(2) {
        let square = random.square() as usize;
        if board[square] != EMPTY {
            board[square] = random.pick(&NO_KING);
        }
    }
    (board, side ^ colours)
}

/// One clause of SCORE at a time; where the search fails, another clause is tried.
fn alone(random: &mut Random) -> Position {
    loop {
        let clause = random.pick(&CLAUSES);
        if let Some(position) = climb::alone(clause, random) {
            return position;
        }
    }
}
