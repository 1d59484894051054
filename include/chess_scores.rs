//! Chess scores, exchanges and traces, every one proved: a safe face of the library's doors (`chess_scores.h`), with no dependencies.
//!
//! ```
//! use chess_scores::{read_line, Outcome, Refusal};
//!
//! let (position, half_points) = read_line(b"4k3/8/8/8/8/8/4P3/4K3 w - - 0 1;1-0")?;
//! assert_eq!(half_points, 2);
//! assert_eq!(position.eval()?, Outcome::Score(117));
//! assert_eq!(read_line(b"4k3/8/8/8/8/8/4P3/4K3 b;1/2").err(), Some(Refusal::Result));
//! # Ok::<(), Refusal>(())
//! ```
//!
//! Every function answers, or refuses with the first [`Refusal`] in the order that its documentation names, and then has changed nothing.
//! A [`Position`] can be filled by hand: one that is not consistent is refused, never scored.

use std::fmt;

/// The library's doors, as `chess_scores.h` declares them.
pub(crate) mod doors {
    use super::{Code, Line, Part, State};

    extern "C" {
        pub fn chess_read_line(line: *const u8, n: usize, bitboards: *mut u64, b: usize, board: *mut u8, s: usize) -> Line;
        pub fn chess_read_profile(line: *const u8, n: usize, bitboards: *mut u64, b: usize, board: *mut u8, s: usize) -> Line;
        pub fn chess_profile(bitboards: *const u64, b: usize, board: *const u8, s: usize, state: State) -> Code;
        pub fn chess_position_field(line: *const u8, n: usize) -> Part;
        pub fn chess_write_line(bitboards: *const u64, b: usize, board: *const u8, s: usize, state: State, request: u8, half_points: u8, out: *mut u8, n: usize, length: *mut usize) -> Code;
        pub fn chess_read_record(run: *const u8, n: usize, number: u64, bitboards: *mut u64, b: usize, board: *mut u8, s: usize) -> Line;
        pub fn chess_write_record(bitboards: *const u64, b: usize, board: *const u8, s: usize, state: State, half_points: u8, place: *mut u8, p: usize) -> Code;
        pub fn chess_add_record(bitboards: *const u64, b: usize, board: *const u8, s: usize, state: State, half_points: u8, run: *mut u8, n: usize, summary: *mut u64, m: usize) -> Code;
        pub fn chess_replace_record(bitboards: *const u64, b: usize, board: *const u8, s: usize, state: State, half_points: u8, number: u64, run: *mut u8, n: usize, summary: *mut u64, m: usize) -> Code;
        pub fn chess_join_summary(summary: *mut u64, m: usize, more: *const u64, n: usize) -> Code;
        pub fn chess_eval_ending(bitboards: *const u64, b: usize, board: *const u8, s: usize, state: State, verdict: *mut u8) -> Code;
        pub fn chess_eval_material(bitboards: *const u64, b: usize, board: *const u8, s: usize, state: State, color: u8, material: *mut i16) -> Code;
        pub fn chess_eval(bitboards: *const u64, b: usize, board: *const u8, s: usize, state: State, verdict: *mut u8, score: *mut i16) -> Code;
        pub fn chess_piece_attacks(piece: u8, square: u8, occupied: u64, squares: *mut u64) -> Code;
        pub fn chess_attacks_to(bitboards: *const u64, b: usize, board: *const u8, s: usize, state: State, square: u8, occupied: u64, squares: *mut u64) -> Code;
        pub fn chess_is_attacked(bitboards: *const u64, b: usize, board: *const u8, s: usize, state: State, square: u8, color: u8, attacked: *mut bool) -> Code;
        pub fn chess_is_check(bitboards: *const u64, b: usize, board: *const u8, s: usize, state: State, color: u8, check: *mut bool) -> Code;
        pub fn chess_lvp(bitboards: *const u64, b: usize, board: *const u8, s: usize, state: State, order: *const u8, color: u8, attacks: u64, occupied: u64, found: *mut bool, square: *mut u8, kind: *mut u8) -> Code;
        pub fn chess_see(bitboards: *const u64, b: usize, board: *const u8, s: usize, state: State, mode: u8, order: *const u8, from: u8, to: u8, worth: *mut i16) -> Code;
        pub fn chess_captures(bitboards: *const u64, b: usize, board: *const u8, s: usize, state: State, mode: u8, order: *const u8, from: u8, to: u8, squares: *mut u8, kinds: *mut u8, taken: *mut u16, count: *mut usize, stop: *mut usize) -> Code;
        pub fn chess_compute_trace(bitboards: *const u64, b: usize, board: *const u8, s: usize, state: State, counts: *mut i32, mobility: *mut i32, sign: *mut i32, pieces: *mut i32, entries: *mut i32, e: usize) -> Code;
        pub fn chess_trace_eval(counts: *const i32, mobility: *const i32, sign: i32, pieces: i32, entries: *const i32, e: usize, weights: *const f64, squares: *const f64, w: usize, value: *mut f64) -> Code;
        pub fn chess_gradient_add(counts: *const i32, mobility: *const i32, sign: i32, pieces: i32, entries: *const i32, e: usize, coefficient: f64, gradient: *mut f64, g: usize) -> Code;
        pub fn chess_adam_step(gradient: *const f64, g: usize, m: *mut f64, f: usize, v: *mut f64, s: usize, weights: *mut f64, w: usize, iteration: u64, rate: f64) -> Code;
        pub fn chess_table_coefficient(value: f64, half_points: u8, k: f64, lines: u64, expected: *mut f64, coefficient: *mut f64) -> Code;
        pub fn chess_compute_list(bitboards: *const u64, b: usize, board: *const u8, s: usize, state: State, counts: *mut i32, mobility: *mut i32, sign: *mut i32, pieces: *mut i32, used: *mut u8, list: *mut u8) -> Code;
        pub fn chess_list_of(counts: *const i32, mobility: *const i32, sign: i32, pieces: i32, entries: *const i32, e: usize, used: *mut u8, list: *mut u8) -> Code;
        pub fn chess_flat_of(counts: *const i32, mobility: *const i32, sign: i32, pieces: i32, used: u8, list: *const u8, entries: *mut i32, e: usize) -> Code;
        pub fn chess_list_eval(counts: *const i32, mobility: *const i32, sign: i32, pieces: i32, used: u8, list: *const u8, weights: *const f64, squares: *const f64, w: usize, value: *mut f64) -> Code;
        pub fn chess_list_add(counts: *const i32, mobility: *const i32, sign: i32, pieces: i32, used: u8, list: *const u8, coefficient: f64, gradient: *mut f64, g: usize) -> Code;
        pub fn chess_shipped_weights(weights: *mut f64, squares: *mut f64, w: usize) -> Code;
        pub fn chess_ledger_feed(state: *mut u64, line: *mut u8, l: usize, piece: *const u8, p: usize, out: *mut u8, o: usize, wrote: *mut usize) -> Code;
        pub fn chess_ledger_finish(state: *const u64, line: *const u8, l: usize, out: *mut u8, o: usize, wrote: *mut usize) -> Code;
        pub fn chess_samples_feed(state: *mut u64, line: *mut u8, l: usize, piece: *const u8, p: usize, samples: *mut u8, s: usize, rows: *mut u8, r: usize, sampled: *mut usize, wrote: *mut usize) -> Code;
        pub fn chess_samples_finish(state: *const u64, line: *const u8, l: usize, samples: *mut u8, s: usize, rows: *mut u8, r: usize, sampled: *mut usize, wrote: *mut usize) -> Code;
        pub fn chess_expected(score: i16) -> u32;
        pub fn chess_error_add(totals: *mut u64, side: u8, some: bool, score: i16, half_points: u8) -> Code;
        pub fn chess_error_feed(state: *mut u64, line: *mut u8, l: usize, piece: *const u8, p: usize) -> Code;
        pub fn chess_error_end(state: *const u64, line: *const u8, l: usize, totals: *mut u64, lines: *mut u64) -> Code;
        pub fn chess_error_join(totals: *mut u64, lines: *mut u64, more: *const u64, others: u64) -> Code;
    }
}

/// White's number.
pub const WHITE: u8 = 0;
/// Black's number.
pub const BLACK: u8 = 1;

/// A piece's code, for White; Black's is one more.
pub const PAWN: u8 = 2;
pub const KNIGHT: u8 = 4;
pub const KING: u8 = 6;
pub const BISHOP: u8 = 8;
pub const ROOK: u8 = 10;
pub const QUEEN: u8 = 12;

/// Document 01's order of the kinds, pawn 0 to king 5, the first to take first: the original's.
pub const ORDER: [u8; 6] = [0, 1, 2, 3, 4, 5];

/// The modes of an exchange: the original's; and one in which a pawn may take en passant as the first capture, and a pawn that captures onto the last rank
/// counts as a queen from then on, 913 added to what that capture takes.
#[derive(Clone, Copy, Debug, PartialEq, Eq)]
#[repr(u8)]
pub enum Mode {
    First = 0,
    Second = 1,
}

/// Why a call is refused: the table of documents 01 and 02, with the square that some name. 2 was BOARD: 14 to 16 come where it came, and
/// nothing has its number again.
#[derive(Clone, Copy, Debug, PartialEq, Eq)]
pub enum Refusal {
    /// A length, a side, a colour or a piece code that none has.
    Shape,
    /// A number leaves 16 bits on the way to the score.
    Score,
    /// A square above 63.
    Square,
    /// No capture by the side to move.
    Move,
    /// Over 32 pieces, or two or more kings of one colour.
    Crowd,
    /// A number of a trace out of its range.
    Trace,
    /// A line over 256 bytes.
    Long,
    /// A byte other than 32 to 126, tab and CR.
    Byte,
    /// No `;`.
    Field,
    /// Bad ranks.
    Place,
    /// Bad side.
    Side,
    /// Unknown result.
    Result,
    /// Two piece boards overlap; with the lowest such square.
    Overlap(u8),
    /// A colour's union is wrong; with the lowest such square.
    Union(u8),
    /// A board byte disagrees; with the lowest such square.
    Byteboard(u8),
    /// Too little room for what is written.
    Room,
    /// Records that are no multiple of 34 bytes, or a place that is not 34.
    Length,
    /// A half byte that is no piece's; with the lowest such square.
    Code(u8),
    /// Six kinds that are not each kind once.
    Order,
    /// A list of a trace out of its ranges, out of order or too long.
    Entry,
    /// More lines or records than are taken.
    Many,
    /// An iteration number of zero or above 1,000,000.
    Iteration,
    /// Not one king a colour.
    Kings,
    /// Over eight pawns of a colour.
    Pawns,
    /// Over sixteen pieces of a colour.
    Pieces,
    /// A pawn on the first or last rank; with the lowest such square.
    Rank(u8),
    /// The side that just moved is in check; with the king's square.
    Check(u8),
    /// Bad castling rights.
    Rights,
    /// Bad en passant square.
    Passant,
    /// Bad counter.
    Counter,
    /// No such record.
    Absent,
    /// A number that this face of the library does not know, and the square beside it.
    Unknown(u8, Option<u8>),
}

impl Refusal {
    /// The documents' number.
    pub fn number(self) -> u8 {
        use Refusal::*;
        match self {
            Shape => 1,
            Score => 3,
            Square => 4,
            Move => 5,
            Crowd => 6,
            Trace => 7,
            Long => 8,
            Byte => 9,
            Field => 10,
            Place => 11,
            Side => 12,
            Result => 13,
            Overlap(_) => 14,
            Union(_) => 15,
            Byteboard(_) => 16,
            Room => 17,
            Length => 18,
            Code(_) => 19,
            Order => 20,
            Entry => 21,
            Many => 22,
            Iteration => 23,
            Kings => 24,
            Pawns => 25,
            Pieces => 26,
            Rank(_) => 27,
            Check(_) => 28,
            Rights => 29,
            Passant => 30,
            Counter => 31,
            Absent => 32,
            Unknown(number, _) => number,
        }
    }

    /// The square that it names.
    pub fn square(self) -> Option<u8> {
        use Refusal::*;
        match self {
            Overlap(square) | Union(square) | Byteboard(square) | Code(square) | Rank(square) | Check(square) => Some(square),
            Unknown(_, square) => square,
            _ => None,
        }
    }

    /// The refusal that a door gave. What the table has not, a number or a square, is kept as it came.
    fn of(code: Code) -> Refusal {
        use Refusal::*;
        const PLAIN: [Refusal; 25] = [
            Shape, Score, Square, Move, Crowd, Trace, Long, Byte,
            Field, Place, Side, Result, Room, Length, Order, Entry, Many,
            Iteration, Kings, Pawns, Pieces, Rights, Passant, Counter, Absent,
        ];
        let square = (code.square != NO_SQUARE).then_some(code.square);
        let known = match square {
            None => PLAIN.into_iter().find(|refusal| refusal.number() == code.number),
            Some(at) => [Overlap(at), Union(at), Byteboard(at), Code(at), Rank(at), Check(at)].into_iter().find(|refusal| refusal.number() == code.number),
        };
        known.unwrap_or(Unknown(code.number, square))
    }
}

impl fmt::Display for Refusal {
    fn fmt(&self, out: &mut fmt::Formatter) -> fmt::Result {
        write!(out, "refused {}", self.number())?;
        match self.square() {
            Some(square) if square < 64 => write!(out, " at {}{}", (b'a' + square % 8) as char, (b'1' + square / 8) as char),
            Some(square) => write!(out, " at {square}"),
            None => Ok(()),
        }
    }
}

impl std::error::Error for Refusal {}

/// What a door returns: 0, or a refusal's number and the square that it names.
#[doc(hidden)]
#[repr(C)]
#[derive(Clone, Copy)]
pub struct Code {
    pub number: u8,
    pub square: u8,
}

/// What stands for the square where there is none.
pub const NO_SQUARE: u8 = 255;

/// What a door gave, once it has written it.
fn given<T>(code: Code, answer: T) -> Result<T, Refusal> {
    match code.number {
        0 => Ok(answer),
        _ => Err(Refusal::of(code)),
    }
}

/// How a game stands that a verdict ends, for the side to move.
#[derive(Clone, Copy, Debug, PartialEq, Eq)]
pub enum Verdict {
    Lost,
    Won,
    Drawn,
}

fn verdict(number: u8) -> Option<Verdict> {
    [None, Some(Verdict::Lost), Some(Verdict::Won), Some(Verdict::Drawn)][number as usize]
}

/// A verdict, or the score for the side to move.
#[derive(Clone, Copy, Debug, PartialEq, Eq)]
pub enum Outcome {
    Verdict(Verdict),
    Score(i16),
}

#[doc(hidden)]
#[repr(C)]
pub struct Part {
    start: usize,
    length: usize,
}

/// What a position says beside its pieces: the side to move, a right to castle for each rook (K, Q, k and q in a line), the square that a pawn has just passed,
/// or [`NO_SQUARE`], and the counters, half moves 0 to 9999 and moves 1 to 9999.
///
/// A right needs its king and rook at home (RIGHTS). The square is empty, on rank 6 with White to move and a black pawn just below it, or on rank 3 with Black
/// to move and a white pawn just above (PASSANT).
#[repr(C)]
#[derive(Clone, Copy, Debug, PartialEq, Eq)]
pub struct State {
    pub side: u8,
    pub white_short: bool,
    pub white_long: bool,
    pub black_short: bool,
    pub black_long: bool,
    pub passant: u8,
    pub halfmoves: u16,
    pub moves: u16,
}

impl State {
    /// A side to move, and nothing else given: no rights, no square, counters 0 and 1.
    pub const fn of_side(side: u8) -> State {
        State { side, white_short: false, white_long: false, black_short: false, black_long: false, passant: NO_SQUARE, halfmoves: 0, moves: 1 }
    }
}

/// What a reader says beside the boards.
#[doc(hidden)]
#[repr(C)]
pub struct Line {
    pub code: Code,
    pub state: State,
    pub half_points: u8,
}

/// 14 bitboards, 64 board bytes and a state.
///
/// Bitboard `c`, from 2 to 13, has the squares of the pieces of code `c`; 0 and 1 have all of White's and all of Black's. Square 0 is a1, 1
/// is b1, 63 is h8. A board byte is the code of the piece there, or 0.
#[derive(Clone, Copy, Debug, PartialEq, Eq)]
pub struct Position {
    pub bitboards: [u64; 14],
    pub board: [u8; 64],
    pub state: State,
}

/// Reads one line of a collection, without its LF and the CR before that: the position, and the half points for White.
/// LONG, BYTE, FIELD, PLACE, SIDE, RIGHTS, PASSANT, COUNTER, RESULT.
pub fn read_line(line: &[u8]) -> Result<(Position, u8), Refusal> {
    let mut read = Position { bitboards: [0; 14], board: [0; 64], state: State::of_side(WHITE) };
    // SAFETY: the pointers are those of slices and arrays, with their lengths, and none overlap.
    let said = unsafe { doors::chess_read_line(line.as_ptr(), line.len(), read.bitboards.as_mut_ptr(), 14, read.board.as_mut_ptr(), 64) };
    read.state = said.state;
    given(said.code, (read, said.half_points))
}

/// Reads one line whose position may come from real play: one king a colour, at most eight pawns and sixteen pieces a colour, king and pawns
/// counted, no pawn on the first or last rank, and the side that just moved not in check.
/// LONG, BYTE, FIELD, PLACE, SIDE, RIGHTS, PASSANT, COUNTER, RESULT, KINGS, PAWNS, PIECES, RANK, CHECK.
///
/// ```
/// # use chess_scores::{read_real_play, Refusal};
/// assert!(read_real_play(b"4k3/8/8/8/8/8/4R3/4K3 b;0-1").is_ok());
/// assert_eq!(read_real_play(b"4k3/8/8/8/8/8/4R3/4K3 w;0-1").err(), Some(Refusal::Check(60)));
/// ```
pub fn read_real_play(line: &[u8]) -> Result<(Position, u8), Refusal> {
    let mut read = Position { bitboards: [0; 14], board: [0; 64], state: State::of_side(WHITE) };
    // SAFETY: the pointers are those of slices and arrays, with their lengths, and none overlap.
    let said = unsafe { doors::chess_read_profile(line.as_ptr(), line.len(), read.bitboards.as_mut_ptr(), 14, read.board.as_mut_ptr(), 64) };
    read.state = said.state;
    given(said.code, (read, said.half_points))
}

/// The trimmed position field, as that part of the line; empty exactly if the line is refused.
///
/// ```
/// assert_eq!(chess_scores::position_field(b" 8/8/8/8/8/8/8/8 w ;0-1"), b"8/8/8/8/8/8/8/8 w");
/// assert_eq!(chess_scores::position_field(b"8/8/8/8/8/8/8/8 w"), b"");
/// ```
pub fn position_field(line: &[u8]) -> &[u8] {
    // SAFETY: the pointer is that of a slice, with its length.
    let part = unsafe { doors::chess_position_field(line.as_ptr(), line.len()) };
    &line[part.start..part.start + part.length]
}

/// The bytes of a record.
pub const RECORD: usize = 34;

/// Reads the record of a number, from 0, in a run of records of 34 bytes: the position, and the half points for White.
/// LENGTH, ABSENT, CODE with the lowest square, SIDE, RESULT.
pub fn read_record(run: &[u8], number: u64) -> Result<(Position, u8), Refusal> {
    let mut read = Position { bitboards: [0; 14], board: [0; 64], state: State::of_side(WHITE) };
    // SAFETY: the pointers are those of slices and arrays, with their lengths, and none overlap.
    let said = unsafe { doors::chess_read_record(run.as_ptr(), run.len(), number, read.bitboards.as_mut_ptr(), 14, read.board.as_mut_ptr(), 64) };
    read.state = said.state;
    given(said.code, (read, said.half_points))
}

/// The numbers of a store's summary: records, half points, and 64 for each piece in the order of the codes. All 0 for a store without records.
pub const SUMMARY: usize = 770;

/// The squares that a piece of a code attacks from a square, each ray up to and including the first square of `occupied`.
/// SHAPE, SQUARE.
pub fn piece_attacks(piece: u8, square: u8, occupied: u64) -> Result<u64, Refusal> {
    let mut squares = 0;
    // SAFETY: the pointer is that of a local.
    let code = unsafe { doors::chess_piece_attacks(piece, square, occupied, &mut squares) };
    given(code, squares)
}

// SAFETY, of every call below: the pointers are those of the position's arrays, of slices and of locals, with their lengths, and none of
// those written through overlaps another.
/// A capture: the square that it is made from, the kind that makes it, the value that it takes.
#[derive(Clone, Copy, Debug, PartialEq, Eq)]
pub struct Capture {
    pub from: u8,
    pub kind: u8,
    pub taken: u16,
}

/// The captures of an exchange, and before which of them, counted from 0, it stops; none where it is played out.
#[derive(Clone, Debug, PartialEq, Eq)]
pub struct Captures {
    pub captures: Vec<Capture>,
    pub stop: Option<usize>,
}

impl Position {
    /// The record of the position and its half points for White: 34 bytes, which `read_record` reads back.
    /// SHAPE, OVERLAP, UNION, BYTEBOARD, RIGHTS, PASSANT, COUNTER, RESULT.
    pub fn record(&self, half_points: u8) -> Result<[u8; RECORD], Refusal> {
        let mut place = [0; RECORD];
        let code = unsafe { doors::chess_write_record(self.bitboards.as_ptr(), 14, self.board.as_ptr(), 64, self.state, half_points, place.as_mut_ptr(), RECORD) };
        given(code, place)
    }

    /// The record of the position in a run, at the number that the summary counts to, and counted; a refusal changes neither.
    /// SHAPE, OVERLAP, UNION, BYTEBOARD, RIGHTS, PASSANT, COUNTER, RESULT, LENGTH, MANY, ROOM.
    pub fn add_record(&self, half_points: u8, run: &mut [u8], summary: &mut [u64]) -> Result<(), Refusal> {
        let code = unsafe {
            doors::chess_add_record(self.bitboards.as_ptr(), 14, self.board.as_ptr(), 64, self.state, half_points, run.as_mut_ptr(), run.len(), summary.as_mut_ptr(), summary.len())
        };
        given(code, ())
    }

    /// The record of the position in the place of a number's, which is taken off the summary; a refusal changes neither.
    /// SHAPE, OVERLAP, UNION, BYTEBOARD, RIGHTS, PASSANT, COUNTER, RESULT, LENGTH, ABSENT, CODE, SIDE, RESULT, ABSENT.
    pub fn replace_record(&self, half_points: u8, number: u64, run: &mut [u8], summary: &mut [u64]) -> Result<(), Refusal> {
        let code = unsafe {
            doors::chess_replace_record(self.bitboards.as_ptr(), 14, self.board.as_ptr(), 64, self.state, half_points, number, run.as_mut_ptr(), run.len(), summary.as_mut_ptr(), summary.len())
        };
        given(code, ())
    }

    /// The verdict, or none. SHAPE, OVERLAP, UNION, BYTEBOARD, RIGHTS, PASSANT, COUNTER.
    pub fn eval_ending(&self) -> Result<Option<Verdict>, Refusal> {
        let mut ending = 0;
        let code = unsafe { doors::chess_eval_ending(self.bitboards.as_ptr(), 14, self.board.as_ptr(), 64, self.state, &mut ending) };
        given(code, verdict(ending))
    }

    /// What a colour's pieces are worth, without the pair of bishops. SHAPE, OVERLAP, UNION, BYTEBOARD, RIGHTS, PASSANT, COUNTER, SCORE.
    pub fn eval_material(&self, color: u8) -> Result<i16, Refusal> {
        let mut material = 0;
        let code = unsafe { doors::chess_eval_material(self.bitboards.as_ptr(), 14, self.board.as_ptr(), 64, self.state, color, &mut material) };
        given(code, material)
    }

    /// The verdict, or the score for the side to move. SHAPE, OVERLAP, UNION, BYTEBOARD, RIGHTS, PASSANT, COUNTER, SCORE.
    pub fn eval(&self) -> Result<Outcome, Refusal> {
        let (mut ending, mut score) = (0, 0);
        let code = unsafe { doors::chess_eval(self.bitboards.as_ptr(), 14, self.board.as_ptr(), 64, self.state, &mut ending, &mut score) };
        given(code, verdict(ending).map_or(Outcome::Score(score), Outcome::Verdict))
    }

    /// The squares of the pieces of both colours that attack a square, whether they stand in `occupied` or not. SHAPE, OVERLAP, UNION, BYTEBOARD, RIGHTS, PASSANT, COUNTER, SQUARE.
    pub fn attacks_to(&self, square: u8, occupied: u64) -> Result<u64, Refusal> {
        let mut squares = 0;
        let code = unsafe { doors::chess_attacks_to(self.bitboards.as_ptr(), 14, self.board.as_ptr(), 64, self.state, square, occupied, &mut squares) };
        given(code, squares)
    }

    /// Whether a piece of the colour other than the one named attacks a square. SHAPE, OVERLAP, UNION, BYTEBOARD, RIGHTS, PASSANT, COUNTER, SQUARE.
    pub fn is_attacked(&self, square: u8, color: u8) -> Result<bool, Refusal> {
        let mut attacked = false;
        let code = unsafe { doors::chess_is_attacked(self.bitboards.as_ptr(), 14, self.board.as_ptr(), 64, self.state, square, color, &mut attacked) };
        given(code, attacked)
    }

    /// Refused where the position can't come from real play. SHAPE, OVERLAP, UNION, BYTEBOARD, RIGHTS, PASSANT, COUNTER, KINGS, PAWNS, PIECES, RANK, CHECK.
    pub fn real_play(&self) -> Result<(), Refusal> {
        let code = unsafe { doors::chess_profile(self.bitboards.as_ptr(), 14, self.board.as_ptr(), 64, self.state) };
        given(code, ())
    }

    /// Whether the colour's king is attacked, the lowest if it has several; true if it has none. SHAPE, OVERLAP, UNION, BYTEBOARD, RIGHTS, PASSANT, COUNTER.
    pub fn is_check(&self, color: u8) -> Result<bool, Refusal> {
        let mut check = false;
        let code = unsafe { doors::chess_is_check(self.bitboards.as_ptr(), 14, self.board.as_ptr(), 64, self.state, color, &mut check) };
        given(code, check)
    }

    /// The lowest square of the first kind in the order that has a piece of the colour in `attacks` and `occupied`, and that kind; or none. SHAPE, OVERLAP, UNION, BYTEBOARD, RIGHTS, PASSANT, COUNTER, ORDER.
    pub fn lvp(&self, order: &[u8; 6], color: u8, attacks: u64, occupied: u64) -> Result<Option<(u8, u8)>, Refusal> {
        let (mut found, mut square, mut kind) = (false, 0, 0);
        let code = unsafe {
            doors::chess_lvp(self.bitboards.as_ptr(), 14, self.board.as_ptr(), 64, self.state, order.as_ptr(), color, attacks, occupied, &mut found, &mut square, &mut kind)
        };
        given(code, found.then_some((square, kind)))
    }

    /// What the exchange that a capture starts is worth to the side to move, in a mode and the kinds capturing in the order. SHAPE, OVERLAP, UNION, BYTEBOARD, RIGHTS, PASSANT, COUNTER, SQUARE, ORDER, MOVE, CROWD.
    pub fn see(&self, mode: Mode, order: &[u8; 6], from: u8, to: u8) -> Result<i16, Refusal> {
        let mut worth = 0;
        let code = unsafe { doors::chess_see(self.bitboards.as_ptr(), 14, self.board.as_ptr(), 64, self.state, mode as u8, order.as_ptr(), from, to, &mut worth) };
        given(code, worth)
    }

    /// The text of the position at the front of `out`, with `;` and the result of half points where some are handed over, and how many bytes that is; the
    /// bytes after it stay. 91 bytes hold every position, 99 every line. SHAPE, OVERLAP, UNION, BYTEBOARD, RIGHTS, PASSANT, COUNTER, RESULT, ROOM.
    ///
    /// ```
    /// let (position, half) = chess_scores::read_line(b"4k3/8/8/8/8/8/4P3/4K3  w - - 0 1;1-0; e4").unwrap();
    /// let mut line = [0; 99];
    /// let n = position.write_line(Some(half), &mut line).unwrap();
    /// assert_eq!(&line[..n], b"4k3/8/8/8/8/8/4P3/4K3 w - - 0 1;1-0");
    /// ```
    pub fn write_line(&self, half_points: Option<u8>, out: &mut [u8]) -> Result<usize, Refusal> {
        let mut length = 0;
        let code = unsafe {
            doors::chess_write_line(
                self.bitboards.as_ptr(), 14, self.board.as_ptr(), 64, self.state, half_points.is_some() as u8, half_points.unwrap_or(0), out.as_mut_ptr(), out.len(), &mut length,
            )
        };
        given(code, length)
    }

    /// The captures of that exchange in order, those after the stopping point too, and before which of them it stops, if it does. SHAPE, OVERLAP, UNION, BYTEBOARD, RIGHTS, PASSANT, COUNTER, SQUARE, ORDER, MOVE, CROWD.
    pub fn captures(&self, mode: Mode, order: &[u8; 6], from: u8, to: u8) -> Result<Captures, Refusal> {
        let (mut squares, mut kinds, mut taken, mut count, mut stop) = ([0; 32], [0; 32], [0; 32], 0, 0);
        let code = unsafe {
            doors::chess_captures(
                self.bitboards.as_ptr(), 14, self.board.as_ptr(), 64, self.state, mode as u8, order.as_ptr(), from, to, squares.as_mut_ptr(), kinds.as_mut_ptr(), taken.as_mut_ptr(), &mut count, &mut stop,
            )
        };
        let captures = (0..count).map(|i| Capture { from: squares[i], kind: kinds[i], taken: taken[i] }).collect();
        given(code, Captures { captures, stop: (stop < count).then_some(stop) })
    }

    /// The position's trace. SHAPE, OVERLAP, UNION, BYTEBOARD, RIGHTS, PASSANT, COUNTER.
    pub fn trace(&self) -> Result<Trace, Refusal> {
        let mut trace = Trace { counts: [0; 12], mobility: [0; 12], sign: 0, piece_count: 0, entries: [0; 768] };
        let code = unsafe {
            doors::chess_compute_trace(self.bitboards.as_ptr(), 14, self.board.as_ptr(), 64, self.state, trace.counts.as_mut_ptr(),
                trace.mobility.as_mut_ptr(), &mut trace.sign, &mut trace.piece_count, trace.entries.as_mut_ptr(), 768)
        };
        given(code, trace)
    }
}

/// What the weights are fitted to. Kinds run 0 to 5: pawn, knight, bishop, rook, queen, king.
#[derive(Clone, Debug, PartialEq, Eq)]
pub struct Trace {
    /// At `2 * kind + colour` the pieces of the first five kinds, and at `10 + colour` 1 for two or more bishops.
    pub counts: [i32; 12],
    /// At `2 * kind + colour` the attacked squares.
    pub mobility: [i32; 12],
    /// 1 for White to move, -1 for Black.
    pub sign: i32,
    pub piece_count: i32,
    /// At `128 * kind + 2 * square + colour` 1 where a piece stands, Black's squares xor 56.
    pub entries: [i32; 768],
}

/// The weights of a trace's double.
#[derive(Clone, Debug, PartialEq)]
pub struct Weights {
    /// Pawn, knight, bishop, rook, queen, pair of bishops, mobility of knight, bishop, rook and queen, tempo.
    pub named: [f64; 11],
    /// At `128 * kind + 64 * phase + square`, phase 0 the opening and 1 the ending.
    pub squares: [f64; 768],
}

impl Weights {
    /// The weights that the score has.
    pub fn shipped() -> Weights {
        let mut weights = Weights { named: [0.0; 11], squares: [0.0; 768] };
        // SAFETY: the pointers are those of a local's arrays, with their lengths.
        let code = unsafe { doors::chess_shipped_weights(weights.named.as_mut_ptr(), weights.squares.as_mut_ptr(), 768) };
        debug_assert_eq!(code.number, 0, "768 square weights are never refused");
        weights
    }
}

impl Trace {
    /// The double of the trace, in the order of the original's operations, one rounding for each. TRACE.
    ///
    /// ```
    /// # use chess_scores::{read_line, Refusal, Weights};
    /// let (position, _) = read_line(b"4k3/8/8/8/8/8/4P3/4K3 w;1-0")?;
    /// let shown = position.trace()?.eval(&Weights::shipped())?;
    /// assert!((shown - 117.0).abs() < 85.0 / 30.0);
    /// # Ok::<(), Refusal>(())
    /// ```
    pub fn eval(&self, weights: &Weights) -> Result<f64, Refusal> {
        let mut value = 0.0;
        // SAFETY: the pointers are those of the arrays of two references and of a local, with their lengths.
        let code = unsafe {
            doors::chess_trace_eval(self.counts.as_ptr(), self.mobility.as_ptr(), self.sign, self.piece_count, self.entries.as_ptr(), 768,
                weights.named.as_ptr(), weights.squares.as_ptr(), 768, &mut value)
        };
        given(code, value)
    }
}

impl Trace {
    /// Adds the line's part to the sums of a gradient, with a coefficient of the caller's. TRACE, and then nothing is added.
    pub fn add_gradient(&self, coefficient: f64, gradient: &mut [f64; WEIGHTS]) -> Result<(), Refusal> {
        // SAFETY: the pointers are those of the arrays of two references, with their lengths.
        let code = unsafe {
            doors::chess_gradient_add(self.counts.as_ptr(), self.mobility.as_ptr(), self.sign, self.piece_count, self.entries.as_ptr(), 768,
                coefficient, gradient.as_mut_ptr(), WEIGHTS)
        };
        given(code, ())
    }
}

/// A trace as a short list: at most 64 entries in the place of 768, and 193 bytes beside the counts.
///
/// ```
/// # use chess_scores::{read_line, Refusal, Weights};
/// let (position, _) = read_line(b"4k3/8/8/8/8/8/4P3/4K3 w;1-0")?;
/// let list = position.trace_list()?;
/// assert_eq!(list.used, 3);
/// assert_eq!(list.entries[..3], [[0, 12, 0], [5, 4, 0], [5, 4, 1]]); // the pawn on e2, both kings as their own side sees them
/// assert_eq!(list.flat()?, position.trace()?);
/// assert_eq!(list.eval(&Weights::shipped())?, position.trace()?.eval(&Weights::shipped())?);
/// # Ok::<(), Refusal>(())
/// ```
#[derive(Clone, Debug, PartialEq, Eq)]
pub struct TraceList {
    /// As a [`Trace`] has them.
    pub counts: [i32; 12],
    pub mobility: [i32; 12],
    pub sign: i32,
    pub piece_count: i32,
    /// How many entries are used.
    pub used: u8,
    /// Kind, square (Black's xor 56) and colour, sorted by those three; zeros after those that are used.
    pub entries: [[u8; 3]; 64],
}

impl TraceList {
    /// Its 768 entries. TRACE, ENTRY.
    pub fn flat(&self) -> Result<Trace, Refusal> {
        let TraceList { counts, mobility, sign, piece_count, .. } = *self;
        let mut trace = Trace { counts, mobility, sign, piece_count, entries: [0; 768] };
        // SAFETY: the pointers are those of the arrays of a reference and of a local, with their lengths.
        let code = unsafe {
            doors::chess_flat_of(self.counts.as_ptr(), self.mobility.as_ptr(), sign, piece_count, self.used, self.entries.as_ptr().cast(),
                trace.entries.as_mut_ptr(), 768)
        };
        given(code, trace)
    }

    /// The double, the same bits as the flat trace's or both NaN. TRACE, ENTRY.
    pub fn eval(&self, weights: &Weights) -> Result<f64, Refusal> {
        let mut value = 0.0;
        // SAFETY: the pointers are those of the arrays of two references and of a local, with their lengths.
        let code = unsafe {
            doors::chess_list_eval(self.counts.as_ptr(), self.mobility.as_ptr(), self.sign, self.piece_count, self.used, self.entries.as_ptr().cast(),
                weights.named.as_ptr(), weights.squares.as_ptr(), 768, &mut value)
        };
        given(code, value)
    }

    /// Adds the line's part to the sums of a gradient, bit for bit as the flat trace does. TRACE, ENTRY, and then nothing is added.
    pub fn add_gradient(&self, coefficient: f64, gradient: &mut [f64; WEIGHTS]) -> Result<(), Refusal> {
        // SAFETY: the pointers are those of the arrays of two references, with their lengths.
        let code = unsafe {
            doors::chess_list_add(self.counts.as_ptr(), self.mobility.as_ptr(), self.sign, self.piece_count, self.used, self.entries.as_ptr().cast(),
                coefficient, gradient.as_mut_ptr(), WEIGHTS)
        };
        given(code, ())
    }
}

impl Trace {
    /// As a list. TRACE, and ENTRY for more than 64 ones.
    pub fn list(&self) -> Result<TraceList, Refusal> {
        let Trace { counts, mobility, sign, piece_count, .. } = *self;
        let mut list = TraceList { counts, mobility, sign, piece_count, used: 0, entries: [[0; 3]; 64] };
        // SAFETY: the pointers are those of the arrays of a reference and of a local, with their lengths.
        let code = unsafe {
            doors::chess_list_of(self.counts.as_ptr(), self.mobility.as_ptr(), sign, piece_count, self.entries.as_ptr(), 768, &mut list.used,
                list.entries.as_mut_ptr().cast())
        };
        given(code, list)
    }
}

impl Position {
    /// Its trace as a list. SHAPE, OVERLAP, UNION, BYTEBOARD, RIGHTS, PASSANT, COUNTER.
    pub fn trace_list(&self) -> Result<TraceList, Refusal> {
        let mut list = TraceList { counts: [0; 12], mobility: [0; 12], sign: 0, piece_count: 0, used: 0, entries: [[0; 3]; 64] };
        // SAFETY: the pointers are those of the arrays of a reference and of a local, with their lengths.
        let code = unsafe {
            doors::chess_compute_list(self.bitboards.as_ptr(), 14, self.board.as_ptr(), 64, self.state, list.counts.as_mut_ptr(), list.mobility.as_mut_ptr(),
                &mut list.sign, &mut list.piece_count, &mut list.used, list.entries.as_mut_ptr().cast())
        };
        given(code, list)
    }
}

/// How many weights are fitted: the eleven that have a name, and the squares'.
pub const WEIGHTS: usize = 779;

/// What a fit keeps from iteration to iteration.
///
/// ```
/// # use chess_scores::{read_line, Fit, Refusal, WEIGHTS};
/// let (position, _) = read_line(b"4k3/8/8/8/8/8/4P3/4K3 w;1-0")?;
/// let (mut fit, mut gradient) = (Fit::shipped(), [0.0; WEIGHTS]);
/// position.trace()?.add_gradient(-0.001, &mut gradient)?;
/// fit.step(&gradient, 1, 1.0)?;
/// assert_eq!(fit.weights().named[0], 100.0); // the pawn never moves
/// assert!(fit.weights().named[10] > 11.0); // White to move has won: the tempo is worth more
/// # Ok::<(), Refusal>(())
/// ```
#[derive(Clone, Debug, PartialEq)]
pub struct Fit {
    pub first_moments: [f64; WEIGHTS],
    pub second_moments: [f64; WEIGHTS],
    /// In the order of `Weights`: the named ones, then the squares'.
    pub weights: [f64; WEIGHTS],
}

impl Fit {
    /// The weights that the score has, and moments of zeros.
    pub fn shipped() -> Fit {
        let Weights { named, squares } = Weights::shipped();
        let mut fit = Fit { first_moments: [0.0; WEIGHTS], second_moments: [0.0; WEIGHTS], weights: [0.0; WEIGHTS] };
        fit.weights[..11].copy_from_slice(&named);
        fit.weights[11..].copy_from_slice(&squares);
        fit
    }

    /// The step of an iteration, numbered from 1. ITERATION, and then nothing has changed.
    pub fn step(&mut self, gradient: &[f64; WEIGHTS], iteration: u64, rate: f64) -> Result<(), Refusal> {
        // SAFETY: the pointers are those of the arrays of two references, with their lengths.
        let code = unsafe {
            doors::chess_adam_step(gradient.as_ptr(), WEIGHTS, self.first_moments.as_mut_ptr(), WEIGHTS, self.second_moments.as_mut_ptr(), WEIGHTS,
                self.weights.as_mut_ptr(), WEIGHTS, iteration, rate)
        };
        given(code, ())
    }

    /// The weights as a trace's double takes them.
    pub fn weights(&self) -> Weights {
        let mut weights = Weights { named: [0.0; 11], squares: [0.0; 768] };
        weights.named.copy_from_slice(&self.weights[..11]);
        weights.squares.copy_from_slice(&self.weights[11..]);
        weights
    }
}

/// What a line of a fit lets expect, in points, and its coefficient, by the table of [`expected`] results: whole numbers and IEEE 754's operations alone, so the
/// same bits on every machine. The score is `k` times the line's double, rounded down to a whole number; an infinity counts as the table's end, a NaN stays a NaN.
/// SHAPE (no lines), RESULT.
///
/// ```
/// # use chess_scores::{table_coefficient, Refusal};
/// assert_eq!(table_coefficient(117.0, 2, 1.0, 1), Ok((0.660999, -0.0008745576722974041)));
/// assert_eq!(table_coefficient(117.0, 3, 1.0, 0), Err(Refusal::Shape));
/// ```
pub fn table_coefficient(value: f64, half_points: u8, k: f64, lines: u64) -> Result<(f64, f64), Refusal> {
    let (mut expected, mut coefficient) = (0.0, 0.0);
    // SAFETY: the pointers are those of two locals.
    let code = unsafe { doors::chess_table_coefficient(value, half_points, k, lines, &mut expected, &mut coefficient) };
    given(code, (expected, coefficient))
}

/// The ledger of a collection, fed in pieces of any size: a row for each line, and a last row with the totals.
///
/// ```
/// let mut ledger = chess_scores::Ledger::new();
/// let mut rows = Vec::new();
/// ledger.feed(b"4k3/8/8/8/8/8/4P3/4K3 w;1-0\n8/8/8/8/8/8/8/8 w;1/", &mut rows);
/// ledger.feed(b"2-1/2\n4k3/8/8/8/8/8/4P3/4K3 b;1/2", &mut rows);
/// ledger.finish(&mut rows);
/// assert_eq!(rows, b"1 2 117\n2 1 lost\n3 refused 13\nlines 3 loaded 2 refused 1\n");
/// ```
pub struct Ledger {
    state: [u64; 4],
    line: [u8; 256],
}

impl Default for Ledger {
    fn default() -> Ledger {
        Ledger::new()
    }
}

impl Ledger {
    /// The room that a row takes at most, and that which the last two take.
    const ROW: usize = 32;
    const LAST_ROWS: usize = 116;

    /// Before anything was read.
    pub fn new() -> Ledger {
        Ledger { state: [0; 4], line: [0; 256] }
    }

    /// The rows of the lines that end in a piece, added to `rows`. More lines than 64 bits count end in a panic, which leaves `rows` as it was.
    pub fn feed(&mut self, piece: &[u8], rows: &mut Vec<u8>) {
        let ends = piece.iter().filter(|&&byte| byte == b'\n').count();
        written(rows, ends * Ledger::ROW, |out, wrote| {
            // SAFETY: the pointers are those of the ledger's arrays and of slices, with their lengths, and none overlap.
            unsafe {
                doors::chess_ledger_feed(self.state.as_mut_ptr(), self.line.as_mut_ptr(), 256, piece.as_ptr(), piece.len(), out.as_mut_ptr(), out.len(), wrote)
            }
        });
    }

    /// The end of the input: the row of a last line that has no LF, and the last row, added to `rows`.
    pub fn finish(self, rows: &mut Vec<u8>) {
        written(rows, Ledger::LAST_ROWS, |out, wrote| {
            // SAFETY: as in `feed`.
            unsafe { doors::chess_ledger_finish(self.state.as_ptr(), self.line.as_ptr(), 256, out.as_mut_ptr(), out.len(), wrote) }
        });
    }
}

/// What a fit keeps of a loaded line: its list and its half points, as the doors write them.
#[repr(C)]
#[derive(Clone, Copy, Debug, PartialEq, Eq)]
pub struct Sample {
    pub counts: [i32; 12],
    pub mobility: [i32; 12],
    pub sign: i32,
    pub piece_count: i32,
    pub used: u8,
    pub half_points: u8,
    pub entries: [[u8; 3]; 64],
    pub zero: [u8; 2],
}

const _: () = assert!(std::mem::size_of::<Sample>() == Sample::BYTES);

impl Sample {
    /// The bytes of a sample.
    pub const BYTES: usize = 300;

    const NONE: Sample = Sample { counts: [0; 12], mobility: [0; 12], sign: 0, piece_count: 0, used: 0, half_points: 0, entries: [[0; 3]; 64], zero: [0; 2] };

    /// The list of its position.
    pub fn list(&self) -> TraceList {
        TraceList { counts: self.counts, mobility: self.mobility, sign: self.sign, piece_count: self.piece_count, used: self.used, entries: self.entries }
    }

    /// The numbers as this machine has them: they were written with the lowest byte first.
    fn turn(&mut self) {
        let numbers = self.counts.iter_mut().chain(&mut self.mobility);
        numbers.chain([&mut self.sign, &mut self.piece_count]).for_each(|number| *number = i32::from_le(*number));
    }
}

/// The samples of a collection for a fit, fed in pieces of any size: a sample for each loaded line, and the ledger's rows of the refused ones with its last row.
///
/// ```
/// let mut collection = chess_scores::Samples::new();
/// let (mut samples, mut rows) = (Vec::new(), Vec::new());
/// collection.feed(b"4k3/8/8/8/8/8/4P3/4K3 w;1-0\nx\n8/8/8/8/8/8/8/8 w;1/", &mut samples, &mut rows);
/// collection.feed(b"2-1/2", &mut samples, &mut rows);
/// collection.finish(&mut samples, &mut rows);
/// assert_eq!(rows, b"2 refused 10\nlines 3 loaded 2 refused 1\n");
/// assert_eq!((samples.len(), samples[0].half_points, samples[1].half_points), (2, 2, 1));
/// ```
pub struct Samples {
    state: [u64; 4],
    line: [u8; 256],
}

impl Default for Samples {
    fn default() -> Samples {
        Samples::new()
    }
}

impl Samples {
    /// Before anything was read.
    pub fn new() -> Samples {
        Samples { state: [0; 4], line: [0; 256] }
    }

    /// The samples of the loaded lines that end in a piece, and the rows of the refused ones, added. More lines than 64 bits count end in a panic.
    pub fn feed(&mut self, piece: &[u8], samples: &mut Vec<Sample>, rows: &mut Vec<u8>) {
        let ends = piece.iter().filter(|&&byte| byte == b'\n').count();
        sampled(samples, ends, |bytes, sampled| {
            written(rows, ends * Ledger::ROW, |out, wrote| {
                // SAFETY: the pointers are those of arrays of `self` and of slices, with their lengths, and none overlap; every byte of a sample may be any.
                unsafe {
                    doors::chess_samples_feed(self.state.as_mut_ptr(), self.line.as_mut_ptr(), 256, piece.as_ptr(), piece.len(), bytes.as_mut_ptr().cast(),
                        bytes.len() * Sample::BYTES, out.as_mut_ptr(), out.len(), sampled, wrote)
                }
            })
        });
    }

    /// The end of the input: the sample of a last line that has no LF, or its row, and the ledger's last row.
    pub fn finish(self, samples: &mut Vec<Sample>, rows: &mut Vec<u8>) {
        sampled(samples, 1, |bytes, sampled| {
            written(rows, Ledger::LAST_ROWS, |out, wrote| {
                // SAFETY: as in `feed`.
                unsafe {
                    doors::chess_samples_finish(self.state.as_ptr(), self.line.as_ptr(), 256, bytes.as_mut_ptr().cast(), bytes.len() * Sample::BYTES,
                        out.as_mut_ptr(), out.len(), sampled, wrote)
                }
            })
        });
    }
}

/// The samples that a door writes, added where there is room for so many.
fn sampled(samples: &mut Vec<Sample>, room: usize, door: impl FnOnce(&mut [Sample], &mut usize)) {
    let start = samples.len();
    let mut bytes = 0;
    samples.resize(start + room, Sample::NONE);
    door(&mut samples[start..], &mut bytes);
    samples.truncate(start + bytes / Sample::BYTES);
    samples[start..].iter_mut().for_each(Sample::turn);
}

/// The expected result of a score for White, in millionths of a point; in steps of four, and beyond 1600 and -1600 that of the end.
///
/// ```
/// assert_eq!(chess_scores::expected(0), 500_000);
/// assert_eq!(chess_scores::expected(-1), chess_scores::expected(-4));
/// ```
pub fn expected(score: i16) -> u32 {
    // SAFETY: nothing is lent.
    unsafe { doors::chess_expected(score) }
}

/// How far results lie from what scores let expect, line by line.
#[derive(Clone, Copy, Debug, Default, PartialEq, Eq)]
pub struct Totals {
    /// Lines with a score.
    pub scored: u64,
    /// Lines with a verdict, or whose score is refused as `Refusal::Score`.
    pub apart: u64,
    /// The squared distances of the former from their expected results, in millionths of millionths.
    pub sum: u64,
}

impl Totals {
    /// A line more, by its side to move, what [`Position::eval`] says of it (a score for that side, or none) and the half points for White.
    /// SHAPE (the side), RESULT (the half points), MANY (the 1,000,001st line of its kind, or a sum past 64 bits).
    pub fn add(&mut self, side: u8, score: Option<i16>, half_points: u8) -> Result<(), Refusal> {
        let mut numbers = [self.scored, self.apart, self.sum];
        // SAFETY: the pointer is that of an array of three numbers.
        let code = unsafe { doors::chess_error_add(numbers.as_mut_ptr(), side, score.is_some(), score.unwrap_or(0), half_points) };
        given(code, ())?;
        [self.scored, self.apart, self.sum] = numbers;
        Ok(())
    }
}

/// The totals of a collection, fed in pieces of any size.
///
/// ```
/// let mut error = chess_scores::CollectionError::new();
/// error.feed(b"4k3/8/8/8/8/8/4P3/4K3 w;1-0\n4k3/8/8/8/8/8/4P3/4K3 b;1/");
/// error.feed(b"2-1/2\n8/8/8/8/8/8/8/8 w;0-1\n4k3/8/8/8/8/8/4P3/4K3 b;1/2");
/// let (totals, refused) = error.end()?;
/// assert_eq!((totals.scored, totals.apart, totals.sum, refused), (2, 1, 131_662_932_545, 1));
/// # Ok::<(), chess_scores::Refusal>(())
/// ```
pub struct CollectionError {
    state: [u64; 7],
    line: [u8; 256],
}

impl Default for CollectionError {
    fn default() -> CollectionError {
        CollectionError::new()
    }
}

impl CollectionError {
    /// Before anything was read.
    pub fn new() -> CollectionError {
        CollectionError { state: [0; 7], line: [0; 256] }
    }

    /// The lines that end in a piece.
    pub fn feed(&mut self, piece: &[u8]) {
        // SAFETY: the pointers are those of arrays and of a slice, with their lengths, and none overlap.
        let code = unsafe { doors::chess_error_feed(self.state.as_mut_ptr(), self.line.as_mut_ptr(), 256, piece.as_ptr(), piece.len()) };
        assert_eq!(code.number, 0, "the line buffer has 256 bytes");
    }

    /// The end of the input, which ends a last line that has no LF: the totals, and how many lines were refused. MANY.
    pub fn end(self) -> Result<(Totals, u64), Refusal> {
        let (mut numbers, mut refused) = ([0; 3], 0);
        // SAFETY: as in `feed`.
        let code = unsafe { doors::chess_error_end(self.state.as_ptr(), self.line.as_ptr(), 256, numbers.as_mut_ptr(), &mut refused) };
        given(code, ())?;
        let [scored, apart, sum] = numbers;
        Ok((Totals { scored, apart, sum }, refused))
    }
}

/// The sums over two parts of a collection that was cut at a line end, as [`CollectionError::end`] gives them: the sum over both. MANY.
///
/// ```
/// let over = |part: &[u8]| {
///     let mut error = chess_scores::CollectionError::new();
///     error.feed(part);
///     error.end()
/// };
/// let parts = [&b"4k3/8/8/8/8/8/4P3/4K3 w;1-0\n"[..], b"4k3/8/8/8/8/8/4P3/4K3 b;1/2-1/2\n4k3/8/8/8/8/8/4P3/4K3 b;1/2"];
/// assert_eq!(chess_scores::join_errors(over(parts[0])?, over(parts[1])?), over(&parts.concat()));
/// # Ok::<(), chess_scores::Refusal>(())
/// ```
pub fn join_errors(first: (Totals, u64), second: (Totals, u64)) -> Result<(Totals, u64), Refusal> {
    let (mut numbers, mut refused) = ([first.0.scored, first.0.apart, first.0.sum], first.1);
    let more = [second.0.scored, second.0.apart, second.0.sum];
    // SAFETY: the pointers are those of arrays of three numbers, and none overlap.
    let code = unsafe { doors::chess_error_join(numbers.as_mut_ptr(), &mut refused, more.as_ptr(), second.1) };
    given(code, ())?;
    let [scored, apart, sum] = numbers;
    Ok((Totals { scored, apart, sum }, refused))
}

/// The summary of another store, added: that of both stores, one after another. A refusal changes nothing. SHAPE, MANY.
pub fn join_summary(summary: &mut [u64], more: &[u64]) -> Result<(), Refusal> {
    // SAFETY: the pointers are those of slices, with their lengths, and they do not overlap.
    let code = unsafe { doors::chess_join_summary(summary.as_mut_ptr(), summary.len(), more.as_ptr(), more.len()) };
    given(code, ())
}

/// A vector with room at its end, which goes as this does: only what was said to be written stays, after a panic too.
struct Room<'a> {
    rows: &'a mut Vec<u8>,
    kept: usize,
}

impl Drop for Room<'_> {
    fn drop(&mut self) {
        self.rows.truncate(self.kept);
    }
}

/// What a door of the ledger writes, added where there is room for so many bytes.
fn written(rows: &mut Vec<u8>, room: usize, door: impl FnOnce(&mut [u8], &mut usize) -> Code) {
    let start = rows.len();
    rows.resize(start + room, 0);
    let mut room = Room { rows, kept: start };
    let mut wrote = 0;
    let code = door(&mut room.rows[start..], &mut wrote);
    assert_eq!(code.number, 0, "more lines than 64 bits count");
    room.kept += wrote;
}

#[cfg(test)]
#[path = "chess_scores_tests.rs"]
mod tests;
