// For every refusal ways to cause it, each in a part of the input of its own, so that two can stand in one input.
use crate::input::Input;

#[derive(Clone, Copy)]
pub struct Cause {
    pub refusal: &'static str,
    /// Which of the places of that name in the order: 0, or 1 for the second.
    pub place: usize,
    pub text: &'static str,
    pub make: fn(&mut Input),
}

const fn of(refusal: &'static str, text: &'static str, make: fn(&mut Input)) -> Cause {
    Cause { refusal, place: 0, text, make }
}

const fn second(refusal: &'static str, text: &'static str, make: fn(&mut Input)) -> Cause {
    Cause { refusal, place: 1, text, make }
}

// ---- a position

/// 14 bitboards and 64 bytes, lent to be read or to be written.
pub const BOARDS: &[Cause] = &[
    of("SHAPE", "13 bitboards", |x| drop(x.bitboards.pop())),
    of("SHAPE", "15 bitboards", |x| x.bitboards.push(0)),
    of("SHAPE", "63 board bytes", |x| drop(x.board.pop())),
    of("SHAPE", "65 board bytes", |x| x.board.push(0)),
];

/// The squares fall from refusal to refusal: the first in order is no lowest square's.
pub const POSITION: &[Cause] = &[
    of("SHAPE", "a third side", |x| x.state.side = 2),
    of("OVERLAP", "a black pawn on e8 too", |x| x.bitboards[3] ^= 1 << 60),
    of("OVERLAP", "a white knight on g2 too", |x| x.bitboards[4] ^= 1 << 14),
    of("UNION", "h8 missing from Black's board", |x| x.bitboards[1] ^= 1 << 63),
    of("UNION", "e2 on White's board", |x| x.bitboards[0] ^= 1 << 12),
    of("BYTEBOARD", "a1's byte 0", |x| x.board[0] = 0),
    of("BYTEBOARD", "e2's byte a queen's", |x| x.board[12] = 12),
    of("RIGHTS", "K with the king on g1", |x| x.state.white_short = true),
    of("RIGHTS", "q with no rook on a8", |x| x.state.black_long = true),
    of("PASSANT", "square 64", |x| x.state.passant = 64),
    of("PASSANT", "e3 with White to move", |x| x.state.passant = 20),
    of("PASSANT", "d6 with no pawn on d5", |x| x.state.passant = 43),
    of("COUNTER", "10000 half moves", |x| x.state.halfmoves = 10000),
    of("COUNTER", "move 0", |x| x.state.moves = 0),
    of("COUNTER", "move 10000", |x| x.state.moves = 10000),
];

pub const COLOUR: &[Cause] = &[of("SHAPE", "a third colour", |x| x.color = 2)];

pub const SCORE: &[Cause] = &[of("SCORE", "24 white queens", |x| fill(x, 12, 24))];

pub const SQUARE: &[Cause] = &[of("SQUARE", "square 64", |x| x.square = 64), of("SQUARE", "square 255", |x| x.square = 255)];

pub const ORDER: &[Cause] = &[of("ORDER", "queens twice", |x| x.order[5] = 4), of("ORDER", "a kind 6", |x| x.order[0] = 6)];

pub const EXCHANGE: &[Cause] =
    &[of("SHAPE", "a third mode", |x| x.mode = 2), of("SQUARE", "a start of 64", |x| x.from = 64), of("SQUARE", "a target of 64", |x| x.to = 64)];

pub const CAPTURE: &[Cause] = &[
    of("MOVE", "nothing on the start", |x| x.take_off(21)),
    of("MOVE", "nothing on the target", |x| x.take_off(36)),
    of("MOVE", "a rook on the start, which does not attack the target", |x| {
        x.take_off(21);
        x.put(10, 21);
    }),
    of("CROWD", "two white kings", |x| x.put(6, 23)),
    of("CROWD", "ten black knights more, 35 pieces", |x| fill(x, 5, 10)),
];

pub const REAL_PLAY: &[Cause] = &[
    of("KINGS", "two white kings", |x| x.put(6, 23)),
    of("KINGS", "no white king", |x| x.take_off(6)),
    of("PAWNS", "nine white pawns", |x| {
        x.put(2, 25);
        x.put(2, 31);
    }),
    of("PIECES", "eighteen white pieces", |x| [24, 32, 39, 47].into_iter().for_each(|square| x.put(4, square))),
    of("RANK", "a white pawn on a8", |x| x.put(2, 56)),
    of("RANK", "a black pawn on b1", |x| x.put(3, 1)),
    of("CHECK", "a white knight on d6", |x| x.put(4, 43)),
];

/// So many pieces on ranks 3 to 6, where nothing stands and no other cause puts anything.
fn fill(x: &mut Input, code: u8, count: usize) {
    let free = (16..48).filter(|square| ![18, 21, 23, 27, 36, 43].contains(square));
    free.take(count).for_each(|square| x.put(code, square));
}

// ---- a line, and a question about an exchange

pub const LINE: &[Cause] = &[
    of("LONG", "300 spaces more", |x| x.text.tail = vec![b' '; 300]),
    of("BYTE", "a byte 0 before the ranks", |x| x.text.head = vec![0]),
    of("BYTE", "a byte 128 at the end", |x| x.text.end = vec![128]),
    of("FIELD", "no `;`", |x| x.text.separator = ""),
    of("PLACE", "a ninth rank", |x| x.text.after_ranks = "/8"),
    of("PLACE", "a letter of no piece", |x| x.text.before_ranks = "x"),
    of("PLACE", "`:` between the ranks", |x| x.text.joint = ":"),
    of("PLACE", "runs in parts", |x| x.text.runs_in_parts = true),
    of("SIDE", "a side `x`", |x| x.text.side = "x"),
    of("SIDE", "a side `wb`", |x| x.text.side = "wb"),
    of("RIGHTS", "rights `QK`", |x| x.text.rights = "QK"),
    of("RIGHTS", "K with the king on g1", |x| x.text.rights = "K"),
    of("PASSANT", "a square `e9`", |x| x.text.passant = "e9"),
    of("PASSANT", "e3 with White to move", |x| x.text.passant = "e3"),
    of("PASSANT", THREE_FIELDS, |x| (x.text.passant, x.text.counters) = ("", "")),
    of("COUNTER", "five fields", |x| x.text.counters = "0"),
    of("COUNTER", "seven fields", |x| x.text.counters = "0 1 1"),
    of("COUNTER", "half moves `00`", |x| x.text.counters = "00 1"),
    of("COUNTER", "10000 half moves", |x| x.text.counters = "10000 1"),
    of("COUNTER", "move 0", |x| x.text.counters = "0 0"),
    of("RESULT", "a result `1/2`", |x| x.text.result = "1/2"),
    of("RESULT", "no result", |x| x.text.result = ""),
];

pub const THREE_FIELDS: &str = "three fields";

pub const QUESTION: &[Cause] = &[
    of("SQUARE", "a target `e9`", |x| asked(x, 0, "f3e9")),
    of("SQUARE", "one square", |x| asked(x, 0, "f3")),
    of("ORDER", "queens twice", |x| asked(x, 1, "pnbrqq")),
    of("ORDER", "five kinds", |x| asked(x, 1, "pnbrq")),
];

/// The capture, or the order, of a question.
fn asked(x: &mut Input, field: usize, text: &'static str) {
    x.text.question.as_mut().expect("a question")[field] = text;
}

// ---- what is written, and records

pub const WRITTEN: &[Cause] = &[of("RESULT", "three half points", |x| x.half_points = 3), of("ROOM", "room for ten bytes", |x| x.out.truncate(10))];

pub const PLACE: &[Cause] = &[
    of("RESULT", "three half points", |x| x.half_points = 3),
    of("LENGTH", "a place of 33 bytes", |x| drop(x.place.pop())),
    of("LENGTH", "a place of 35 bytes", |x| x.place.push(7)),
];

/// The record itself, by value.
pub const RECORD: &[Cause] = &[
    of("CODE", "code 15 on d2", |x| x.run[5] ^= 0xf0),
    of("CODE", "code 1 on b1", |x| x.run[0] ^= 0x10),
    of("SIDE", "a third side", |x| x.run[32] = 2),
    of("RESULT", "three half points", |x| x.run.iter_mut().skip(33).take(1).for_each(|byte| *byte = 3)),
];

/// A store's last piece.
pub const PIECE_READ: &[Cause] = &[of("LENGTH", SHORT_PIECE, |x| drop(x.run.pop()))];

pub const SHORT_PIECE: &str = "a piece of 33 bytes";

pub const RUN: &[Cause] = &[of("LENGTH", "a byte more", |x| x.run.push(0)), of("LENGTH", "a byte less", |x| drop(x.run.pop()))];

/// 34 times the number is 0 in 64 bits: it leads to the first record, whatever that holds.
pub const NUMBER: &[Cause] = &[of("ABSENT", "number 2^63", |x| x.number = 1 << 63), of("ABSENT", NO_RECORD, |x| x.number = 2)];

pub const NO_RECORD: &str = "number 2 in a run of two";

/// The old record of one that is replaced, and the summary.
pub const REPLACED: &[Cause] = &[
    of("RESULT", "three half points", |x| x.half_points = 3),
    of("CODE", "code 15 on d2", |x| x.run[5] ^= 0xf0),
    of("CODE", "code 1 on b1", |x| x.run[0] ^= 0x10),
    of("SIDE", "a third side in the old record", |x| x.run[32] = 2),
    second("RESULT", "three half points in the old record", |x| x.run[33] = 3),
    second("ABSENT", "a summary of no records", |x| x.summary[0] = 0),
];

pub const ADDED: &[Cause] = &[
    of("RESULT", "three half points", |x| x.half_points = 3),
    of("MANY", "10,000,000 records", |x| x.summary[0] = 10_000_000),
    of("ROOM", "a run of one record", |x| drop(x.run.drain(..34))),
];

pub const SUMMARY: &[Cause] = &[of("SHAPE", "769 numbers", |x| drop(x.summary.pop())), of("SHAPE", "771 numbers", |x| x.summary.push(0))];

// ---- traces, lists, fits

pub const ENTRIES: &[Cause] = &[of("SHAPE", "767 entries", |x| drop(x.entries.pop())), of("SHAPE", "769 entries", |x| x.entries.push(0))];

pub const WEIGHTS: &[Cause] = &[of("SHAPE", "767 weights", |x| drop(x.squares.pop())), of("SHAPE", "769 weights", |x| x.squares.push(0.0))];

pub const SUMS: &[Cause] = &[of("SHAPE", "778 sums", |x| drop(x.sums.pop())), of("SHAPE", "780 sums", |x| x.sums.push(0.0))];

pub const TRACE: &[Cause] = &[
    of("TRACE", "65 pawns", |x| x.counts[0] = 65),
    of("TRACE", "a pair flag of 2", |x| x.counts[10] = 2),
    of("TRACE", "mobility 1729", |x| x.mobility[11] = 1729),
    of("TRACE", "a side of 0", |x| x.sign = 0),
    of("TRACE", "65 pieces", |x| x.piece_count = 65),
];

pub const FLAT: &[Cause] = &[of("TRACE", "an entry of 2", |x| x.entries[0] = 2)];

pub const ONES: &[Cause] = &[of("ENTRY", "more than 64 ones", |x| x.entries[600..700].fill(1))];

pub const LIST: &[Cause] = &[
    of("ENTRY", "65 entries", |x| x.used = 65),
    of("ENTRY", "an entry too few used", |x| x.used -= 1),
    of("ENTRY", "two entries out of order", |x| (0..3).for_each(|i| x.list.swap(i, 3 + i))),
    of("ENTRY", "kind 6", |x| x.list[0] = 6),
    of("ENTRY", "an unused place that is not 0", |x| x.list[191] = 1),
];

pub const STEP: &[Cause] = &[
    of("SHAPE", "778 sums", |x| drop(x.sums.pop())),
    of("SHAPE", "778 first moments", |x| drop(x.first.pop())),
    of("SHAPE", "780 second moments", |x| x.second.push(0.0)),
    of("SHAPE", "778 weights", |x| drop(x.weights.pop())),
    of("ITERATION", "iteration 0", |x| x.iteration = 0),
    of("ITERATION", "iteration 1,000,001", |x| x.iteration = 1_000_001),
];

pub const COEFFICIENT: &[Cause] = &[of("SHAPE", "no lines", |x| x.lines = 0), of("RESULT", "three half points", |x| x.half_points = 3)];

// ---- attacks of a piece, errors, collections

pub const PIECE: &[Cause] = &[of("SHAPE", "code 14", |x| x.piece = 14), of("SHAPE", "code 1", |x| x.piece = 1)];

pub const ERROR: &[Cause] = &[
    of("SHAPE", "a third side", |x| x.color = 2),
    of("RESULT", "three half points", |x| x.half_points = 3),
    of("MANY", "a million lines with a score", |x| x.totals[0] = 1_000_000),
    of("MANY", "a sum past 64 bits", |x| x.totals[2] = u64::MAX),
];

pub const BUFFER: &[Cause] =
    &[of("SHAPE", "a line buffer of 255 bytes", |x| drop(x.buffer.pop())), of("SHAPE", "a line buffer of 257 bytes", |x| x.buffer.push(0))];

/// A part joined to another: what both come to.
pub const ERRORS_JOINED: &[Cause] = &[
    of("MANY", "a million lines with a score before one more", |x| x.totals[0] = 1_000_000),
    of("MANY", "a million and a verdict, counted apart", |x| x.more[1] = 1_000_001),
    of("MANY", "a sum past 64 bits", |x| x.totals[2] = u64::MAX),
    of("MANY", "refused lines past 64 bits", |x| x.long = u64::MAX),
];

pub const SUMMARIES_JOINED: &[Cause] = &[
    of("SHAPE", "769 numbers of the other", |x| drop(x.more_summary.pop())),
    of("SHAPE", "771 numbers of the other", |x| x.more_summary.push(0)),
    of("MANY", "10,000,000 records before one more", |x| x.summary[0] = 10_000_000),
    of("MANY", "10,000,000 records after one", |x| x.more_summary[0] = 10_000_000),
];

pub const ERROR_END: &[Cause] = &[of("MANY", "a line that found no room", |x| x.errors[6] = 1)];

/// The ledger's own numbers.
pub const LINES: &[Cause] = &[of("LEDGER_MANY", "2^64 - 1 lines", |x| x.ledger[2] = u64::MAX), of("LEDGER_FULL", "room for no row", |x| x.rows.clear())];

pub const SAMPLES: &[Cause] = &[of("LEDGER_FULL", "room for no sample", |x| x.samples.clear())];
