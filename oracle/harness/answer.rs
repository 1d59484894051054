// The original's answer to one question; the README lists the words.
use crate::attack::{piece_attacks, Attack, PAWN_ATTACKS};
use crate::bitboard::{Bitboard, BitboardExt, BitboardIterator};
use crate::common::{INF, PIECE_MASKS};
use crate::eval::{self, Eval};
use crate::fit;
use crate::game::Game;
use crate::piece::{KING, KNIGHT};
use crate::piece_move::PieceMove;
use crate::piece_square_table::PST;
use crate::placement;
use crate::seeded;
use crate::square::OUT;
use crate::tune::{self, Trace};
use std::any::Any;
use std::panic::{self, AssertUnwindSafe};

/// A question's numbers, as text, and its position if it has one.
struct Question<'a> {
    word: &'a str,
    numbers: Vec<&'a str>,
    game: Option<Game>,
}

/// The part that holds a `/` starts the position, which is the last.
fn read(question: &str) -> Question<'_> {
    let mut numbers = Vec::new();
    let mut rest = question;
    let mut game = None;
    let word = take(&mut rest);
    while !rest.is_empty() {
        if rest.contains('/') && rest.find('/') < rest.find(' ') {
            let (board, side) = placement::read(rest);
            game = Some(placement::game_of(&board, side));
            break;
        }
        numbers.push(take(&mut rest));
    }
    Question { word, numbers, game }
}

fn take<'a>(rest: &mut &'a str) -> &'a str {
    let (first, after) = rest.split_once(' ').unwrap_or((rest, ""));
    *rest = after;
    first
}

impl Question<'_> {
    fn byte(&self, place: usize) -> u8 {
        self.numbers[place].parse().expect("a byte")
    }

    fn bitboard(&self, place: usize) -> Bitboard {
        self.numbers[place].parse().expect("a bitboard")
    }

    fn position(&self) -> &Game {
        self.game.as_ref().expect("a position")
    }
}

/// The answer, or the panic by name: `over` of arithmetic, `index` of an array, `panic` of anything else.
pub fn answer(question: &str) -> String {
    let asked = read(question);
    panic::catch_unwind(AssertUnwindSafe(|| of(&asked))).unwrap_or_else(|panic| named(&message(panic)).to_string())
}

/// What a panic says.
pub fn message(panic: Box<dyn Any + Send>) -> String {
    match panic.downcast::<String>() {
        Ok(message) => *message,
        Err(other) => other.downcast::<&str>().map(|text| text.to_string()).unwrap_or_default(),
    }
}

fn named(message: &str) -> &'static str {
    if message.starts_with("attempt to") && message.ends_with("with overflow") {
        "over"
    } else if message.starts_with("index out of bounds") {
        "index"
    } else {
        "panic"
    }
}

fn of(asked: &Question) -> String {
    match asked.word {
        "eval" => eval_or_ending(asked.position()),
        "number" => asked.position().eval().to_string(),
        "bent" => bent(asked),
        "ending" => ending(asked.position()).unwrap_or("none").to_string(),
        "material" => asked.position().eval_material(asked.byte(0)).to_string(),
        "see" => asked.position().see(PieceMove::capture(asked.byte(0), asked.byte(1))).to_string(),
        "lvp" => least(asked),
        "check" => bit(asked.position().is_check(asked.byte(0))),
        "attacked" => bit(asked.position().is_attacked(asked.byte(0), asked.byte(1))),
        "attacks_to" => asked.position().attacks_to(asked.byte(0), asked.bitboard(1)).to_string(),
        "trace" => trace(tune::traced(asked.position())),
        "double" => double(asked.byte(0), asked.bitboard(1), tune::traced(asked.position())),
        _ => of_no_position(asked),
    }
}

fn of_no_position(asked: &Question) -> String {
    match asked.word {
        "piece_attacks" => piece_attacks(asked.byte(0), asked.byte(1), asked.bitboard(2)).to_string(),
        "pst" => PST[asked.byte(0) as usize][asked.byte(1) as usize][asked.byte(2) as usize].to_string(),
        "knight" => PIECE_MASKS[KNIGHT as usize][asked.byte(0) as usize].to_string(),
        "king" => PIECE_MASKS[KING as usize][asked.byte(0) as usize].to_string(),
        "pawn" => PAWN_ATTACKS[asked.byte(0) as usize][asked.byte(1) as usize].to_string(),
        "count" => asked.bitboard(0).count().to_string(),
        "scan" => asked.bitboard(0).scan().to_string(),
        "shift" => asked.bitboard(1).shift(asked.numbers[0].parse().expect("a shift")).to_string(),
        "next" => next(asked.bitboard(0)),
        "from_square" => Bitboard::from_square(asked.byte(0)).to_string(),
        "get" => bit(asked.bitboard(1).get(asked.byte(0))),
        "set" => changed(asked, BitboardExt::set),
        "toggle" => changed(asked, BitboardExt::toggle),
        "reset" => changed(asked, BitboardExt::reset),
        "wild" => double(asked.byte(0), asked.bitboard(1), seeded::trace(asked.bitboard(2))),
        "odd" => odd(asked),
        "fit" | "put" | "line" | "step" | "of" | "at" | "root" => fitted(asked),
        other => format!("unknown {}", other),
    }
}

fn bit(answer: bool) -> String {
    (answer as u8).to_string()
}

/// The verdict as 01's word; the original gives it as a number.
fn ending(game: &Game) -> Option<&'static str> {
    eval::ending(game).map(|number| match number {
        0 => "drawn",
        INF => "won",
        _ if number == -INF => "lost",
        _ => "unknown",
    })
}

/// A score can be the number that stands for a verdict, so the verdict is asked first.
fn eval_or_ending(game: &Game) -> String {
    let score = game.eval();
    match ending(game) {
        Some(verdict) if eval::ending(game) == Some(score) => verdict.to_string(),
        Some(_) => "unknown".to_string(),
        None => score.to_string(),
    }
}

/// The score after one bitboard and one byte were changed, which the original never looks at.
fn bent(asked: &Question) -> String {
    let mut game = asked.position().clone();
    game.bitboards[asked.byte(0) as usize] ^= asked.bitboard(1);
    game.board[asked.byte(2) as usize] = asked.byte(3);
    eval_or_ending(&game)
}

fn least(asked: &Question) -> String {
    match eval::least(asked.position(), asked.byte(0), asked.bitboard(1), asked.bitboard(2)) {
        OUT => "none".to_string(),
        square => square.to_string(),
    }
}

fn next(mut board: Bitboard) -> String {
    match BitboardIterator::next(&mut board) {
        None => "none".to_string(),
        Some(square) => format!("{} {}", square, board),
    }
}

fn changed(asked: &Question, change: fn(&mut Bitboard, u8)) -> String {
    let mut board = asked.bitboard(1);
    change(&mut board, asked.byte(0));
    board.to_string()
}

/// The 26 numbers; then how many entries are set and where, in ascending order.
fn trace(mut trace: Trace) -> String {
    let all: Vec<i32> = seeded::numbers(&mut trace).into_iter().map(|number| *number).collect();
    let (numbers, entries) = all.split_at(seeded::NUMBERS);
    assert!(entries.iter().all(|&entry| entry == 0 || entry == 1));
    let set: Vec<i32> = (0..entries.len()).filter(|&place| entries[place] == 1).map(|place| place as i32).collect();
    let parts = numbers.iter().copied().chain([set.len() as i32]).chain(set.iter().copied());
    parts.map(|part| part.to_string()).collect::<Vec<_>>().join(" ")
}

/// Doubles stand as their bits.
fn fitted(asked: &Question) -> String {
    let numbers: Vec<u64> = (0..asked.numbers.len()).map(|place| asked.bitboard(place)).collect();
    fit::answer(asked.word, &numbers, asked.game.as_ref())
}

fn odd(asked: &Question) -> String {
    let (place, value) = (asked.bitboard(0) as usize, asked.numbers[1].parse().expect("a number"));
    double(asked.byte(2), asked.bitboard(3), seeded::odd_trace(asked.bitboard(4), place, value))
}

/// The bits of the double; a NaN is a NaN, whatever its bits.
fn double(kind: u8, seed: u64, trace: Trace) -> String {
    let result = trace.eval(&seeded::weights(kind as usize, seed));
    if result.is_nan() {
        return "nan".to_string();
    }
    result.to_bits().to_string()
}
