// A voice: the library itself, asked through its doors (include/). Questions on standard input, answers on standard output; with the
// word `ledger`, a collection on standard input and its ledger on standard output; with `tune ITERATIONS FILE`, a whole fit; with
// `again SEED COUNT`, positions written and read again.
mod again;
#[path = "../../include/chess_scores.rs"]
mod chess_scores;
mod fit;
#[path = "../harness/random.rs"]
mod random;
mod seeded;
#[path = "../harness/weight.rs"]
mod weight;

use chess_scores::{piece_attacks, read_line, read_record, table_coefficient, Ledger, Mode, Outcome, Position, Refusal, State, Trace, TraceList, Verdict};
use std::io::{self, BufRead, BufWriter, Read, Write};

type Answer = Result<String, Refusal>;

/// A question's numbers, as text, and its position if it has one: the part that holds a `/` starts the position, which is the last.
struct Question<'a> {
    word: &'a str,
    numbers: Vec<&'a str>,
    line: &'a str,
}

impl Question<'_> {
    fn read(text: &str) -> Question<'_> {
        let end = text.find('/').map_or(text.len(), |slash| text[..slash].rfind(' ').map_or(0, |space| space + 1));
        let mut parts = text[..end].split_whitespace();
        Question { word: parts.next().unwrap_or(""), numbers: parts.collect(), line: &text[end..] }
    }

    fn byte(&self, place: usize) -> u8 {
        self.numbers[place].parse().expect("a byte")
    }

    fn bitboard(&self, place: usize) -> u64 {
        self.numbers[place].parse().expect("a bitboard")
    }

    fn all_numbers(&self) -> Vec<u64> {
        (0..self.numbers.len()).map(|place| self.bitboard(place)).collect()
    }

    fn position(&self) -> Result<Position, Refusal> {
        Ok(read_line(self.line.as_bytes())?.0)
    }
}

fn word(verdict: Verdict) -> &'static str {
    match verdict {
        Verdict::Lost => "lost",
        Verdict::Won => "won",
        Verdict::Drawn => "drawn",
    }
}

fn outcome(position: Position) -> Answer {
    Ok(match position.eval()? {
        Outcome::Verdict(verdict) => word(verdict).to_string(),
        Outcome::Score(score) => score.to_string(),
    })
}

/// The 26 numbers; then how many entries are set and where.
fn trace(trace: &Trace) -> String {
    let set: Vec<i32> = (0..768).filter(|&place| trace.entries[place as usize] == 1).collect();
    let numbers = trace.counts.iter().chain(&trace.mobility).chain([&trace.sign, &trace.piece_count]).copied();
    let parts: Vec<String> = numbers.chain([set.len() as i32]).chain(set.iter().copied()).map(|part| part.to_string()).collect();
    parts.join(" ")
}

fn double(kind: u8, seed: u64, trace: &Trace) -> Answer {
    Ok(fit::said(trace.eval(&seeded::weights(kind, seed))?))
}

fn list_double(kind: u8, seed: u64, list: &TraceList) -> Answer {
    Ok(fit::said(list.eval(&seeded::weights(kind, seed))?))
}

fn bent(asked: &Question) -> Answer {
    let mut position = asked.position()?;
    position.bitboards[asked.byte(0) as usize] ^= asked.bitboard(1);
    position.board[asked.byte(2) as usize] = asked.byte(3);
    outcome(position)
}

/// The position in a state of its own: rights are a sum of 1 K, 2 Q, 4 k, 8 q.
fn in_state(asked: &Question) -> Answer {
    let (mut position, rights, counter) = (asked.position()?, asked.byte(1), |place: usize| asked.numbers[place].parse().expect("a counter"));
    position.state = State {
        side: asked.byte(0),
        white_short: rights & 1 != 0,
        white_long: rights & 2 != 0,
        black_short: rights & 4 != 0,
        black_long: rights & 8 != 0,
        passant: asked.byte(2),
        halfmoves: counter(3),
        moves: counter(4),
    };
    outcome(position)
}

fn odd(asked: &Question) -> Trace {
    let mut trace = seeded::trace(asked.bitboard(4));
    *seeded::numbers(&mut trace).swap_remove(asked.bitboard(0) as usize) = asked.numbers[1].parse().expect("a number");
    trace
}

/// A record's side, half points and 64 codes.
fn stored(number: u64, run: &[u8]) -> Answer {
    let (position, half_points) = read_record(run, number)?;
    let codes: String = position.board.iter().map(|code| format!("{code:x}")).collect();
    assert_eq!(position.state, State::of_side(position.state.side), "a record has a side alone");
    Ok(format!("{} {half_points} {codes}", position.state.side))
}

fn weigh(asked: &Question) -> Answer {
    let (expected, coefficient) = table_coefficient(f64::from_bits(asked.bitboard(0)), asked.byte(1), f64::from_bits(asked.bitboard(2)), asked.bitboard(3))?;
    Ok(format!("{} {}", fit::said(expected), fit::said(coefficient)))
}

/// The six digits of an order, one a kind.
fn order(digits: u64) -> [u8; 6] {
    std::array::from_fn(|place| (digits / 10_u64.pow(5 - place as u32) % 10) as u8)
}

fn captures(asked: &Question, position: Position, mode: Mode) -> Answer {
    let told = position.captures(mode, &order(asked.bitboard(0)), asked.byte(1), asked.byte(2))?;
    let listed: Vec<String> = told.captures.iter().map(|c| format!(" {} {} {}", c.from, c.kind, c.taken)).collect();
    Ok(format!("{}{} {}", listed.len(), listed.concat(), told.stop.map_or("out".to_string(), |stop| stop.to_string())))
}

fn of_position(asked: &Question, position: Position) -> Answer {
    Ok(match asked.word {
        "eval" => return outcome(position),
        "ending" => position.eval_ending()?.map_or("none", word).to_string(),
        "material" => position.eval_material(asked.byte(0))?.to_string(),
        "check" => (position.is_check(asked.byte(0))? as u8).to_string(),
        "attacked" => (position.is_attacked(asked.byte(0), asked.byte(1))? as u8).to_string(),
        "attacks_to" => position.attacks_to(asked.byte(0), asked.bitboard(1))?.to_string(),
        "lvp" => {
            let found = position.lvp(&chess_scores::ORDER, asked.byte(0), asked.bitboard(1), asked.bitboard(2))?;
            found.map_or("none".to_string(), |(square, _)| square.to_string())
        }
        "see" => position.see(Mode::First, &chess_scores::ORDER, asked.byte(0), asked.byte(1))?.to_string(),
        "lvp_by" => {
            let found = position.lvp(&order(asked.bitboard(0)), asked.byte(1), asked.bitboard(2), asked.bitboard(3))?;
            found.map_or("none".to_string(), |(square, kind)| format!("{square} {kind}"))
        }
        "captures" => captures(asked, position, Mode::First)?,
        "captures_second" => captures(asked, position, Mode::Second)?,
        "see_by" => position.see(Mode::First, &order(asked.bitboard(0)), asked.byte(1), asked.byte(2))?.to_string(),
        "see_second" => position.see(Mode::Second, &order(asked.bitboard(0)), asked.byte(1), asked.byte(2))?.to_string(),
        "trace" => trace(&position.trace()?),
        "list_trace" => trace(&position.trace_list()?.flat()?),
        "double" => return double(asked.byte(0), asked.bitboard(1), &position.trace()?),
        "list_double" => return list_double(asked.byte(0), asked.bitboard(1), &position.trace_list()?),
        "record" => position.record(asked.byte(0))?.map(|byte| byte.to_string()).join(" "),
        _ => "no door".to_string(),
    })
}

fn of(asked: &Question) -> Answer {
    Ok(match asked.word {
        "piece_attacks" => piece_attacks(asked.byte(0), asked.byte(1), asked.bitboard(2))?.to_string(),
        "knight" => piece_attacks(chess_scores::KNIGHT, asked.byte(0), 0)?.to_string(),
        "king" => piece_attacks(chess_scores::KING, asked.byte(0), 0)?.to_string(),
        "pawn" => piece_attacks(chess_scores::PAWN + asked.byte(0), asked.byte(1), 0)?.to_string(),
        "wild" => return double(asked.byte(0), asked.bitboard(1), &seeded::trace(asked.bitboard(2))),
        "list_wild" => return list_double(asked.byte(0), asked.bitboard(1), &seeded::trace(asked.bitboard(2)).list()?),
        "odd" => return double(asked.byte(2), asked.bitboard(3), &odd(asked)),
        "list_odd" => return list_double(asked.byte(2), asked.bitboard(3), &odd(asked).list()?),
        "bent" => return bent(asked),
        "state" => return in_state(asked),
        "stored" => return stored(asked.bitboard(0), &(1..asked.numbers.len()).map(|place| asked.byte(place)).collect::<Vec<u8>>()),
        "weigh" => return weigh(asked),
        "fit" | "put" | "step" | "of" | "at" => return fit::answer(asked.word, &asked.all_numbers(), None),
        "line" | "odd_line" | "list_line" => return fit::answer(asked.word, &asked.all_numbers(), Some(asked.position()?.trace()?)),
        _ if asked.line.is_empty() => "no door".to_string(),
        _ => return of_position(asked, asked.position()?),
    })
}

/// SCORE is `over` in the oracle's words, and a square its number.
fn said(answer: Answer) -> String {
    match answer {
        Ok(text) => text,
        Err(Refusal::Score) => "over".to_string(),
        Err(refusal) => format!("refused {}{}", refusal.number(), refusal.square().map_or(String::new(), |square| format!(" {square}"))),
    }
}

fn answer_all() -> io::Result<()> {
    let mut out = BufWriter::new(io::stdout().lock());
    for question in io::stdin().lock().lines() {
        writeln!(out, "{}", said(of(&Question::read(&question?))))?;
    }
    out.flush()
}

fn ledger() -> io::Result<()> {
    let (mut ledger, mut rows, mut piece) = (Ledger::new(), Vec::new(), [0; 4096]);
    loop {
        let count = io::stdin().lock().read(&mut piece)?;
        if count == 0 {
            break;
        }
        ledger.feed(&piece[..count], &mut rows);
        io::stdout().lock().write_all(&rows)?;
        rows.clear();
    }
    ledger.finish(&mut rows);
    io::stdout().lock().write_all(&rows)
}

fn main() -> io::Result<()> {
    let words: Vec<String> = std::env::args().skip(1).collect();
    match words.iter().map(String::as_str).collect::<Vec<_>>().as_slice() {
        ["ledger"] => ledger(),
        ["again", seed, count] => match again::run(seed.parse().expect("a seed"), count.parse().expect("a count")) {
            true => Ok(()),
            false => Err(io::Error::other("not every position came back")),
        },
        ["tune", iterations, file] => {
            let tuned = fit::tune(&std::fs::read_to_string(file)?, iterations.parse().expect("iterations"));
            tuned.map_err(io::Error::other)
        }
        _ => answer_all(),
    }
}
