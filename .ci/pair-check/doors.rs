// The doors for C: how each is asked, and which causes there are of its refusals.
use crate::causes::*;
use crate::chess_scores::doors::*;
use crate::chess_scores::{position_field, read_line, Code, NO_SQUARE};
use crate::input::Input;

pub struct Door {
    pub name: &'static str,
    /// The call whose order it has.
    pub order: &'static str,
    /// What its good input has that those of others have not.
    pub base: fn(&mut Input),
    pub causes: Vec<Cause>,
    pub ask: fn(&mut Input) -> Code,
}

fn door(name: &'static str, causes: &[&[Cause]], ask: fn(&mut Input) -> Code) -> Door {
    Door { name, order: name, base: |_| (), causes: causes.concat(), ask }
}

fn with(base: fn(&mut Input), door: Door) -> Door {
    Door { base, ..door }
}

fn second_mode(name: &'static str, door: Door) -> Door {
    Door { name, base: |x| x.mode = 1, ..door }
}

/// Three bytes of a last line that has no LF.
const UNFINISHED: fn(&mut Input) = |x| x.ledger[0] = 3;

// SAFETY, of every call below: the pointers are those of the input's arrays and vectors, with their lengths, and those written through overlap no other.
macro_rules! position {
    ($door:ident, $x:ident $(, $more:expr)*) => {
        unsafe { $door($x.bitboards.as_ptr(), $x.bitboards.len(), $x.board.as_ptr(), $x.board.len(), $x.state $(, $more)*) }
    };
}

macro_rules! exchange {
    ($door:ident, $x:ident $(, $more:expr)*) => {
        position!($door, $x, $x.mode, $x.order.as_ptr(), $x.from, $x.to $(, $more)*)
    };
}

macro_rules! trace {
    ($door:ident, $x:ident $(, $more:expr)*) => {
        unsafe { $door($x.counts.as_ptr(), $x.mobility.as_ptr(), $x.sign, $x.piece_count $(, $more)*) }
    };
}

macro_rules! line {
    ($door:ident) => {
        |x| {
            let line = x.line();
            unsafe { $door(line.as_ptr(), line.len(), x.bitboards.as_mut_ptr(), x.bitboards.len(), x.board.as_mut_ptr(), x.board.len()).code }
        }
    };
}

/// The empty part, which is all that it gives of a refused line, and exactly of one; the number is the reader's. 253 stands for anything else.
fn field(x: &mut Input) -> Code {
    let line = x.line();
    let number = match (read_line(&line), position_field(&line).is_empty()) {
        (Err(refusal), true) => refusal.number(),
        (Ok(_), false) => 0,
        _ => 253,
    };
    Code { number, square: NO_SQUARE }
}

fn lines() -> Vec<Door> {
    vec![
        door("chess_read_line", &[BOARDS, LINE], line!(chess_read_line)),
        door("chess_read_profile", &[BOARDS, LINE, REAL_PLAY], line!(chess_read_profile)),
        Door { order: "line by value", ..door("chess_position_field", &[LINE], field) },
        door("chess_profile", &[BOARDS, POSITION, REAL_PLAY], |x| position!(chess_profile, x)),
        door("chess_write_line", &[BOARDS, POSITION, WRITTEN], |x| {
            position!(chess_write_line, x, 1, x.half_points, x.out.as_mut_ptr(), x.out.len(), &mut x.sizes[0])
        }),
    ]
}

fn records() -> Vec<Door> {
    vec![
        door("chess_read_record", &[BOARDS, RUN, NUMBER, RECORD], |x| unsafe {
            chess_read_record(x.run.as_ptr(), x.run.len(), x.number, x.bitboards.as_mut_ptr(), x.bitboards.len(), x.board.as_mut_ptr(), x.board.len()).code
        }),
        door("chess_write_record", &[BOARDS, POSITION, PLACE], |x| position!(chess_write_record, x, x.half_points, x.place.as_mut_ptr(), x.place.len())),
        door("chess_add_record", &[BOARDS, POSITION, SUMMARY, RUN, ADDED], |x| {
            position!(chess_add_record, x, x.half_points, x.run.as_mut_ptr(), x.run.len(), x.summary.as_mut_ptr(), x.summary.len())
        }),
        door("chess_join_summary", &[SUMMARY, SUMMARIES_JOINED], |x| unsafe {
            chess_join_summary(x.summary.as_mut_ptr(), x.summary.len(), x.more_summary.as_ptr(), x.more_summary.len())
        }),
        door("chess_replace_record", &[BOARDS, POSITION, SUMMARY, RUN, NUMBER, REPLACED], |x| {
            position!(chess_replace_record, x, x.half_points, x.number, x.run.as_mut_ptr(), x.run.len(), x.summary.as_mut_ptr(), x.summary.len())
        }),
    ]
}

fn positions() -> Vec<Door> {
    vec![
        door("chess_eval_ending", &[BOARDS, POSITION], |x| position!(chess_eval_ending, x, &mut x.bytes[0])),
        door("chess_eval_material", &[BOARDS, POSITION, COLOUR, SCORE], |x| position!(chess_eval_material, x, x.color, &mut x.word)),
        door("chess_eval", &[BOARDS, POSITION, SCORE], |x| position!(chess_eval, x, &mut x.bytes[0], &mut x.word)),
        door("chess_piece_attacks", &[PIECE, SQUARE], |x| unsafe { chess_piece_attacks(x.piece, x.square, 0, &mut x.long) }),
        door("chess_attacks_to", &[BOARDS, POSITION, SQUARE], |x| position!(chess_attacks_to, x, x.square, 0, &mut x.long)),
        door("chess_is_attacked", &[BOARDS, POSITION, COLOUR, SQUARE], |x| position!(chess_is_attacked, x, x.square, x.color, &mut x.flag)),
        door("chess_is_check", &[BOARDS, POSITION, COLOUR], |x| position!(chess_is_check, x, x.color, &mut x.flag)),
    ]
}

fn exchanges() -> Vec<Door> {
    let causes: &[&[Cause]] = &[BOARDS, POSITION, EXCHANGE, ORDER, CAPTURE];
    let see = || door("chess_see", causes, |x| exchange!(chess_see, x, &mut x.word));
    let captures = || {
        door("chess_captures", causes, |x| {
            let (squares, kinds, taken) = &mut x.told;
            let [count, stop] = &mut x.sizes;
            exchange!(chess_captures, x, squares.as_mut_ptr(), kinds.as_mut_ptr(), taken.as_mut_ptr(), count, stop)
        })
    };
    let lvp = door("chess_lvp", &[BOARDS, POSITION, COLOUR, ORDER], |x| {
        let [square, kind, _] = &mut x.bytes;
        position!(chess_lvp, x, x.order.as_ptr(), x.color, u64::MAX, u64::MAX, &mut x.flag, square, kind)
    });
    vec![lvp, see(), second_mode("chess_see, second mode", see()), captures(), second_mode("chess_captures, second mode", captures())]
}

fn traces() -> Vec<Door> {
    vec![
        door("chess_compute_trace", &[BOARDS, POSITION, ENTRIES], |x| {
            let (counts, mobility, entries) = (x.counts.as_mut_ptr(), x.mobility.as_mut_ptr(), x.entries.as_mut_ptr());
            position!(chess_compute_trace, x, counts, mobility, &mut x.sign, &mut x.piece_count, entries, x.entries.len())
        }),
        door("chess_compute_list", &[BOARDS, POSITION], |x| {
            let (counts, mobility, list) = (x.counts.as_mut_ptr(), x.mobility.as_mut_ptr(), x.list.as_mut_ptr());
            position!(chess_compute_list, x, counts, mobility, &mut x.sign, &mut x.piece_count, &mut x.used, list)
        }),
        door("chess_trace_eval", &[ENTRIES, WEIGHTS, TRACE, FLAT], |x| {
            trace!(chess_trace_eval, x, x.entries.as_ptr(), x.entries.len(), x.named.as_ptr(), x.squares.as_ptr(), x.squares.len(), &mut x.doubles[0])
        }),
        door("chess_shipped_weights", &[WEIGHTS], |x| unsafe { chess_shipped_weights(x.named.as_mut_ptr(), x.squares.as_mut_ptr(), x.squares.len()) }),
        door("chess_list_of", &[ENTRIES, TRACE, FLAT, ONES], |x| {
            trace!(chess_list_of, x, x.entries.as_ptr(), x.entries.len(), &mut x.used, x.list.as_mut_ptr())
        }),
        door("chess_flat_of", &[ENTRIES, TRACE, LIST], |x| trace!(chess_flat_of, x, x.used, x.list.as_ptr(), x.entries.as_mut_ptr(), x.entries.len())),
        door("chess_list_eval", &[WEIGHTS, TRACE, LIST], |x| {
            trace!(chess_list_eval, x, x.used, x.list.as_ptr(), x.named.as_ptr(), x.squares.as_ptr(), x.squares.len(), &mut x.doubles[0])
        }),
    ]
}

fn fits() -> Vec<Door> {
    vec![
        door("chess_gradient_add", &[ENTRIES, SUMS, TRACE, FLAT], |x| {
            trace!(chess_gradient_add, x, x.entries.as_ptr(), x.entries.len(), 0.5, x.sums.as_mut_ptr(), x.sums.len())
        }),
        door("chess_list_add", &[SUMS, TRACE, LIST], |x| trace!(chess_list_add, x, x.used, x.list.as_ptr(), 0.5, x.sums.as_mut_ptr(), x.sums.len())),
        door("chess_adam_step", &[STEP], |x| {
            let [first, second, weights] = [&mut x.first, &mut x.second, &mut x.weights].map(|list| (list.as_mut_ptr(), list.len()));
            unsafe { chess_adam_step(x.sums.as_ptr(), x.sums.len(), first.0, first.1, second.0, second.1, weights.0, weights.1, x.iteration, 1.0) }
        }),
        door("chess_table_coefficient", &[COEFFICIENT], |x| {
            let [expected, coefficient] = &mut x.doubles;
            unsafe { chess_table_coefficient(117.0, x.half_points, 1.0, x.lines, expected, coefficient) }
        }),
    ]
}

fn collections() -> Vec<Door> {
    vec![
        door("chess_ledger_feed", &[BUFFER, LINES], |x| unsafe {
            chess_ledger_feed(
                x.ledger.as_mut_ptr(),
                x.buffer.as_mut_ptr(),
                x.buffer.len(),
                x.chunk.as_ptr(),
                x.chunk.len(),
                x.rows.as_mut_ptr(),
                x.rows.len(),
                &mut x.sizes[0],
            )
        }),
        with(
            UNFINISHED,
            door("chess_ledger_finish", &[BUFFER, LINES], |x| unsafe {
                chess_ledger_finish(x.ledger.as_ptr(), x.buffer.as_ptr(), x.buffer.len(), x.rows.as_mut_ptr(), x.rows.len(), &mut x.sizes[0])
            }),
        ),
        door("chess_samples_feed", &[BUFFER, LINES, SAMPLES], |x| unsafe {
            let [sampled, wrote] = &mut x.sizes;
            chess_samples_feed(
                x.ledger.as_mut_ptr(),
                x.buffer.as_mut_ptr(),
                x.buffer.len(),
                x.chunk.as_ptr(),
                x.chunk.len(),
                x.samples.as_mut_ptr(),
                x.samples.len(),
                x.rows.as_mut_ptr(),
                x.rows.len(),
                sampled,
                wrote,
            )
        }),
        with(
            UNFINISHED,
            door("chess_samples_finish", &[BUFFER, LINES, SAMPLES], |x| unsafe {
                let [sampled, wrote] = &mut x.sizes;
                chess_samples_finish(
                    x.ledger.as_ptr(),
                    x.buffer.as_ptr(),
                    x.buffer.len(),
                    x.samples.as_mut_ptr(),
                    x.samples.len(),
                    x.rows.as_mut_ptr(),
                    x.rows.len(),
                    sampled,
                    wrote,
                )
            }),
        ),
        door("chess_error_add", &[ERROR], |x| unsafe { chess_error_add(x.totals.as_mut_ptr(), x.color, true, 117, x.half_points) }),
        door("chess_error_join", &[ERRORS_JOINED], |x| unsafe {
            chess_error_join(x.totals.as_mut_ptr(), &mut x.long, x.more.as_ptr(), x.others)
        }),
        door("chess_error_feed", &[BUFFER], |x| unsafe {
            chess_error_feed(x.errors.as_mut_ptr(), x.buffer.as_mut_ptr(), x.buffer.len(), x.chunk.as_ptr(), x.chunk.len())
        }),
        door("chess_error_end", &[BUFFER, ERROR_END], |x| unsafe {
            chess_error_end(x.errors.as_ptr(), x.buffer.as_ptr(), x.buffer.len(), x.totals.as_mut_ptr(), &mut x.long)
        }),
    ]
}

pub fn all() -> Vec<Door> {
    [lines(), records(), positions(), exchanges(), traces(), fits(), collections()].into_iter().flatten().collect()
}
