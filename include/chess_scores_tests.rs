// The tests of the Rust wrapper.
use super::*;

fn position(line: &str) -> Position {
    read_line(format!("{line};1-0").as_bytes()).expect("a good line").0
}

const START: &str = "rnbqkbnr/pppppppp/8/8/8/8/PPPPPPPP/RNBQKBNR w";

#[test]
fn scores_of_document_01() {
    assert_eq!(position("4k3/8/8/8/8/8/4P3/4K3 w").eval(), Ok(Outcome::Score(117)));
    assert_eq!(position("4k3/8/8/8/8/8/4P3/4K3 b").eval(), Ok(Outcome::Score(-95)));
    assert_eq!(position("4k3/8/8/8/8/8/8/R3K3 w").eval(), Ok(Outcome::Score(535)));
    assert_eq!(position(START).eval(), Ok(Outcome::Score(11)));
    assert_eq!(position("8/8/8/8/8/8/8/8 w").eval(), Ok(Outcome::Verdict(Verdict::Lost)));
    assert_eq!(position("8/8/8/8/8/8/8/4K3 w").eval(), Ok(Outcome::Verdict(Verdict::Won)));
    assert_eq!(position("8/8/8/8/8/8/8/4KK2 w").eval_ending(), Ok(Some(Verdict::Drawn)));
    assert_eq!(position(START).eval_ending(), Ok(None));
    assert_eq!(position(START).eval_material(WHITE), Ok(10000 + 1013 + 2 * (487 + 292 + 304) + 800));
}

#[test]
fn exchanges_of_document_01() {
    assert_eq!(position("8/8/8/4p3/8/8/8/4R3 w").see(Mode::First, &ORDER, 4, 36), Ok(100));
    assert_eq!(position("8/8/3p4/4p3/8/8/8/4R3 w").see(Mode::First, &ORDER, 4, 36), Ok(-387));
    assert_eq!(position("6k1/1b6/5n2/3p4/4P3/8/8/3Q2K1 w").see(Mode::First, &ORDER, 3, 35), Ok(-709));
    assert_eq!(position(START).see(Mode::First, &ORDER, 3, 35), Err(Refusal::Move));
    assert_eq!(position(START).see(Mode::First, &ORDER, 3, 64), Err(Refusal::Square));
}

#[test]
fn orders_of_capture() {
    let queens = position("6k1/1b6/5n2/3p4/4P3/8/8/3Q2K1 w");
    let bishops_first = [0, 2, 1, 3, 4, 5];
    assert_eq!(queens.see(Mode::First, &bishops_first, 3, 35), Ok(-721));
    let attackers = queens.attacks_to(35, u64::MAX).unwrap() | queens.bitboards[1];
    assert_eq!(queens.lvp(&ORDER, BLACK, attackers & !queens.bitboards[3], u64::MAX), Ok(Some((45, 1))));
    assert_eq!(queens.lvp(&bishops_first, BLACK, attackers & !queens.bitboards[3], u64::MAX), Ok(Some((49, 2))));
    for no_order in [[0, 2, 2, 3, 4, 5], [0, 1, 2, 3, 4, 6]] {
        assert_eq!(queens.see(Mode::First, &no_order, 3, 35), Err(Refusal::Order));
        assert_eq!(queens.see(Mode::First, &no_order, 3, 36), Err(Refusal::Order));
        assert_eq!(queens.see(Mode::First, &no_order, 64, 35), Err(Refusal::Square));
        assert_eq!(queens.lvp(&no_order, BLACK, attackers, u64::MAX), Err(Refusal::Order));
    }
}

#[test]
fn lines_written() {
    for line in [
        "rnbqkbnr/pppppppp/8/8/8/8/PPPPPPPP/RNBQKBNR w KQkq - 0 1;1-0",
        "r3k3/8/8/8/4P3/8/8/4K2R b Kq e3 0 12;1/2-1/2",
        "8/8/8/8/8/8/8/8 w - - 9999 9999;0-1",
    ] {
        let (read, half) = read_line(line.as_bytes()).unwrap();
        let mut out = [7; 99];
        assert_eq!(read.write_line(Some(half), &mut out), Ok(line.len()));
        assert_eq!(&out[..line.len()], line.as_bytes());
        assert!(out[line.len()..].iter().all(|byte| *byte == 7));
    }
    let bare = position("8/8/8/8/8/8/8/8 w");
    let mut out = [7; 25];
    assert_eq!(bare.write_line(None, &mut out[..24]), Err(Refusal::Room));
    assert_eq!(bare.write_line(Some(3), &mut out[..24]), Err(Refusal::Result));
    assert_eq!(out, [7; 25]);
    assert_eq!(bare.write_line(None, &mut out), Ok(25));
    assert_eq!(&out, b"8/8/8/8/8/8/8/8 w - - 0 1");
    let mut length = 7;
    // SAFETY: the pointers are those of arrays and a local, with their lengths, and none overlap.
    let code = unsafe { doors::chess_write_line(bare.bitboards.as_ptr(), 14, bare.board.as_ptr(), 64, bare.state, 0, 3, out.as_mut_ptr(), 25, &mut length) };
    assert_eq!((code.number, length), (0, 25));
    let mut odd = bare;
    odd.board[0] = 2;
    assert_eq!(odd.write_line(Some(3), &mut out), Err(Refusal::Byteboard(0)));
}

#[test]
fn captures_told() {
    let rooks = position("4r3/8/8/4p3/8/8/4R3/4R3 w").captures(Mode::First, &ORDER, 12, 36).unwrap();
    let capture = |from, kind, taken| Capture { from, kind, taken };
    assert_eq!(rooks, Captures { captures: vec![capture(12, 3, 100), capture(60, 3, 487), capture(4, 3, 487)], stop: Some(1) });
    let queens = position("6k1/1b6/5n2/3p4/4P3/8/8/3Q2K1 w");
    let told = queens.captures(Mode::First, &[0, 2, 1, 3, 4, 5], 3, 35).unwrap();
    assert_eq!(told.captures, [capture(3, 4, 100), capture(49, 2, 1013), capture(28, 0, 292), capture(45, 1, 100)]);
    assert_eq!(told.stop, None);
    let sum: i32 = told.captures.iter().enumerate().map(|(i, c)| if i % 2 == 0 { c.taken as i32 } else { -(c.taken as i32) }).sum();
    assert_eq!(queens.see(Mode::First, &[0, 2, 1, 3, 4, 5], 3, 35).map(i32::from), Ok(sum));
    assert_eq!(queens.captures(Mode::First, &[0; 6], 3, 35), Err(Refusal::Order));
}

#[test]
fn second_mode() {
    let capture = |from, kind, taken| Capture { from, kind, taken };
    let passing = position("4k3/2p5/8/3pP3/8/8/8/3RK3 w - d6 0 1");
    assert_eq!(passing.see(Mode::First, &ORDER, 36, 43), Err(Refusal::Move));
    assert_eq!(passing.see(Mode::Second, &ORDER, 36, 43), Ok(100));
    let told = passing.captures(Mode::Second, &ORDER, 36, 43).unwrap();
    assert_eq!(told, Captures { captures: vec![capture(36, 0, 100), capture(50, 0, 100), capture(3, 3, 100)], stop: Some(1) });
    let promoting = position("1n5k/P7/8/8/8/8/8/4K3 w - - 0 1");
    assert_eq!(promoting.see(Mode::First, &ORDER, 48, 57), Ok(304));
    assert_eq!(promoting.see(Mode::Second, &ORDER, 48, 57), Ok(1217));
    let later = position("1n1r3k/P7/8/8/8/8/8/1Q2K3 w - - 0 1");
    assert_eq!((later.see(Mode::First, &ORDER, 1, 57), later.see(Mode::Second, &ORDER, 1, 57)), (Ok(-222), Ok(304)));
    let mut worth = 7;
    // SAFETY: the pointers are those of arrays and a local, with their lengths, and none overlap.
    let code = unsafe { doors::chess_see(later.bitboards.as_ptr(), 14, later.board.as_ptr(), 64, later.state, 2, ORDER.as_ptr(), 1, 57, &mut worth) };
    assert_eq!((code.number, worth), (1, 7));
}

#[test]
fn attacks() {
    let start = position(START);
    assert_eq!(piece_attacks(KNIGHT, 0, 0), Ok(1 << 10 | 1 << 17));
    assert_eq!(piece_attacks(14, 0, 0), Err(Refusal::Shape));
    assert_eq!(start.is_check(WHITE), Ok(false));
    assert_eq!(start.is_attacked(16, BLACK), Ok(true));
    assert_eq!(start.is_attacked(16, WHITE), Ok(false));
    let attackers = start.attacks_to(18, start.bitboards[0] | start.bitboards[1]).unwrap();
    assert_eq!(attackers, 1 << 1 | 1 << 9 | 1 << 11);
    assert_eq!(start.lvp(&ORDER, WHITE, attackers, u64::MAX), Ok(Some((9, 0))));
    assert_eq!(start.lvp(&ORDER, BLACK, attackers, u64::MAX), Ok(None));
}

#[test]
fn refusals_of_a_position() {
    // One fault after the other, each tried before the last: a byte, Black's union, White's below it, an overlap.
    let mut bent = position(START);
    bent.board[0] = 0;
    assert_eq!(bent.eval(), Err(Refusal::Byteboard(0)));
    assert_eq!(bent.trace().err(), Some(Refusal::Byteboard(0)));
    bent.bitboards[1] ^= 1 << 63;
    assert_eq!(bent.eval(), Err(Refusal::Union(63)));
    bent.bitboards[0] ^= 1 << 20;
    assert_eq!(bent.see(Mode::First, &ORDER, 0, 1), Err(Refusal::Union(20)));
    bent.bitboards[12] ^= 1 << 50;
    assert_eq!(bent.eval_material(WHITE), Err(Refusal::Overlap(50)));
    // Codes 2 and 4 at 50 and 12 and 13 at 2: the lowest square, whichever codes they are.
    bent.bitboards[2] ^= 1 << 50;
    bent.bitboards[13] ^= 1 << 2;
    assert_eq!(bent.is_check(BLACK), Err(Refusal::Overlap(2)));
    assert_eq!(bent.is_check(BLACK).unwrap_err().to_string(), "refused 14 at c1");
    bent.state.side = 2;
    assert_eq!(bent.eval(), Err(Refusal::Shape));
}

#[test]
fn lines() {
    for (line, refusal) in [
        ("x".repeat(257), Refusal::Long),
        ("8/8/8/8/8/8/8/8 w;1-0\u{7f}".to_string(), Refusal::Byte),
        (String::new(), Refusal::Field),
        ("8/8/8/8/8/8/8 w;1-0".to_string(), Refusal::Place),
        ("8/8/8/8/8/8/8/8 x;1-0".to_string(), Refusal::Side),
        ("8/8/8/8/8/8/8/8 w K;1-0".to_string(), Refusal::Rights),
        ("8/8/8/8/8/8/8/8 w -;1-0".to_string(), Refusal::Passant),
        ("8/8/8/8/8/8/8/8 w - - 0 0;1".to_string(), Refusal::Counter),
        ("8/8/8/8/8/8/8/8 w;2-0".to_string(), Refusal::Result),
    ] {
        assert_eq!(read_line(line.as_bytes()).err(), Some(refusal), "{line}");
        assert_eq!(position_field(line.as_bytes()), b"", "{line}");
    }
    assert_eq!(position_field(b"\t8/8/8/8/8/8/8/8 b - -\r;0-1"), b"8/8/8/8/8/8/8/8 b - -");
}

#[test]
fn lines_from_real_play() {
    for (line, refusal) in [
        ("8/8/8/8/8/8/4P3/4K3 w;1-0", Refusal::Kings),
        ("4k3/pppppppp/8/4p3/8/8/8/4K3 w;1-0", Refusal::Pawns),
        ("rnbqkbnr/pppppppp/8/8/4N3/8/PPPPPPPP/RNBQKBNR w;1-0", Refusal::Pieces),
        ("rnbqkbnr/pppppppp/8/4p3/4N3/8/PPPPPPPP/RNBQKBNR w;1-0", Refusal::Pawns),
        ("4k2P/8/8/8/8/8/8/p3K3 w;1-0", Refusal::Rank(0)),
        ("p3k2P/8/8/8/8/8/8/4K3 w;1-0", Refusal::Rank(56)),
        ("4k3/8/8/8/8/8/4R3/4K3 w;1-0", Refusal::Check(60)),
        ("4k3/4r3/8/8/8/8/8/4K3 b;1-0", Refusal::Check(4)),
        ("8/8/8/8/8/8/4P3/4K3 w;1", Refusal::Result),
    ] {
        assert_eq!(read_real_play(line.as_bytes()).err(), Some(refusal), "{line}");
        if refusal != Refusal::Result {
            assert_eq!(read_line(line.as_bytes()).expect("a good line").0.real_play().err(), Some(refusal), "{line}");
        }
    }
    for line in ["rnbqkbnr/pppppppp/8/8/8/8/PPPPPPPP/RNBQKBNR w;1-0", "4k3/8/8/8/8/8/4R3/4K3 b;0-1"] {
        let (position, half_points) = read_real_play(line.as_bytes()).expect(line);
        let (plain, same) = read_line(line.as_bytes()).expect(line);
        assert_eq!((position.bitboards, position.board, position.state, half_points), (plain.bitboards, plain.board, plain.state, same));
        assert_eq!(position.real_play(), Ok(()));
    }
    let mut bent = position("4k3/8/8/8/8/8/4R3/4K3 b");
    bent.board[0] = 2;
    assert_eq!(bent.real_play().err(), Some(Refusal::Byteboard(0)));
}

#[test]
fn records() {
    // A white pawn on a1 and a black queen on b1, Black to move, drawn: the lower square in the low half.
    let two = position("8/8/8/8/8/8/8/Pq6 b");
    let record = two.record(1).unwrap();
    assert_eq!((record[0], &record[1..32], record[32], record[33]), (0xd2, &[0; 31][..], 1, 1));
    let mut run = [position(START).record(2).unwrap(), record].concat();
    let (read, half_points) = read_record(&run, 1).unwrap();
    assert_eq!((read.bitboards, read.board, read.state, half_points), (two.bitboards, two.board, two.state, 1));
    assert_eq!(read.record(half_points), Ok(record));
    // The record is looked for before anything is multiplied by 34: this number times 34 is 34 in 64 bits.
    assert_eq!(read_record(&run, 1 << 63 | 1).err(), Some(Refusal::Absent));
    assert_eq!(read_record(&run, 2).err(), Some(Refusal::Absent));
    assert_eq!(read_record(&run[1..], 9).err(), Some(Refusal::Length));
    run[32] = 2;
    run[33] = 3;
    assert_eq!(read_record(&run, 0).err(), Some(Refusal::Side));
    run[31] = 0xe0;
    run[20] = 0x01;
    assert_eq!(read_record(&run, 0).err(), Some(Refusal::Code(40)));
    assert_eq!(two.record(3), Err(Refusal::Result));
    // A refusal leaves what is lent as it was: RESULT before LENGTH, and then LENGTH.
    let mut place = [7; 33];
    for (half_points, number) in [(3, 13), (1, 18)] {
        let code = unsafe { doors::chess_write_record(two.bitboards.as_ptr(), 14, two.board.as_ptr(), 64, two.state, half_points, place.as_mut_ptr(), 33) };
        assert_eq!((code.number, place), (number, [7; 33]));
    }
    let (mut bitboards, mut board) = ([5; 14], [9; 64]);
    let said = unsafe { doors::chess_read_record(run.as_ptr(), 34, 0, bitboards.as_mut_ptr(), 14, board.as_mut_ptr(), 64) };
    assert_eq!((said.code.number, said.code.square, board, bitboards), (19, 40, [9; 64], [5; 14]));
    assert_eq!((said.state, said.half_points), (State::of_side(WHITE), 0));
}

#[test]
fn summaries() {
    let pawn = position("8/8/8/8/8/8/8/Pq6 b");
    let king = position("4k3/8/8/8/8/8/8/4K3 w");
    let place = |code: usize, square: usize| 2 + 64 * (code - 2) + square;
    let (mut run, mut summary) = ([0; 3 * RECORD], [0; SUMMARY]);
    assert_eq!(pawn.add_record(1, &mut run, &mut summary), Ok(()));
    assert_eq!(king.add_record(2, &mut run, &mut summary), Ok(()));
    assert_eq!(run[..2 * RECORD], [pawn.record(1).unwrap(), king.record(2).unwrap()].concat()[..]);
    assert_eq!((summary[0], summary[1], summary[place(2, 0)], summary[place(13, 1)], summary[place(6, 4)]), (2, 3, 1, 1, 1));
    // A black piece's squares are not turned.
    assert_eq!((summary[place(7, 60)], summary[place(7, 4)], summary.iter().sum::<u64>()), (1, 0, 9));
    // The old record is taken off: what is left is the summary of the king's record twice.
    assert_eq!(king.replace_record(0, 0, &mut run, &mut summary), Ok(()));
    assert_eq!((summary[0], summary[1], summary[place(2, 0)], summary[place(6, 4)], summary.iter().sum::<u64>()), (2, 2, 0, 2, 8));
    // Record 2 of the run is there and can be read, but the summary counts two.
    let (old_run, old_summary) = (run, summary);
    assert_eq!(king.replace_record(0, 2, &mut run, &mut summary), Err(Refusal::Absent));
    assert_eq!(king.replace_record(0, 3, &mut run, &mut summary), Err(Refusal::Absent));
    assert_eq!(king.add_record(3, &mut run, &mut summary), Err(Refusal::Result));
    assert_eq!(king.add_record(1, &mut run[1..], &mut summary), Err(Refusal::Length));
    assert_eq!(king.add_record(1, &mut run[..68], &mut summary), Err(Refusal::Room));
    assert_eq!(king.add_record(1, &mut run, &mut summary[1..]), Err(Refusal::Shape));
    assert_eq!((run, summary), (old_run, old_summary));
    // MANY before ROOM; a summary that is not its store's wraps.
    summary[0] = 10_000_000;
    assert_eq!(king.add_record(1, &mut run, &mut summary), Err(Refusal::Many));
    summary[0] = 0;
    summary[1] = u64::MAX;
    summary[place(6, 4)] = u64::MAX;
    assert_eq!(king.add_record(2, &mut run, &mut summary), Ok(()));
    assert_eq!((summary[0], summary[1], summary[place(6, 4)]), (1, 1, 0));
    run[34] = 0x0f;
    assert_eq!(king.replace_record(1, 1, &mut run, &mut summary), Err(Refusal::Code(0)));
}

#[test]
fn ledger_however_it_is_cut() {
    let input = b"4k3/8/8/8/8/8/4P3/4K3 w - - 0 1;1-0\r\n\n8/8/8/8/8/8/8/8 w;1/2-1/2\n4k3/8/8/8/8/8/4P3/4K3 b;1/2";
    let ledger = |size: usize| {
        let (mut ledger, mut rows) = (Ledger::new(), Vec::new());
        input.chunks(size).for_each(|piece| ledger.feed(piece, &mut rows));
        ledger.finish(&mut rows);
        String::from_utf8(rows).unwrap()
    };
    let whole = "1 2 117\n2 refused 10\n3 1 lost\n4 refused 13\nlines 4 loaded 2 refused 2\n";
    assert!((1..=input.len()).all(|size| ledger(size) == whole));
}

#[test]
fn samples_however_they_are_cut() {
    let input = format!("{START};1-0\r\n\n4k3/8/8/8/8/8/4P3/4K3 b;0-1\nx;1-0\n8/8/8/8/8/8/8/8 w;1/2-1/2");
    let cut = |size: usize| {
        let (mut collection, mut samples, mut rows) = (Samples::new(), Vec::new(), Vec::new());
        input.as_bytes().chunks(size).for_each(|piece| collection.feed(piece, &mut samples, &mut rows));
        collection.finish(&mut samples, &mut rows);
        (samples, String::from_utf8(rows).unwrap())
    };
    let (samples, rows) = cut(input.len());
    assert!((1..input.len()).all(|size| cut(size) == (samples.clone(), rows.clone())));
    // refused lines have rows and no samples, loaded ones samples and no rows; the counts are the ledger's
    assert_eq!(rows, "2 refused 10\n4 refused 11\nlines 5 loaded 3 refused 2\n");
    assert_eq!(samples.iter().map(|sample| sample.half_points).collect::<Vec<_>>(), [2, 0, 1]);
    let weights = Weights::shipped();
    for (sample, line) in samples.iter().zip([START, "4k3/8/8/8/8/8/4P3/4K3 b", "8/8/8/8/8/8/8/8 w"]) {
        let list = position(line).trace_list().unwrap();
        assert_eq!((sample.list(), sample.zero), (list.clone(), [0, 0]), "{line}");
        assert_eq!(sample.list().eval(&weights).unwrap().to_bits(), list.eval(&weights).unwrap().to_bits(), "{line}");
    }
}

#[test]
fn samples_with_too_little_room() {
    let input = b"4k3/8/8/8/8/8/4P3/4K3 w;1-0\n";
    for (samples, rows, code) in [(300, 32, 0), (299, 32, 254), (300, 31, 254)] {
        let (mut state, mut line, mut sampled, mut wrote) = ([0u64, 0, 7, 8], [9u8; 256], 5, 6);
        let (mut made, mut told) = (vec![1u8; samples], vec![2u8; rows]);
        // SAFETY: the pointers are those of locals, with their lengths.
        let given = unsafe {
            doors::chess_samples_feed(state.as_mut_ptr(), line.as_mut_ptr(), 256, input.as_ptr(), input.len(), made.as_mut_ptr(), samples, told.as_mut_ptr(), rows,
                &mut sampled, &mut wrote)
        };
        assert_eq!(given.number, code);
        if code == 0 {
            assert_eq!((state, sampled, wrote, made[104], made[105]), ([0, 0, 8, 8], 300, 0, 3, 2));
        } else {
            // full, and nothing was written before it was said
            assert_eq!((state, line, sampled, wrote), ([0, 0, 7, 8], [9; 256], 5, 6));
            assert!(made.iter().all(|&byte| byte == 1) && told.iter().all(|&byte| byte == 2));
        }
    }
}

#[test]
fn traces() {
    let trace = position(START).trace().unwrap();
    assert_eq!(trace.counts, [8, 8, 2, 2, 2, 2, 2, 2, 1, 1, 1, 1]);
    assert_eq!((trace.sign, trace.piece_count), (1, 32));
    assert_eq!(trace.entries.iter().sum::<i32>(), 32);
    let weights = Weights::shipped();
    assert_eq!(weights.named, [100.0, 304.0, 292.0, 487.0, 1013.0, 33.0, 24.0, 47.0, 39.0, 21.0, 11.0]);
    assert_eq!(trace.eval(&weights), Ok(11.0));
    let mut odd = trace;
    odd.sign = 0;
    assert_eq!(odd.eval(&weights), Err(Refusal::Trace));
}

#[test]
fn a_code_is_read_as_its_refusal() {
    let of = |number, square| Refusal::of(Code { number, square });
    assert_eq!(of(2, NO_SQUARE), Refusal::Unknown(2, None));
    for number in (1..=32).filter(|&number| number != 2) {
        let named = [14, 15, 16, 19, 27, 28].contains(&number);
        let (square, other) = if named { (12, NO_SQUARE) } else { (NO_SQUARE, 12) };
        let refusal = of(number, square);
        assert!(!matches!(refusal, Refusal::Unknown(..)), "{number}");
        assert_eq!((refusal.number(), refusal.square()), (number, named.then_some(12)));
        assert_eq!(of(number, other), Refusal::Unknown(number, (!named).then_some(12)));
    }
    assert_eq!(of(14, 0), Refusal::Overlap(0));
    assert_eq!(of(14, 0).to_string(), "refused 14 at a1");
    assert_eq!(of(13, NO_SQUARE).to_string(), "refused 13");
    for number in [33, 254, 255] {
        assert_eq!(given(Code { number, square: 0 }, ()), Err(Refusal::Unknown(number, Some(0))));
        assert_eq!(of(number, NO_SQUARE).number(), number);
    }
}

#[test]
fn a_panic_leaves_the_rows() {
    use std::panic::{catch_unwind, AssertUnwindSafe};
    let mut rows = b"1 2 117\n".to_vec();
    let fails = |rows: &mut Vec<u8>, door: &dyn Fn(&mut [u8], &mut usize) -> Code| {
        catch_unwind(AssertUnwindSafe(|| written(rows, 32, door))).is_err()
    };
    assert!(fails(&mut rows, &|out, wrote| {
        (out[0], *wrote) = (b'2', 1);
        panic!("a closure")
    }));
    assert!(fails(&mut rows, &|out, wrote| {
        (out[0], *wrote) = (b'2', 1);
        Code { number: 254, square: NO_SQUARE }
    }));
    let mut full = Ledger { state: [0, 0, u64::MAX, 0], line: [0; 256] };
    assert!(catch_unwind(AssertUnwindSafe(|| full.feed(b"\n", &mut rows))).is_err());
    assert_eq!(rows, b"1 2 117\n");
    assert!(!fails(&mut rows, &|out, wrote| {
        (out[0], *wrote) = (b'x', 1);
        Code { number: 0, square: NO_SQUARE }
    }));
    assert_eq!(rows, b"1 2 117\nx");
}

#[test]
fn gradients() {
    let trace = position(START).trace().unwrap();
    let mut gradient = [0.0; WEIGHTS];
    assert_eq!(trace.add_gradient(0.25, &mut gradient), Ok(()));
    // as many pieces a side: of the named weights only the tempo's sum is raised
    assert_eq!(gradient[..11], [0.0, 0.0, 0.0, 0.0, 0.0, 0.0, 0.0, 0.0, 0.0, 0.0, 0.25]);
    let before = gradient;
    let mut odd = trace.clone();
    odd.entries[5] = 2;
    assert_eq!(odd.add_gradient(1.0, &mut gradient), Err(Refusal::Trace));
    assert_eq!(gradient, before);
    // an infinite coefficient times a difference of zero is a NaN, and so is the sum
    assert_eq!(trace.add_gradient(f64::INFINITY, &mut gradient), Ok(()));
    assert!(gradient[0].is_nan() && gradient[10].is_infinite());
    let mut short = [0.0; WEIGHTS - 1];
    // SAFETY: the pointers are those of arrays, with their lengths.
    let code = unsafe {
        doors::chess_gradient_add(odd.counts.as_ptr(), odd.mobility.as_ptr(), odd.sign, odd.piece_count, odd.entries.as_ptr(), 768, 1.0,
            short.as_mut_ptr(), short.len())
    };
    assert_eq!((code.number, short), (1, [0.0; WEIGHTS - 1]));
}

#[test]
fn lists() {
    let (flat, list) = (position(START).trace().unwrap(), position(START).trace_list().unwrap());
    assert_eq!((list.used, list.entries[0], list.entries[1], list.entries[31]), (32, [0, 8, 0], [0, 8, 1], [5, 4, 1]));
    assert_eq!((list.flat(), flat.list()), (Ok(flat.clone()), Ok(list.clone())));
    let mut weights = Weights::shipped();
    for (place, weight) in weights.squares.iter_mut().enumerate() {
        *weight /= (place + 3) as f64;
    }
    assert_eq!(list.eval(&weights).unwrap().to_bits(), flat.eval(&weights).unwrap().to_bits());
    let (mut one, mut other) = ([0.1; WEIGHTS], [0.1; WEIGHTS]);
    assert_eq!((list.add_gradient(0.3, &mut one), flat.add_gradient(0.3, &mut other)), (Ok(()), Ok(())));
    assert_eq!(one, other);
    // out of order, a repeat, a square past 63, an unused place that is not zero, 65 entries; and TRACE before them
    let spoilt = |spoil: &dyn Fn(&mut TraceList)| {
        let (mut odd, mut sums) = (list.clone(), [0.5; WEIGHTS]);
        spoil(&mut odd);
        let refused = odd.add_gradient(1.0, &mut sums).unwrap_err();
        assert_eq!(sums, [0.5; WEIGHTS]);
        assert_eq!((odd.flat().err(), odd.eval(&weights).err()), (Some(refused), Some(refused)));
        refused
    };
    assert_eq!(spoilt(&|odd| odd.entries.swap(0, 1)), Refusal::Entry);
    assert_eq!(spoilt(&|odd| odd.entries[1] = odd.entries[0]), Refusal::Entry);
    assert_eq!(spoilt(&|odd| odd.entries[15][1] = 64), Refusal::Entry);
    assert_eq!(spoilt(&|odd| odd.entries[63][2] = 1), Refusal::Entry);
    assert_eq!(spoilt(&|odd| odd.used = 31), Refusal::Entry);
    assert_eq!(spoilt(&|odd| odd.used = 65), Refusal::Entry);
    assert_eq!(spoilt(&|odd| (odd.used, odd.sign) = (65, 0)), Refusal::Trace);
    let mut crowded = flat.clone();
    crowded.entries[..65].fill(1);
    crowded.entries[65..].fill(0);
    assert_eq!(crowded.list(), Err(Refusal::Entry));
    assert!(crowded.eval(&weights).is_ok());
    crowded.entries[64] = 0;
    assert_eq!(crowded.list().map(|list| list.used), Ok(64));
    let mut bent = position(START);
    bent.board[0] = 0;
    assert_eq!(bent.trace_list(), Err(Refusal::Byteboard(0)));
}

#[test]
fn steps() {
    let mut gradient = [0.0; WEIGHTS];
    gradient[0] = 1.0;
    gradient[1] = 1.0;
    let shipped = Fit::shipped();
    let mut fit = shipped.clone();
    for iteration in [0, 1_000_001, u64::MAX] {
        assert_eq!(fit.step(&gradient, iteration, 1.0), Err(Refusal::Iteration));
        assert_eq!(fit, shipped);
    }
    assert_eq!(fit.step(&gradient, 1, 1.0), Ok(()));
    assert_eq!((fit.weights[0], fit.first_moments[0], fit.second_moments[0]), (100.0, 0.0, 0.0));
    // 1 − 0.9 and 1 − 0.999 are worked out, and no 0.1 and 0.001
    assert_eq!((fit.first_moments[1], fit.second_moments[1]), (1.0 - 0.9, 1.0 - 0.999));
    assert_eq!(fit.weights[1].to_bits(), (304.0f64 - 1.0 / (1.0 + 1e-8)).to_bits());
    assert_eq!(fit.step(&gradient, 1_000_000, f64::NAN), Ok(()));
    assert!(fit.weights[0] == 100.0 && fit.weights[1].is_nan());
    for short in 0..4 {
        let mut lists = [[0.0; WEIGHTS]; 4];
        let length = |list: usize| if list == short { WEIGHTS - 1 } else { WEIGHTS };
        let [gradient, first, second, weights] = &mut lists;
        // SAFETY: the pointers are those of arrays that are at least as long.
        let code = unsafe {
            doors::chess_adam_step(gradient.as_ptr(), length(0), first.as_mut_ptr(), length(1), second.as_mut_ptr(), length(2), weights.as_mut_ptr(),
                length(3), 0, 1.0)
        };
        assert_eq!(code.number, 1);
    }
}

#[test]
fn table_coefficients() {
    let expects = |value: f64| table_coefficient(value, 1, 1.0, 1).unwrap().0;
    // rounded down, not toward zero: the least double below zero counts as -1, and -1 as -4
    assert_eq!([0.0, -0.0, 3.9, 4.0, -5e-324, -4.0, -4.5].map(expects), [0.5, 0.5, 0.5, 0.505756, 0.494243, 0.494243, 0.488489]);
    assert_eq!([1599.9, 1600.0, 1e300, f64::INFINITY].map(expects), [0.999897, 0.9999, 0.9999, 0.9999]);
    assert_eq!([-1599.9, -1600.0, -1600.1, f64::NEG_INFINITY].map(expects), [0.000099; 4]);
    // every score of the table, beside `expected`
    for score in -1700i16..1700 {
        assert_eq!(expects(score.into()), f64::from(expected(score)) / 1e6);
        assert_eq!(expects(f64::from(score) + 0.5), f64::from(expected(score)) / 1e6);
    }
    // the source's operations, each rounded once, over half points, K and counts; -2 * error first
    for (value, half, k, lines) in [(117.0, 2, 1.0, 1), (-33.25, 0, 1.3, 7), (250.5, 1, 0.7, 100_000), (-1e9, 2, 2.5, (1 << 53) + 1), (5.0, 1, -1.0, u64::MAX)] {
        let (s, coefficient) = table_coefficient(value, half, k, lines).unwrap();
        let slope = s * (1.0 - s) * k * std::f64::consts::LN_10 / 400.0;
        let error = f64::from(half) / 2.0 - s;
        assert_eq!(coefficient.to_bits(), (-2.0 * error * slope / lines as f64).to_bits());
    }
    let (s, coefficient) = table_coefficient(f64::NAN, 1, 1.0, 1).unwrap();
    assert!(s.is_nan() && coefficient.is_nan());
    assert!(table_coefficient(0.0, 1, f64::INFINITY, 1).unwrap().0.is_nan());
    assert_eq!(table_coefficient(0.0, 3, 1.0, 0), Err(Refusal::Shape));
    assert_eq!(table_coefficient(0.0, 3, 1.0, 1), Err(Refusal::Result));
}

#[test]
fn expected_results() {
    assert_eq!([0, 3, 4, -1, -4].map(expected), [500_000, 500_000, 505_756, 494_243, 494_243]);
    assert_eq!([-1600, -1601, i16::MIN].map(expected), [99; 3]);
    assert_eq!([1600, 1601, i16::MAX].map(expected), [999_900; 3]);
}

#[test]
fn totals() {
    let mut totals = Totals::default();
    assert_eq!(totals.add(WHITE, Some(117), 2), Ok(()));
    let won = (1_000_000 - expected(116) as u64).pow(2);
    assert_eq!(totals, Totals { scored: 1, apart: 0, sum: won });
    // turned to White's side before it is taken down to a multiple of four
    assert_eq!(totals.add(BLACK, Some(3), 0), Ok(()));
    assert_eq!(totals, Totals { scored: 2, apart: 0, sum: won + (expected(-4) as u64).pow(2) });
    assert_eq!(totals.add(WHITE, None, 1), Ok(()));
    assert_eq!((totals.scored, totals.apart), (2, 1));
    let before = totals;
    assert_eq!(totals.add(2, Some(0), 3), Err(Refusal::Shape));
    assert_eq!(totals.add(BLACK, Some(0), 3), Err(Refusal::Result));
    assert_eq!(totals, before);
    // each kind is full by itself, and a sum past 64 bits is one line too many
    let mut full = Totals { scored: 1_000_000, apart: 999_999, sum: 0 };
    assert_eq!(full.add(WHITE, Some(0), 1), Err(Refusal::Many));
    assert_eq!(full.add(WHITE, None, 1), Ok(()));
    assert_eq!(full.add(WHITE, None, 1), Err(Refusal::Many));
    assert_eq!(full, Totals { scored: 1_000_000, apart: 1_000_000, sum: 0 });
    let mut large = Totals { scored: 1, apart: 0, sum: u64::MAX };
    assert_eq!(large.add(WHITE, Some(0), 2), Err(Refusal::Many));
    assert_eq!(large.add(WHITE, Some(0), 1), Ok(()));
}

#[test]
fn collections() {
    let collection = b"4k3/8/8/8/8/8/4P3/4K3 w - - 0 1;1-0\n8/8/8/8/8/8/8/8 w;1/2-1/2\n4k3/8/8/8/8/8/4P3/4K3 b;1/2-1/2\r\n4k3/8/8/8/8/8/4P3/4K3 b;1/2";
    for cut in 0..=collection.len() {
        let mut error = CollectionError::new();
        error.feed(&collection[..cut]);
        error.feed(&collection[cut..]);
        assert_eq!(error.end(), Ok((Totals { scored: 2, apart: 1, sum: 131_662_932_545 }, 1)));
    }
    // a state that says that a line found no room, and line buffers of other lengths: nothing is written
    let (mut state, mut line, mut numbers, mut lines) = ([0, 0, 0, 0, 0, 0, 1], [7; 256], [8; 3], 9);
    // SAFETY: the pointers are those of arrays that are at least as long.
    let codes = unsafe {
        [
            doors::chess_error_end(state.as_ptr(), line.as_ptr(), 256, numbers.as_mut_ptr(), &mut lines),
            doors::chess_error_end(state.as_ptr(), line.as_ptr(), 255, numbers.as_mut_ptr(), &mut lines),
            doors::chess_error_feed(state.as_mut_ptr(), line.as_mut_ptr(), 255, collection.as_ptr(), collection.len()),
        ]
    };
    assert_eq!(codes.map(|code| code.number), [22, 1, 1]);
    assert_eq!((state, line, numbers, lines), ([0, 0, 0, 0, 0, 0, 1], [7; 256], [8; 3], 9));
}

#[test]
fn parts_of_a_collection() {
    let collection = b"4k3/8/8/8/8/8/4P3/4K3 w - - 0 1;1-0\n8/8/8/8/8/8/8/8 w;1/2-1/2\n4k3/8/8/8/8/8/4P3/4K3 b;1/2-1/2\r\n4k3/8/8/8/8/8/4P3/4K3 b;1/2";
    let over = |part: &[u8]| {
        let mut error = CollectionError::new();
        error.feed(part);
        error.end().unwrap()
    };
    // cut at the start, after each line, and at the end
    let cuts = (0..=collection.len()).filter(|&cut| cut == 0 || cut == collection.len() || collection[cut - 1] == b'\n');
    for cut in cuts {
        let joined = join_errors(over(&collection[..cut]), over(&collection[cut..]));
        assert_eq!(joined, Ok((Totals { scored: 2, apart: 1, sum: 131_662_932_545 }, 1)));
    }
    let part = |scored, apart, sum, refused| (Totals { scored, apart, sum }, refused);
    assert_eq!(join_errors(part(600_000, 0, 1, 2), part(400_000, 1_000_000, 3, 4)), Ok(part(1_000_000, 1_000_000, 4, 6)));
    assert_eq!(join_errors(part(600_000, 0, 0, 0), part(400_001, 0, 0, 0)), Err(Refusal::Many));
    assert_eq!(join_errors(part(0, 1_000_000, 0, 0), part(0, 1, 0, 0)), Err(Refusal::Many));
    assert_eq!(join_errors(part(1, 0, u64::MAX, 0), part(1, 0, 1, 0)), Err(Refusal::Many));
    assert_eq!(join_errors(part(0, 0, 0, 1), part(0, 0, 0, u64::MAX)), Err(Refusal::Many));
    // a refusal changes nothing
    let (mut numbers, mut lines) = ([1, 2, 3], 4);
    // SAFETY: the pointers are those of arrays of three numbers.
    let code = unsafe { doors::chess_error_join(numbers.as_mut_ptr(), &mut lines, [1_000_000, 0, 0].as_ptr(), 5) };
    assert_eq!((code.number, numbers, lines), (22, [1, 2, 3], 4));
}

#[test]
fn parts_of_a_store() {
    let pawn = position("8/8/8/8/8/8/8/P7 w");
    let place = |code: usize, square: usize| 2 + 64 * (code - 2) + square;
    let summary_of = |records: u8| {
        let (mut run, mut summary) = (vec![0; RECORD * usize::from(records)], vec![0; SUMMARY]);
        for _ in 0..records {
            pawn.add_record(1, &mut run, &mut summary).unwrap();
        }
        summary
    };
    let mut summary = summary_of(2);
    assert_eq!(join_summary(&mut summary, &summary_of(3)), Ok(()));
    assert_eq!(summary, summary_of(5));
    assert_eq!((summary[0], summary[1], summary[place(2, 0)]), (5, 5, 5));
    // the 10,000,000th record and one more; other sizes; a summary that is not its store's wraps
    let mut more = vec![0; SUMMARY];
    more[0] = 9_999_995;
    more[769] = u64::MAX;
    summary[769] = 2;
    let old = summary.clone();
    assert_eq!(join_summary(&mut summary[1..], &more), Err(Refusal::Shape));
    assert_eq!(join_summary(&mut summary, &more[1..]), Err(Refusal::Shape));
    more[0] += 1;
    assert_eq!(join_summary(&mut summary, &more), Err(Refusal::Many));
    assert_eq!(summary, old);
    more[0] -= 1;
    assert_eq!(join_summary(&mut summary, &more), Ok(()));
    assert_eq!((summary[0], summary[769]), (10_000_000, 1));
}
