// Two ledgers of the same input: the library's, fed in pieces, and a straightforward one in Rust over the original's eval.
use crate::chess_scores::doors::{chess_ledger_feed, chess_ledger_finish};
use crate::common::{Score, INF};
use crate::eval::{self, Eval};
use crate::game::Game;
use crate::piece::{Piece, PieceChar, EMPTY};
use crate::placement;
use std::io::{BufRead, Read, Write};

const PIECE: usize = 1 << 16;

pub fn ours(mut input: impl Read, mut output: impl Write) -> std::io::Result<()> {
    let (mut state, mut line, mut wrote) = ([0u64; 4], [0u8; 256], 0usize);
    let (mut piece, mut out) = (vec![0u8; PIECE], vec![0u8; 32 * PIECE]);
    loop {
        let count = input.read(&mut piece)?;
        if count == 0 {
            break;
        }
        let code = unsafe {
            chess_ledger_feed(state.as_mut_ptr(), line.as_mut_ptr(), line.len(), piece.as_ptr(), count, out.as_mut_ptr(), out.len(), &mut wrote)
        };
        assert_eq!(code.number, 0);
        output.write_all(&out[..wrote])?;
    }
    let code = unsafe { chess_ledger_finish(state.as_ptr(), line.as_ptr(), line.len(), out.as_mut_ptr(), out.len(), &mut wrote) };
    assert_eq!(code.number, 0);
    output.write_all(&out[..wrote])
}

fn trimmed(text: &[u8]) -> &[u8] {
    let blank = |byte: &u8| matches!(byte, b' ' | b'\t' | b'\r');
    let start = text.iter().position(|byte| !blank(byte)).unwrap_or(text.len());
    let end = text.iter().rposition(|byte| !blank(byte)).map_or(start, |last| last + 1);
    &text[start..end]
}

fn ranks(text: &[u8]) -> Option<[Piece; 64]> {
    let mut board = [EMPTY; 64];
    let mut count = 0;
    for (down, rank) in text.split(|&byte| byte == b'/').enumerate() {
        let mut file = 0;
        for &byte in rank {
            if down > 7 || file > 7 {
                return None;
            }
            match byte {
                b'1'..=b'8' => file += (byte - b'0') as usize,
                b'P' | b'N' | b'B' | b'R' | b'Q' | b'K' | b'p' | b'n' | b'b' | b'r' | b'q' | b'k' => {
                    board[8 * (7 - down) + file] = Piece::from_char(byte as char);
                    file += 1;
                }
                _ => return None,
            }
        }
        if file != 8 {
            return None;
        }
        count += 1;
    }
    (count == 8).then_some(board)
}

/// The board, the side and the half points, or the number of the refusal.
fn read(line: &[u8]) -> Result<([Piece; 64], u8, u8), u8> {
    if line.len() > 256 {
        return Err(8);
    }
    if !line.iter().all(|byte| matches!(byte, 32..=126 | b'\t' | b'\r')) {
        return Err(9);
    }
    let mut fields = line.split(|&byte| byte == b';');
    let (Some(position), Some(result)) = (fields.next(), fields.next()) else { return Err(10) };
    let mut words = trimmed(position).splitn(2, |&byte| byte == b' ');
    let board = ranks(words.next().unwrap_or(b"")).ok_or(11u8)?;
    let rest = words.next().unwrap_or(b"");
    let side = match rest.split(|&byte| byte == b' ').find(|word| !word.is_empty()) {
        Some(b"w") => 0,
        Some(b"b") => 1,
        _ => return Err(12),
    };
    match trimmed(result) {
        b"1-0" => Ok((board, side, 2)),
        b"1/2-1/2" => Ok((board, side, 1)),
        b"0-1" => Ok((board, side, 0)),
        _ => Err(13),
    }
}

fn put_score(output: &mut impl Write, game: &Game, score: Score) -> std::io::Result<()> {
    match eval::ending(game) {
        Some(0) => writeln!(output, "drawn"),
        Some(INF) => writeln!(output, "won"),
        Some(_) => writeln!(output, "lost"),
        None => writeln!(output, "{}", score),
    }
}

pub fn theirs(input: impl BufRead, mut output: impl Write) -> std::io::Result<()> {
    let mut game = Game::new();
    let (mut lines, mut loaded) = (0u64, 0u64);
    for line in input.split(b'\n') {
        let mut line = line?;
        if line.last() == Some(&b'\r') {
            line.pop();
        }
        lines += 1;
        match read(&line) {
            Err(number) => writeln!(output, "{} refused {}", lines, number)?,
            Ok((board, side, half)) => {
                loaded += 1;
                placement::fill(&mut game, &board, side);
                write!(output, "{} {} ", lines, half)?;
                let score = game.eval();
                put_score(&mut output, &game, score)?;
            }
        }
    }
    writeln!(output, "lines {} loaded {} refused {}", lines, loaded, lines - loaded)?;
    output.flush()
}
