// A position as a line of document 01, `PLACEMENT SIDE;RESULT`, to and from the original's `Game`.
use crate::bitboard::BitboardExt;
use crate::color::{Color, BLACK, WHITE};
use crate::game::Game;
use crate::piece::{Piece, PieceAttr, PieceChar, EMPTY};

/// A `Game` that holds these codes and this side, consistent in 01's sense.
pub fn game_of(board: &[Piece; 64], side: Color) -> Game {
    let mut game = Game::new();
    fill(&mut game, board, side);
    game
}

/// The same in a `Game` that is there already: making one costs more than most questions.
pub fn fill(game: &mut Game, board: &[Piece; 64], side: Color) {
    game.bitboards = [0; 14];
    game.board = *board;
    for square in 0..64u8 {
        let piece = board[square as usize];
        if piece != EMPTY {
            game.bitboards[piece as usize].set(square);
            game.bitboards[piece.color() as usize].set(square);
        }
    }
    game.positions.set_side(side);
}

pub fn pieces_on(board: &[Piece; 64]) -> usize {
    board.iter().filter(|&&piece| piece != EMPTY).count()
}

pub fn many(board: &[Piece; 64], piece: Piece) -> usize {
    board.iter().filter(|&&on| on == piece).count()
}

/// The board and side of a line that the harness or the README wrote; anything else ends the run.
pub fn read(line: &str) -> ([Piece; 64], Color) {
    let field = line.split(';').next().unwrap();
    let mut parts = field.split(' ').filter(|part| !part.is_empty());
    let placement = parts.next().expect("a placement");
    let side = match parts.next() {
        Some("w") => WHITE,
        Some("b") => BLACK,
        _ => panic!("the side is w or b: {}", line),
    };
    let mut board = [EMPTY; 64];
    let ranks: Vec<&str> = placement.split('/').collect();
    assert!(ranks.len() == 8, "eight ranks: {}", line);
    for (down, rank) in ranks.iter().enumerate() {
        let mut file = 0;
        for letter in rank.chars() {
            match letter.to_digit(10) {
                Some(empty) => file += empty as usize,
                None => {
                    let piece = Piece::from_char(letter);
                    assert!(piece != EMPTY, "a piece's letter: {}", line);
                    board[8 * (7 - down) + file] = piece;
                    file += 1;
                }
            }
        }
        assert!(file == 8, "eight squares to a rank: {}", line);
    }
    (board, side)
}

/// The line of a board and side, each empty run as one digit. The result is always `1-0`: no question asks it.
pub fn write(board: &[Piece; 64], side: Color) -> String {
    let mut ranks = Vec::new();
    for rank in (0..8).rev() {
        let mut text = String::new();
        let mut empty = 0;
        for file in 0..8 {
            let piece = board[8 * rank + file];
            if piece == EMPTY {
                empty += 1;
                continue;
            }
            if empty > 0 {
                text.push_str(&empty.to_string());
                empty = 0;
            }
            text.push(piece.to_char());
        }
        if empty > 0 {
            text.push_str(&empty.to_string());
        }
        ranks.push(text);
    }
    format!("{} {};1-0", ranks.join("/"), if side == WHITE { "w" } else { "b" })
}
