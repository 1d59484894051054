// Positions of a seed, written through the door and read again: the line must give the position and the result back, and be written as the same bytes.
use crate::chess_scores::{read_line, Position, State};
use crate::random::Random;

/// A state that the board bears out: of the rights that it allows some, an en passant square where the one drawn may stand, any counters.
fn state(random: &mut Random, board: &[u8; 64]) -> State {
    let mut right = |king: usize, rook: usize, colour: u8| board[king] == 6 + colour && board[rook] == 10 + colour && random.below(2) == 1;
    let (white_short, white_long) = (right(4, 7, 0), right(4, 0, 0));
    let (black_short, black_long) = (right(60, 63, 1), right(60, 56, 1));
    let side = random.below(2) as u8;
    let (first, pawn_at, pawn) = if side == 0 { (40, -8, 3) } else { (16, 8, 2) };
    let square = first + random.below(8) as usize;
    let passed = board[square] == 0 && board[square.wrapping_add_signed(pawn_at)] == pawn;
    State {
        white_short,
        white_long,
        black_short,
        black_long,
        passant: if passed { square as u8 } else { State::of_side(side).passant },
        halfmoves: random.below(10000) as u16,
        moves: 1 + random.below(9999) as u16,
        ..State::of_side(side)
    }
}

/// A position of any density, sides in turn: bitboards and bytes from one drawing.
fn drawn(random: &mut Random) -> Position {
    let mut position = Position { bitboards: [0; 14], board: [0; 64], state: State::of_side(0) };
    let occupied = random.bitboard();
    for square in (0..64).filter(|square| occupied >> square & 1 == 1) {
        let code = 2 + random.below(12) as usize;
        position.board[square] = code as u8;
        position.bitboards[code] |= 1 << square;
        position.bitboards[code & 1] |= 1 << square;
    }
    position.state = state(random, &position.board);
    position
}

/// Whether the line comes back, with room for just its bytes; and its length.
fn comes_back(position: Position, half: u8) -> Option<usize> {
    let (mut line, mut again) = ([0; 99], [0; 99]);
    let length = position.write_line(Some(half), &mut line).ok()?;
    let (read, half_read) = read_line(&line[..length]).ok()?;
    let written = read.write_line(Some(half_read), &mut again[..length]).ok()?;
    let same = read == position && half_read == half && written == length && line[..length] == again[..length];
    same.then_some(length)
}

/// How many positions there are and how many came back, and the shortest and the longest line.
pub fn run(seed: u64, count: u64) -> bool {
    let (mut back, mut shortest, mut longest) = (0, usize::MAX, 0);
    for place in 0..count {
        let mut random = Random::at(seed, place);
        let position = drawn(&mut random);
        if let Some(length) = comes_back(position, random.below(3) as u8) {
            back += 1;
            shortest = shortest.min(length);
            longest = longest.max(length);
        }
    }
    println!("positions {count} came back {back} shortest {shortest} longest {longest}");
    back == count
}
