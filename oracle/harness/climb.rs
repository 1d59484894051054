// Positions at the bounds of SCORE, found by changing a board step by step towards a number.
use crate::color::{Color, WHITE};
use crate::families::scattered;
use crate::piece::*;
use crate::placement::many;
use crate::random::Random;
use crate::wide::{Clause, Wide, CLAUSES, HIGH, LOW};

type Position = ([Piece; 64], Color);

/// A verdict would come before SCORE: two kings are owed first.
fn kings_owed(board: &[Piece; 64]) -> i64 {
    let kings = many(board, WHITE_KING) + many(board, BLACK_KING);
    100_000 * (2 - kings as i64).max(0)
}

/// A start from which the clause can be reached: full boards for the products, kings on one side for the sums,
/// the side to move far ahead if the sum is to be high.
fn start(clause: Clause, high: bool, random: &mut Random) -> Position {
    let side = random.below(2) as Color;
    let mut board = [EMPTY; 64];
    match clause {
        Clause::Opening | Clause::Ending | Clause::Products => {
            let strong = random.below(2) as Color;
            let count = random.between(54, 62) as usize;
            let mut from = vec![strong | PAWN, strong ^ 1 | PAWN, strong | PAWN, strong ^ 1 | PAWN];
            from.extend([strong | KNIGHT, strong | ROOK, strong | QUEEN]);
            scattered(&mut board, 2, &[side | KING, side ^ 1 | KING], random);
            scattered(&mut board, count, &from, random);
        }
        Clause::Material => {
            let strong = random.below(2) as Color;
            scattered(&mut board, random.between(1, 3) as usize, &[strong | KING], random);
            scattered(&mut board, random.between(1, 2) as usize, &[strong ^ 1 | KING], random);
            scattered(&mut board, random.between(5, 30) as usize, &[strong | QUEEN, strong | PAWN], random);
        }
        _ => {
            // Far ahead: two or three kings, pawns about to promote. The other has no king, and bishops that see far.
            let ahead = if high { side } else { side ^ 1 };
            let seventh = if ahead == WHITE { 48 } else { 8 };
            board[seventh..seventh + 8].fill(ahead | PAWN);
            scattered(&mut board, random.between(2, 3) as usize, &[ahead | KING], random);
            scattered(&mut board, random.between(2, 12) as usize, &[ahead | PAWN, ahead | ROOK, ahead | QUEEN], random);
            scattered(&mut board, random.between(1, 2) as usize, &[ahead ^ 1 | BISHOP], random);
        }
    }
    (board, side)
}

/// One to three small changes: two squares change places, or one square's contents change. Several at once get
/// past numbers that no single change improves.
fn changed(board: &[Piece; 64], random: &mut Random) -> [Piece; 64] {
    let mut next = *board;
    for _ in 0..random.between(1, 3) {
        let square = random.square() as usize;
        match random.below(4) {
            0 | 1 => next.swap(square, random.square() as usize),
            2 => next[square] = EMPTY,
            _ => next[square] = random.pick(&PIECES[..5]) | random.below(2) as Color,
        }
    }
    next
}

/// Goes downhill on the cost until it is 0 or the steps are used up.
fn climbed(
    start: Position,
    steps: usize,
    random: &mut Random,
    cost: impl Fn(&[Piece; 64], Color) -> i64,
) -> (Position, i64) {
    let (mut board, side) = start;
    let mut least = cost(&board, side);
    for _ in 0..steps {
        if least == 0 {
            break;
        }
        let next = changed(&board, random);
        let now = cost(&next, side);
        if now <= least {
            least = now;
            board = next;
        }
    }
    ((board, side), least)
}

/// A position whose number in one clause stands at a bound of i16: mostly the last number inside or the first outside,
/// at times up to three further. The material and the products that are not asked for stay inside, so that the answer
/// hangs on that number.
pub fn at_bound(random: &mut Random) -> Position {
    let clause = random.pick(&CLAUSES);
    let bound = if clause == Clause::Material || random.one_in(2) { HIGH } else { LOW };
    let outwards = if random.one_in(4) { random.between(-3, 3) } else { random.between(0, 1) };
    let wanted = bound + if bound == HIGH { outwards } else { -outwards };
    let aim = |board: &[Piece; 64], side: Color| {
        let wide = Wide::of(board, side);
        let near = wide.tested(clause).iter().map(|&number| (number - wanted).abs()).min().unwrap();
        let others = CLAUSES[..4].iter().filter(|&&other| other != clause);
        near + others.map(|&other| wide.outside(other)).sum::<i64>() + kings_owed(board)
    };
    climbed(start(clause, bound == HIGH, random), 6000, random, aim).0
}

/// A position in which this clause holds and no other does; nothing if the search did not find one.
pub fn alone(clause: Clause, random: &mut Random) -> Option<Position> {
    let aim = |board: &[Piece; 64], side: Color| {
        let wide = Wide::of(board, side);
        let others = CLAUSES.iter().filter(|&&other| other != clause);
        wide.inside(clause) + others.map(|&other| wide.outside(other)).sum::<i64>() + kings_owed(board)
    };
    (0..4).find_map(|_| {
        // 11 more brings a sum back from below, and takes one out above: only there do the last two stand alone.
        let high = clause == Clause::Tempo || clause != Clause::Mobility && random.one_in(2);
        let (position, cost) = climbed(start(clause, high, random), 5000, random, aim);
        Some(position).filter(|_| cost == 0)
    })
}
