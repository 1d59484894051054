// Stands in for piece_move.rs: the exchange asks a move for its two squares only.
use crate::square::Square;

#[derive(Clone, Copy)]
pub struct PieceMove {
    start: Square,
    target: Square,
}

impl PieceMove {
    pub fn capture(start: Square, target: Square) -> PieceMove {
        PieceMove { start, target }
    }

    pub fn from(self) -> Square {
        self.start
    }

    pub fn to(self) -> Square {
        self.target
    }
}
