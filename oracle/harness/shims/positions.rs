// Stands in for positions.rs: of a position's state only the side to move is asked.
use crate::color::{Color, WHITE};

#[derive(Clone)]
pub struct Position {
    pub side: Color,
}

#[derive(Clone)]
pub struct Positions {
    current: Position,
}

impl Positions {
    pub fn new() -> Positions {
        Positions { current: Position { side: WHITE } }
    }

    pub fn clear(&mut self) {
        self.current.side = WHITE;
    }

    pub fn top(&self) -> &Position {
        &self.current
    }

    pub fn set_side(&mut self, side: Color) {
        self.current.side = side;
    }
}
