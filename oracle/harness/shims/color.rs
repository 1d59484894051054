// Stands in for color.rs: the numbers are document 01's.
pub type Color = u8;

pub const WHITE: Color = 0;
pub const BLACK: Color = 1;
pub const COLORS: [Color; 2] = [WHITE, BLACK];
