// Stands in for sliders.rs: document 01 says that ray attacks follow the given dumb7fill.rs.
pub use crate::dumb7fill::{bishop_attacks, rook_attacks};
