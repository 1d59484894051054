// The original's eval.rs, and doors to its private functions.
include!(concat!(env!("LITTLEWING"), "/eval.rs"));

pub fn ending(game: &Game) -> Option<Score> {
    game.eval_ending(game.side())
}

pub fn least(game: &Game, side: Color, attacks: Bitboard, occupied: Bitboard) -> Square {
    game.lvp(side, attacks, occupied)
}
