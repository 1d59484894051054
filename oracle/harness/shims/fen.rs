// Stands in for fen.rs: a `load_fen` that takes every text and keeps it, so that the caller's reading shows.
use crate::game::Game;
use std::sync::Mutex;

static HANDED: Mutex<Vec<String>> = Mutex::new(Vec::new());

pub trait FEN {
    fn load_fen(&mut self, fen: &str) -> Result<(), ()>;
}

impl FEN for Game {
    fn load_fen(&mut self, fen: &str) -> Result<(), ()> {
        HANDED.lock().unwrap().push(fen.to_string());
        Ok(())
    }
}

/// The texts handed to `load_fen` since the last call.
pub fn handed() -> Vec<String> {
    std::mem::take(&mut *HANDED.lock().unwrap())
}
