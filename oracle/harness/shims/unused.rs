// Stand-ins for what `Game` holds besides a position: none of it is read by the functions asked.
pub mod clock {
    #[derive(Clone)]
    pub struct Clock;

    impl Clock {
        pub fn new(_moves: u16, _seconds: u64) -> Clock {
            Clock
        }
    }
}

pub mod history {
    pub trait HistoryHeuristic {
        fn clear_history(&mut self);
    }

    impl HistoryHeuristic for crate::game::Game {
        fn clear_history(&mut self) {}
    }
}

pub mod piece_move_list {
    #[derive(Clone)]
    pub struct PieceMoveList;

    impl PieceMoveList {
        pub fn new() -> PieceMoveList {
            PieceMoveList
        }

        pub fn clear_all(&mut self) {}
    }
}

pub mod protocols {
    #[derive(Clone)]
    pub enum Protocol {
        CLI,
    }
}

pub mod transposition_table {
    #[derive(Clone)]
    pub struct TranspositionTable {
        memory: usize,
    }

    impl TranspositionTable {
        pub fn with_memory(memory: usize) -> TranspositionTable {
            TranspositionTable { memory }
        }

        pub fn memory(&self) -> usize {
            self.memory
        }
    }
}

pub mod zobrist {
    #[derive(Clone)]
    pub struct Zobrist;

    impl Zobrist {
        pub fn new() -> Zobrist {
            Zobrist
        }
    }
}
