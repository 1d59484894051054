// Growth of a store with its summary: a record added costs the same however many records the store has.
use crate::chess_scores::doors::{chess_add_record, chess_read_line};
use crate::processor::seconds;
use std::hint::black_box;

const RECORD: usize = 34;
const SUMMARY: usize = 770;
const ADDED: usize = 1000;
const START: &[u8] = b"rnbqkbnr/pppppppp/8/8/8/8/PPPPPPPP/RNBQKBNR w;1-0";

/// The last thousand records of stores of a thousand, a hundred thousand and ten million: the least processor time of some rounds.
pub fn table(rounds: usize) {
    let (mut bitboards, mut board) = ([0u64; 14], [0u8; 64]);
    let said = unsafe { chess_read_line(START.as_ptr(), START.len(), bitboards.as_mut_ptr(), 14, board.as_mut_ptr(), 64) };
    assert_eq!(said.code.number, 0);
    println!("{:<14} {:>10}", "records", "add ns");
    for records in [1_000, 100_000, 10_000_000] {
        let (mut run, mut summary) = (vec![0u8; RECORD * records], [0u64; SUMMARY]);
        let mut best = f64::MAX;
        for _ in 0..rounds {
            summary[0] = (records - ADDED) as u64;
            best = best.min(seconds(|| {
                for _ in 0..ADDED {
                    let run = black_box(&mut run);
                    let code = unsafe {
                        chess_add_record(bitboards.as_ptr(), 14, board.as_ptr(), 64, said.state, said.half_points, run.as_mut_ptr(), run.len(), summary.as_mut_ptr(), SUMMARY)
                    };
                    assert_eq!(code.number, 0);
                }
            }));
            assert_eq!(summary[0], records as u64);
        }
        println!("{:<14} {:>10.1}", records, best * 1e9 / ADDED as f64);
    }
}
