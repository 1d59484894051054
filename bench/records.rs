// A store beside the same collection as text: the same positions, read record by record and line by line through the doors.
use crate::chess_scores::doors::{chess_read_line, chess_read_record, chess_write_record};
use crate::chess_scores::Line;
use crate::processor::seconds;
use std::hint::black_box;

const RECORD: usize = 34;

/// What one line says; the position is written over what was there.
fn read_line(line: &[u8], bitboards: &mut [u64; 14], board: &mut [u8; 64]) -> Line {
    unsafe { chess_read_line(line.as_ptr(), line.len(), bitboards.as_mut_ptr(), 14, board.as_mut_ptr(), 64) }
}

/// The store of the lines that are loaded, and those lines.
fn packed(input: &[u8]) -> (Vec<u8>, Vec<&[u8]>) {
    let (mut store, mut loaded) = (Vec::new(), Vec::new());
    let (mut bitboards, mut board) = ([0u64; 14], [0u8; 64]);
    for line in input.split(|&byte| byte == b'\n') {
        let said = read_line(line, &mut bitboards, &mut board);
        if said.code.number == 0 {
            let mut place = [0u8; RECORD];
            let code = unsafe { chess_write_record(bitboards.as_ptr(), 14, board.as_ptr(), 64, said.state, said.half_points, place.as_mut_ptr(), RECORD) };
            assert_eq!(code.number, 0);
            store.extend_from_slice(&place);
            loaded.push(line);
        }
    }
    (store, loaded)
}

/// Both in turn, the least processor time of some rounds; what is read comes to the same half points.
pub fn table(input: &[u8], rounds: usize) {
    let (store, loaded) = packed(input);
    let (mut best_record, mut best_line) = (f64::MAX, f64::MAX);
    let (mut bitboards, mut board) = ([0u64; 14], [0u8; 64]);
    for _ in 0..rounds {
        let mut points = [0u64; 2];
        best_record = best_record.min(seconds(|| {
            for number in 0..loaded.len() as u64 {
                let run = black_box(&store);
                let said = unsafe { chess_read_record(run.as_ptr(), run.len(), number, bitboards.as_mut_ptr(), 14, board.as_mut_ptr(), 64) };
                points[0] += black_box(said.half_points) as u64;
            }
        }));
        best_line = best_line.min(seconds(|| {
            for line in black_box(&loaded) {
                let said = read_line(line, &mut bitboards, &mut board);
                points[1] += black_box(said.half_points) as u64;
            }
        }));
        assert_eq!(points[0], points[1], "the store has other results than the lines");
    }
    let each = 1e9 / loaded.len() as f64;
    let bytes: usize = loaded.iter().map(|line| line.len() + 1).sum();
    println!("{:<14} {:>10} {:>10} {:>7} {:>12}", "records", "record ns", "line ns", "times", "bytes a line");
    println!("{:<14} {:>10.1} {:>10.1} {:>7.2} {:>12.1}", loaded.len(), best_record * each, best_line * each, best_line / best_record, bytes as f64 / loaded.len() as f64);
}
