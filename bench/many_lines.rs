// Many lines at once: the doors over a collection beside the doors called line by line, where each tests again the position that was just read.
use crate::chess_scores::doors::{chess_compute_list, chess_eval, chess_read_line, chess_samples_feed};
use crate::chess_scores::Line;
use crate::ledger;
use crate::processor::seconds;
use std::hint::black_box;

/// A sample's bytes: 26 numbers of four bytes, how many entries are used, half points, 64 entries of three, and two bytes of zero.
const SAMPLE: usize = 300;

/// Where a sample has how many entries are used.
const USED: usize = 104;

const PIECE: usize = 1 << 16;

/// What `asked` makes of each line that is loaded, added up.
fn one_by_one(input: &[u8], mut asked: impl FnMut(&[u64; 14], &[u8; 64], Line) -> u64) -> u64 {
    let (mut bitboards, mut board, mut sum) = ([0u64; 14], [0u8; 64], 0);
    for line in input.split(|&byte| byte == b'\n') {
        let said = unsafe { chess_read_line(line.as_ptr(), line.len(), bitboards.as_mut_ptr(), 14, board.as_mut_ptr(), 64) };
        if said.code.number == 0 {
            sum += asked(&bitboards, &board, said);
        }
    }
    sum
}

fn scores(input: &[u8]) -> u64 {
    one_by_one(input, |bitboards, board, said| {
        let (mut verdict, mut score) = (0u8, 0i16);
        let code = unsafe { chess_eval(bitboards.as_ptr(), 14, board.as_ptr(), 64, said.state, &mut verdict, &mut score) };
        black_box((code, verdict, score));
        1
    })
}

fn lists(input: &[u8]) -> u64 {
    let (mut counts, mut mobility, mut sign, mut pieces, mut used, mut list) = ([0i32; 12], [0i32; 12], 0i32, 0i32, 0u8, [0u8; 192]);
    one_by_one(input, |bitboards, board, said| {
        let code = unsafe {
            chess_compute_list(bitboards.as_ptr(), 14, board.as_ptr(), 64, said.state, counts.as_mut_ptr(), mobility.as_mut_ptr(), &mut sign, &mut pieces,
                &mut used, list.as_mut_ptr())
        };
        assert!(code.number == 0, "a position is refused");
        black_box((&counts, &mobility, &list));
        used as u64
    })
}

fn samples(input: &[u8], made: &mut [u8], rows: &mut [u8]) -> u64 {
    let (mut state, mut line, mut sum) = ([0u64; 4], [0u8; 256], 0);
    for piece in input.chunks(PIECE) {
        let (mut sampled, mut wrote) = (0usize, 0usize);
        let code = unsafe {
            chess_samples_feed(state.as_mut_ptr(), line.as_mut_ptr(), line.len(), piece.as_ptr(), piece.len(), made.as_mut_ptr(), made.len(), rows.as_mut_ptr(),
                rows.len(), &mut sampled, &mut wrote)
        };
        assert_eq!(code.number, 0);
        sum += made[..sampled].chunks(SAMPLE).map(|sample| sample[USED] as u64).sum::<u64>();
    }
    sum
}

fn row(what: &str, lines: usize, at_once: f64, apart: f64) {
    let each = 1e9 / lines as f64;
    println!("{:<14} {:>10.1} {:>10.1} {:>7.2}", what, at_once * each, apart * each, at_once / apart);
}

/// Both ways in turn, the least processor time of some rounds; the lists have as many entries either way.
pub fn table(input: &[u8], lines: usize, rounds: usize) {
    let mut rows = Vec::with_capacity(32 * lines + 128);
    let (mut made, mut refused) = (vec![0u8; SAMPLE * PIECE], vec![0u8; 32 * PIECE]);
    let mut best = [f64::MAX; 4];
    for _ in 0..rounds {
        rows.clear();
        let mut entries = [0; 2];
        best[0] = best[0].min(seconds(|| ledger::ours(black_box(input), &mut rows).unwrap()));
        best[1] = best[1].min(seconds(|| { black_box(scores(black_box(input))); }));
        best[2] = best[2].min(seconds(|| entries[0] = samples(black_box(input), &mut made, &mut refused)));
        best[3] = best[3].min(seconds(|| entries[1] = lists(black_box(input))));
        assert_eq!(entries[0], entries[1], "the samples have other entries than the lists");
    }
    println!("{:<14} {:>10} {:>10} {:>7}", "many lines", "at once ns", "apart ns", "ratio");
    row("rows, scores", lines, best[0], best[1]);
    row("lists", lines, best[2], best[3]);
}
