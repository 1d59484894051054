// The sum over a collection beside its ledger: the same lines, fed in the same pieces, and what a line takes in each.
use crate::chess_scores::doors::{chess_error_end, chess_error_feed};
use crate::ledger;
use crate::processor::seconds;
use std::hint::black_box;

const PIECE: usize = 1 << 16;

/// The totals (lines with a score, lines apart, the sum) and how many lines were refused.
fn summed(input: &[u8]) -> ([u64; 3], u64) {
    let (mut state, mut line, mut totals, mut refused) = ([0u64; 7], [0u8; 256], [0u64; 3], 0u64);
    for piece in input.chunks(PIECE) {
        let code = unsafe { chess_error_feed(state.as_mut_ptr(), line.as_mut_ptr(), line.len(), piece.as_ptr(), piece.len()) };
        assert_eq!(code.number, 0);
    }
    let code = unsafe { chess_error_end(state.as_ptr(), line.as_ptr(), line.len(), totals.as_mut_ptr(), &mut refused) };
    assert_eq!(code.number, 0);
    (totals, refused)
}

/// How many lines of each kind the rows of a ledger show: with a score, apart, refused.
fn shown(rows: &[u8]) -> [u64; 3] {
    let mut kinds = [0; 3];
    for row in rows.split(|&byte| byte == b'\n').filter(|row| !row.is_empty() && !row.starts_with(b"lines")) {
        let mut words = row.split(|&byte| byte == b' ').skip(1);
        let (second, third) = (words.next().unwrap_or(b""), words.next().unwrap_or(b""));
        let kind = if second == b"refused" { 2 } else if third.last().is_some_and(u8::is_ascii_digit) { 0 } else { 1 };
        kinds[kind] += 1;
    }
    kinds
}

/// Both in turn, the least processor time of some rounds; the sum's lines are those of the ledger's rows.
pub fn table(input: &[u8], lines: usize, rounds: usize) {
    let (mut best_sum, mut best_ledger) = (f64::MAX, f64::MAX);
    let mut rows = Vec::with_capacity(32 * lines + 128);
    for _ in 0..rounds {
        rows.clear();
        let mut found = ([0; 3], 0);
        best_sum = best_sum.min(seconds(|| found = summed(black_box(input))));
        best_ledger = best_ledger.min(seconds(|| ledger::ours(black_box(input), &mut rows).unwrap()));
        assert_eq!(shown(&rows), [found.0[0], found.0[1], found.1], "the sum has other lines than the ledger");
    }
    let each = 1e9 / lines as f64;
    println!("{:<14} {:>10} {:>10} {:>7}", "sum of errors", "sum ns", "ledger ns", "ratio");
    println!("{:<14} {:>10.1} {:>10.1} {:>7.2}", lines, best_sum * each, best_ledger * each, best_sum / best_ledger);
}
