// Each function over the same positions, in blocks: the original and the library in turn, and of each block the least time of some rounds.
use crate::attack::Attack;
use crate::drawn::{self, Position};
use crate::eval::Eval;
use crate::game::Game;
use crate::ours::{self, Counts, List};
use crate::piece_move::PieceMove;
use crate::placement;
use crate::tune::{self, Trace};
use std::hint::black_box;
use std::time::Instant;

/// Few enough to stay in the nearest memory, so that the functions are measured and not the memory.
const BLOCK: usize = 64;

/// The last two give a trace as a list, and its double from it, against the original's flat ones.
const NAMES: [&str; 8] = ["eval", "eval_material", "is_check", "compute_trace", "Trace::eval", "see", "compute_list", "eval_list"];

#[derive(Clone, Copy)]
struct Best {
    theirs: f64,
    ours: f64,
}

fn timed<T>(run: impl FnOnce() -> T) -> (f64, T) {
    let start = Instant::now();
    let given = run();
    (start.elapsed().as_nanos() as f64, given)
}

impl Best {
    /// One turn of each, whoever is first; whether they answered alike.
    fn turn<T: PartialEq>(&mut self, ours_first: bool, theirs: impl FnOnce() -> T, ours: impl FnOnce() -> T) -> bool {
        let (a, b);
        if ours_first {
            b = timed(ours);
            a = timed(theirs);
        } else {
            a = timed(theirs);
            b = timed(ours);
        }
        self.theirs = self.theirs.min(a.0);
        self.ours = self.ours.min(b.0);
        a.1 == b.1
    }
}

fn each<T: Copy + Default>(games: &[Game], ask: impl Fn(usize, &Game) -> T) -> [T; BLOCK] {
    let mut given = [T::default(); BLOCK];
    for (place, game) in games.iter().enumerate() {
        given[place] = ask(place, game);
    }
    given
}

/// How many functions answered a block differently.
fn block(games: &[Game], positions: &[Position], first: bool, best: &mut [Best; 8]) -> usize {
    let weights = tune::Tuner::new().params;
    let mut traces: Vec<Trace> = games.iter().map(tune::traced).collect();
    let counted: Vec<Counts> = traces.iter().map(Counts::of).collect();
    let mut counts = vec![Counts::default(); BLOCK];
    let mut entries = vec![0; 768];
    let lists: Vec<List> = traces.iter().zip(&counted).map(|(trace, counts)| List::of(counts, trace.pst.as_flattened().as_flattened())).collect();
    let mut made = vec![List::default(); BLOCK];
    let alike = [
        best[0].turn(first, || each(games, |_, game| game.eval() as i64), || each(games, |_, game| ours::eval(game))),
        best[1].turn(first, || each(games, |_, game| game.eval_material(game.side()) as i64), || each(games, |_, game| ours::eval_material(game))),
        best[2].turn(first, || each(games, |_, game| game.is_check(game.side()) as i64), || each(games, |_, game| ours::is_check(game))),
        best[3].turn(
            first,
            || games.iter().zip(&mut traces).for_each(|(game, trace)| *trace = tune::traced(black_box(game))),
            || games.iter().zip(&mut counts).for_each(|(game, counts)| {
                ours::compute_trace(game, counts, black_box(&mut entries));
            }),
        ),
        best[4].turn(
            first,
            || each(games, |place, _| traces[place].eval(&weights)),
            || each(games, |place, _| ours::trace_eval(&counted[place], traces[place].pst.as_flattened().as_flattened(), &weights)),
        ),
        best[5].turn(
            first,
            || each(games, |place, game| game.see(PieceMove::capture(positions[place].from, positions[place].to)) as i64),
            || each(games, |place, game| ours::see(game, positions[place].from, positions[place].to)),
        ),
        best[6].turn(
            first,
            || games.iter().zip(&mut traces).for_each(|(game, trace)| *trace = tune::traced(black_box(game))),
            || games.iter().zip(counts.iter_mut().zip(&mut made)).for_each(|(game, (counts, list))| ours::compute_list(black_box(game), counts, list)),
        ),
        best[7].turn(
            first,
            || each(games, |place, _| traces[place].eval(&weights)),
            || each(games, |place, _| ours::list_eval(&counted[place], &lists[place], &weights)),
        ),
        made == lists,
        counts == counted,
        games.iter().zip(&traces).all(|(game, trace)| {
            ours::compute_trace(game, &mut Counts::default(), &mut entries).number == 0 && trace.pst.as_flattened().as_flattened() == entries
        }),
    ];
    alike.iter().filter(|alike| !**alike).count()
}

pub fn measure(count: usize, rounds: usize) {
    let positions = drawn::drawn(count.div_ceil(BLOCK) * BLOCK);
    let mut games: Vec<Game> = (0..BLOCK).map(|_| Game::new()).collect();
    let mut best = vec![[Best { theirs: f64::MAX, ours: f64::MAX }; 8]; positions.len() / BLOCK];
    let mut differing = 0;
    for round in 0..rounds {
        for (place, positions) in positions.chunks(BLOCK).enumerate() {
            for (game, position) in games.iter_mut().zip(positions) {
                placement::fill(game, &position.board, position.side);
            }
            differing += block(&games, positions, (round + place) % 2 == 0, &mut best[place]);
        }
    }
    println!("{} positions, {} rounds, {} blocks of answers differ", positions.len(), rounds, differing);
    println!("{:<14} {:>10} {:>10} {:>7}", "function", "ours ns", "theirs ns", "ratio");
    for (place, name) in NAMES.iter().enumerate() {
        let mean = |of: fn(&Best) -> f64| best.iter().map(|best| of(&best[place])).sum::<f64>() / positions.len() as f64;
        let (ours, theirs) = (mean(|best| best.ours), mean(|best| best.theirs));
        println!("{:<14} {:>10.1} {:>10.1} {:>7.2}", name, ours, theirs, ours / theirs);
    }
}
