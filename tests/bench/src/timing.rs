//! How long steps take, on any side.
use crate::clock;
use crate::runs::{Run, BOARDS};
use crate::side::Side;
use common::{Step, Words};
use hatukeno::{Board, BOARD_WORDS};
use std::hint::black_box;

/// The median of each side's times. The sides take turns in each round, and which one is first changes from round to
/// round, so that none is favoured by what ran before it.
pub fn medians<const N: usize>(rounds: usize, sides: [&dyn Fn() -> f64; N]) -> [f64; N] {
    let mut times = [(); N].map(|()| Vec::with_capacity(rounds));
    for round in 0..rounds {
        for i in 0..N {
            let side = (round + i) % N;
            times[side].push(sides[side]());
        }
    }
    times.map(|mut t| {
        t.sort_by(f64::total_cmp);
        t[rounds / 2]
    })
}

/// Nanoseconds for a step, each step on its own board; making the boards is not counted.
pub fn each<B: Side>(pairs: &[(Words, Step)]) -> f64 {
    let mut boards: Vec<(B, Step)> = pairs.iter().map(|(words, step)| (B::of(words), *step)).collect();
    let boards = black_box(&mut boards);
    let time = clock::nanoseconds(|| {
        for (board, step) in boards.iter_mut() {
            let _ = black_box(board.step(*step));
        }
    });
    black_box(&boards);
    time / boards.len() as f64
}

/// Nanoseconds for a fresh board, over all 40 sizes.
pub fn fresh<B: Side>() -> f64 {
    let sizes: Vec<(u32, u32)> = (0..BOARDS as u32).map(|i| (1 + i / 8 % 5, 1 + i % 8)).collect();
    let sizes = black_box(sizes);
    let time = clock::nanoseconds(|| {
        for (n, m) in &sizes {
            let _ = black_box(&B::made(*n, *m));
        }
    });
    time / sizes.len() as f64
}

/// Nanoseconds for a step of whole runs from start to end, one call for each step.
pub fn whole<B: Side>(runs: &[Run]) -> f64 {
    let time = clock::nanoseconds(|| {
        for run in black_box(runs) {
            let mut board = B::made(run.n, run.m).expect("an allowed size");
            for step in &run.steps {
                let _ = black_box(board.step(*step));
            }
            black_box(&board);
        }
    });
    time / runs.iter().map(|run| 1 + run.steps.len()).sum::<usize>() as f64
}

/// The same through the library's one call for a list.
pub fn listed(runs: &[Vec<hatukeno::Step>]) -> f64 {
    let time = clock::nanoseconds(|| {
        for steps in black_box(runs) {
            let mut board = Board::from_words([0; BOARD_WORDS]);
            black_box(board.run(steps));
            black_box(&board);
        }
    });
    time / runs.iter().map(Vec::len).sum::<usize>() as f64
}

/// A run as a list for the library.
pub fn list(run: &Run) -> Vec<hatukeno::Step> {
    let mut steps = vec![hatukeno::Step::Fresh { n: run.n, m: run.m }];
    steps.extend(run.steps.iter().copied().map(hatukeno::Step::from));
    steps
}
