//! A preview beside a delivery on a copy and a count of the frames there.
use crate::clock;
use crate::runs::Row;
use crate::side::{Answer, Plain, Side};
use crate::timing::medians;
use common::words::{CELL, CELLS};
use common::{Step, Words};
use hatukeno::{Board, Preview, Refusal};
use std::hint::black_box;
use std::process::exit;

/// The library's preview.
fn foreseen(board: &Board, console: u32, node: u32) -> Preview {
    board.preview(console, node)
}

/// The library's delivery.
fn copied(board: &Board, console: u32, node: u32) -> Preview {
    let frames = |copy: &Board| copy.words()[CELLS..].iter().step_by(CELL).map(|frame| u32::from(*frame != 0)).sum();
    on_a_copy(board, console, node, frames)
}

/// Plain Rust's delivery.
fn plainly(board: &Plain, console: u32, node: u32) -> Preview {
    on_a_copy(board, console, node, Plain::frames)
}

fn on_a_copy<B: Side<Said = Answer>>(board: &B, console: u32, node: u32, frames: impl Fn(&B) -> u32) -> Preview {
    let mut copy = board.clone();
    let outcome = copy.step(Step::Deliver(console, node)).map(|answer| answer.outcome);
    let in_flight = if outcome == Err(Refusal(1)) { 0 } else { frames(&copy) };
    Preview { outcome, in_flight }
}

/// The deliveries of a row, each on its own board.
fn deliveries<B: Side>(pairs: &[(Words, Step)]) -> Vec<(B, u32, u32)> {
    let delivery = |(words, step): &(Words, Step)| match step {
        Step::Deliver(c, k) => Some((B::of(words), *c, *k)),
        _ => None,
    };
    pairs.iter().filter_map(delivery).collect()
}

/// Nanoseconds for each; making the boards is not counted.
fn each<B: Side>(pairs: &[(Words, Step)], foresee: fn(&B, u32, u32) -> Preview) -> f64 {
    let boards = deliveries::<B>(pairs);
    let boards = black_box(&boards);
    let time = clock::nanoseconds(|| {
        for (board, console, node) in boards {
            black_box(foresee(board, *console, *node));
        }
    });
    time / boards.len() as f64
}

/// Stops unless all three give the same.
fn agree(pairs: &[(Words, Step)]) {
    for ((board, console, node), (plain, ..)) in deliveries::<Board>(pairs).iter().zip(&deliveries::<Plain>(pairs)) {
        let given = [
            foreseen(board, *console, *node),
            copied(board, *console, *node),
            plainly(plain, *console, *node),
        ];
        if given.iter().any(|preview| *preview != given[0]) {
            println!("a difference at the preview of {console} {node} on {:?}: {given:?}", board.words());
            exit(1);
        }
    }
}

/// For each row of deliveries.
pub fn time_previews(rows: &[Row], rounds: usize) {
    println!();
    println!("| ns per preview | library | delivering on a copy | plain, delivering on a copy | library / on a copy | library / plain |");
    println!("|---|---:|---:|---:|---:|---:|");
    for Row { name, pairs, .. } in rows.iter().filter(|row| row.name.starts_with("deliver")) {
        agree(pairs);
        let sides: [&dyn Fn() -> f64; 3] = [&|| each(pairs, foreseen), &|| each(pairs, copied), &|| each(pairs, plainly)];
        let [library, copied, plain] = medians(rounds, sides);
        println!(
            "| {name} | {library:.0} | {copied:.0} | {plain:.0} | {:.2} | {:.2} |",
            library / copied,
            library / plain
        );
    }
}
