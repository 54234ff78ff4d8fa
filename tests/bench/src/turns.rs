//! A turn of the link: question 1, and then as many pairs as it takes to find one whose frame can go.
use crate::clock;
use crate::plain_picker;
use crate::runs::{Row, BOARDS};
use crate::side::{Plain, Side};
use crate::timing::medians;
use common::words::{CELL, CELLS, NODE, NODES};
use common::{Chance, Step, Words};
use hatukeno::{Board, Next, Picker, Refusal};
use std::hint::black_box;
use std::process::exit;

/// What a turn is given.
#[derive(Clone, Copy)]
struct Given {
    words: Words,
    picker: Picker,
    tile_waits: bool,
}

type Turn<B> = fn(&mut Picker, &B, bool) -> Result<Next, Refusal>;

/// The board of five nodes and eight consoles on which the steps were taken, from node tags with this ts.
fn after(ts: u32, steps: &[Step]) -> Words {
    let mut words = Board::made(5, 8).expect("an allowed size").in_words();
    for node in words[NODES..].chunks_exact_mut(NODE).take(5) {
        node[1] = ts;
    }
    let mut board = Board::of(&words);
    for step in steps {
        board.step(*step).expect("no step is refused");
    }
    board.in_words()
}

/// All consoles ask all nodes.
fn full() -> Words {
    let steps: Vec<Step> = (0..8).map(Step::BeginRead).collect();
    after(0, &steps)
}

/// The same, and all nodes are down.
fn all_down() -> Words {
    let steps: Vec<Step> = (0..8).map(Step::BeginRead).chain((0..5).map(Step::NodeDown)).collect();
    after(0, &steps)
}

/// All consoles write, two nodes have answered each, and every reply that is left would be refused with 10.
fn used_up() -> Words {
    let write = |c| {
        let asks = (0..5).map(move |k| Step::Deliver(c, k));
        let replies = (0..2).map(move |k| Step::Deliver(c, k));
        std::iter::once(Step::BeginWrite(c, 7)).chain(asks).chain(replies)
    };
    let steps: Vec<Step> = (0..8).flat_map(write).collect();
    after(4_000_000_000, &steps)
}

/// Only the frame of the pair last picked can go: an ack that no console waits for.
fn last_alone(picker: Picker) -> Words {
    let mut words = after(0, &[]);
    words[CELLS + CELL * (5 * picker.console + picker.node) as usize] = 4;
    words
}

/// The cases, each with many states.
fn cases(seed: u64, rows: &[Row]) -> Vec<(&'static str, Vec<Given>)> {
    let mut chance = Chance(seed);
    let mut many = |words: &dyn Fn(Picker) -> Words, place, tile_waits| -> Vec<Given> {
        let mut given = || {
            let (console, node) = (chance.below(8), chance.below(5));
            let picker = Picker { place, console, node };
            Given {
                words: words(picker),
                picker,
                tile_waits,
            }
        };
        (0..BOARDS).map(|_| given()).collect()
    };
    let deliveries = rows.iter().find(|row| row.name == "deliver").expect("the row of all deliveries");
    let of_runs = deliveries.pairs.iter().filter_map(|(words, step)| match step {
        Step::Deliver(console, node) => Some(Given {
            words: *words,
            picker: Picker {
                place: 0,
                console: *console,
                node: *node,
            },
            tile_waits: true,
        }),
        _ => None,
    });
    vec![
        ("on boards of runs", of_runs.collect()),
        ("a tile in the fourth", many(&|_| full(), 3, true)),
        ("the first of 40 goes", many(&|_| full(), 0, true)),
        ("the last of 40 goes", many(&last_alone, 0, true)),
        ("none: no frames", many(&|_| after(0, &[]), 0, true)),
        ("none: all nodes down", many(&|_| all_down(), 0, true)),
        ("none: replies refused 10", many(&|_| used_up(), 0, true)),
    ]
}

/// Nanoseconds for each; making the boards is not counted.
fn each<B: Side>(given: &[Given], turn: Turn<B>) -> f64 {
    let mut turns: Vec<(B, Picker, bool)> = given.iter().map(|g| (B::of(&g.words), g.picker, g.tile_waits)).collect();
    let turns = black_box(&mut turns);
    let time = clock::nanoseconds(|| {
        for (board, picker, tile_waits) in turns.iter_mut() {
            let _ = black_box(turn(picker, board, *tile_waits));
        }
    });
    time / given.len() as f64
}

fn plainly(picker: &mut Picker, board: &Plain, tile_waits: bool) -> Result<Next, Refusal> {
    plain_picker::turn(picker, board, tile_waits)
}

/// Stops unless both give the same, and leave the same state.
fn agree(given: &[Given]) {
    for Given { words, picker, tile_waits } in given {
        let (mut library, mut plain) = (*picker, *picker);
        let said = library.turn(&Board::of(words), *tile_waits);
        let expected = plainly(&mut plain, &Plain::of(words), *tile_waits);
        if said != expected || library != plain {
            println!("a difference at a turn of {picker:?} on {words:?}: {said:?} and {library:?}, {expected:?} and {plain:?}");
            exit(1);
        }
    }
}

/// For each case.
pub fn time_turns(seed: u64, rows: &[Row], rounds: usize) {
    println!();
    println!("| ns per turn of the link | library | plain | library / plain |");
    println!("|---|---:|---:|---:|");
    for (name, given) in cases(seed, rows) {
        agree(&given);
        let sides: [&dyn Fn() -> f64; 2] = [&|| each(&given, Picker::turn), &|| each(&given, plainly)];
        let [library, plain] = medians(rounds, sides);
        println!("| {name} | {library:.0} | {plain:.0} | {:.2} |", library / plain);
    }
}
