//! The tables of single steps and of whole runs.
use crate::loaded::{Again, Before, Now};
use crate::previews::time_previews;
use crate::runs::{agree_under_two, damaged, made_run, Row, Run, BOARDS, DAMAGED, STEPS};
use crate::shifts::time_shifts;
use crate::side::{Plain, Unasked};
use crate::tags;
use crate::timing::{each, fresh, list, listed, medians, whole};
use crate::turns::time_turns;
use common::{Chance, Step, Words};
use hatukeno::{Board, Release};
use std::mem::size_of;

/// Steps of the whole runs that are timed, the first of STEPS.
const RUN_STEPS: usize = 20_000;

/// Times single steps and whole runs through the library.
pub fn time_steps(seed: u64, rounds: usize) {
    let (rows, runs) = drawn(seed);
    time_kinds(&rows, rounds);
    time_previews(&rows, rounds);
    time_turns(seed, &rows, rounds);
    time_shifts(rounds);
    time_runs(&runs, rounds);
    time_before(&rows, &runs, rounds);
    let deliveries = rows.iter().find(|row| row.name == "deliver").expect("the row of all deliveries");
    time_tags(&deliveries.pairs, rounds);
    println!();
    println!("bytes of a board: library {}, plain {}", size_of::<Board>(), size_of::<Plain>());
    println!(
        "{} runs of {} steps, {BOARDS} boards for each kind of step, medians of {rounds} rounds",
        runs.len(),
        runs.iter().map(|run| run.steps.len()).sum::<usize>()
    );
}

/// What is timed, once all sides are seen to agree on it and on more.
fn drawn(seed: u64) -> (Vec<Row>, Vec<Run>) {
    let mut chance = Chance(seed);
    let mut rows = Row::all();
    let (mut runs, mut steps, mut run_steps) = (Vec::new(), 0, 0);
    while steps < STEPS {
        let run = made_run(Release::One, &mut chance, &mut rows);
        steps += run.steps.len();
        if run_steps < RUN_STEPS {
            run_steps += run.steps.len();
            runs.push(run);
        }
    }
    let ill = damaged(&mut chance, &rows);
    println!("seed {seed}: {steps} steps agree, and one on each of {DAMAGED} boards with a word out of place, {ill} not well formed");
    let (steps, early) = agree_under_two(&mut chance);
    println!("and {steps} steps under release 2, {early} of them early finishes; what is timed is release 1");
    (rows.into(), runs)
}

/// The library beside plain Rust, for each kind of step.
fn time_kinds(rows: &[Row], rounds: usize) {
    println!();
    println!("| ns per step | library | plain | plain, question 1 never asked | library / plain | library / never asked |");
    println!("|---|---:|---:|---:|---:|---:|");
    let print = |name, [library, plain, unasked]: [f64; 3]| {
        let (a, b) = (library / plain, library / unasked);
        println!("| {name} | {library:.0} | {plain:.0} | {unasked:.1} | {a:.2} | {b:.1} |");
    };
    print("fresh", medians(rounds, [&fresh::<Board>, &fresh::<Plain>, &fresh::<Unasked>]));
    for Row { name, pairs, .. } in rows {
        let sides: [&dyn Fn() -> f64; 3] = [&|| each::<Board>(pairs), &|| each::<Plain>(pairs), &|| each::<Unasked>(pairs)];
        print(name, medians(rounds, sides));
    }
}

/// The library beside plain Rust, for whole runs.
fn time_runs(runs: &[Run], rounds: usize) {
    let lists: Vec<_> = runs.iter().map(list).collect();
    let names = [
        "library",
        "plain",
        "plain, question 1 never asked",
        "library, one call for the list",
    ];
    let sides: [&dyn Fn() -> f64; 4] = [
        &|| whole::<Board>(runs),
        &|| whole::<Plain>(runs),
        &|| whole::<Unasked>(runs),
        &|| listed(&lists),
    ];
    let times = medians(rounds, sides);
    println!();
    println!("| whole runs | ns per step | steps per second | times plain | times never asked |");
    println!("|---|---:|---:|---:|---:|");
    for (name, time) in names.iter().zip(times) {
        let (per_second, a, b) = (1e9 / time, time / times[1], time / times[2]);
        println!("| {name} | {time:.1} | {per_second:.0} | {a:.2} | {b:.1} |");
    }
}

/// The library beside itself with tags compared as before Paper 5, and beside the same once more, whose ratio says how
/// much of the other is chance: for each kind of step, and for whole runs.
fn time_before(rows: &[Row], runs: &[Run], rounds: usize) {
    println!();
    println!("| ns per step | tags by number | by order, as before | by number / by order | by number / the same once more |");
    println!("|---|---:|---:|---:|---:|");
    let print = |name, [now, again, before]: [f64; 3]| {
        println!("| {name} | {now:.1} | {before:.1} | {:.3} | {:.3} |", now / before, now / again);
    };
    print("fresh", medians(rounds, [&fresh::<Now>, &fresh::<Again>, &fresh::<Before>]));
    for Row { name, pairs, .. } in rows {
        let sides: [&dyn Fn() -> f64; 3] = [&|| each::<Now>(pairs), &|| each::<Again>(pairs), &|| each::<Before>(pairs)];
        print(name, medians(rounds, sides));
    }
    let sides: [&dyn Fn() -> f64; 3] = [&|| whole::<Now>(runs), &|| whole::<Again>(runs), &|| whole::<Before>(runs)];
    print("whole runs", medians(rounds, sides));
}

/// What comparing tags takes of a delivery, by the two comparisons in plain Rust; the deliveries are timed again, in
/// turn with it.
fn time_tags(deliveries: &[(Words, Step)], rounds: usize) {
    let pairs: Vec<_> = deliveries.iter().filter_map(|(words, step)| tags::pair(words, *step)).collect();
    let sides: [&dyn Fn() -> f64; 4] = [
        &|| tags::time(&pairs, &tags::BY_NUMBER),
        &|| tags::time(&pairs, &tags::BY_ORDER),
        &|| each::<Now>(deliveries),
        &|| each::<Before>(deliveries),
    ];
    let [by_number, by_order, now, before] = medians(rounds, sides);
    println!();
    println!(
        "{} of {} deliveries compare tags; comparing is timed in plain Rust, with a call for each",
        pairs.len(),
        deliveries.len()
    );
    println!();
    println!("| ns per delivery | comparing | the delivery | share |");
    println!("|---|---:|---:|---:|");
    for (name, comparing, delivery) in [("tags by number", by_number, now), ("by order, as before", by_order, before)] {
        let comparing = comparing / deliveries.len() as f64;
        println!("| {name} | {comparing:.2} | {delivery:.1} | {:.2}% |", 100.0 * comparing / delivery);
    }
}
