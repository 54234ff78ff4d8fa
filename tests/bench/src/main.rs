//! Times the proved library beside plain Rust, which asks question 1 at every step or never, and beside itself with
//! tags compared as before Paper 5, on the same steps, and beside plain Rust on the same records of shifts; then the
//! program that runs schedules beside plain Rust and the model, on the same schedule.
//!
//!     bench [--seed S] [--rounds N] [--lines N] [--rack PROGRAM]
//!     bench --as-plain <SCHEDULE
//!     bench --as-unasked <SCHEDULE
//!
//! With --rounds 0 no steps are timed, with --lines 0 no schedule. The other two write plain Rust's answers to the
//! schedule.
mod clock;
mod drawing;
mod lines;
mod loaded;
mod plain;
mod plain_lines;
mod plain_picker;
mod plain_shift;
mod previews;
mod runs;
mod shifts;
mod side;
mod tables;
mod tags;
mod timing;
mod turns;

use common::arguments::{Arguments, RACK};
use lines::Programs;
use std::path::PathBuf;
use std::process::exit;
use std::time::Instant;

struct Options {
    seed: u64,
    rounds: usize,
    lines: usize,
    rack: PathBuf,
}

fn options() -> Options {
    let mut options = Options {
        seed: 1,
        rounds: 1000,
        lines: 1_000_000,
        rack: PathBuf::from(RACK),
    };
    let mut words = Arguments::new("bench", &["--seed", "--rounds", "--lines", "--rack"]);
    while let Some(name) = words.next_name() {
        match name {
            "--seed" => options.seed = words.number(u64::MAX),
            "--rounds" => options.rounds = words.number(1_000_000) as usize,
            "--lines" => options.lines = words.number(100_000_000) as usize,
            _ => options.rack = PathBuf::from(words.word()),
        }
    }
    options
}

fn stop(error: std::io::Error) -> ! {
    eprintln!("bench: {error}");
    exit(1)
}

fn main() {
    match std::env::args().nth(1).as_deref() {
        Some(lines::AS_PLAIN) => return plain_lines::run::<true>().unwrap_or_else(|error| stop(error)),
        Some(lines::AS_UNASKED) => return plain_lines::run::<false>().unwrap_or_else(|error| stop(error)),
        _ => {}
    }
    let options = options();
    let start = Instant::now();
    let programs = (options.lines > 0).then(|| Programs::new(&options.rack));
    if options.rounds > 0 {
        tables::time_steps(options.seed, options.rounds);
    }
    if let Some(programs) = programs {
        programs.time(options.seed, options.lines).unwrap_or_else(|error| stop(error));
    }
    println!("took {:.0} seconds", start.elapsed().as_secs_f64());
}
