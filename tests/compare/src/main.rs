//! Runs the proved library and the model beside each other, on the same steps and on the same records of shifts, then the program
//! that runs schedules and the model, on the same schedules, and the program that checks a shift's record and the model, on the same
//! records as rows, and stops at the first difference.
//!
//!     compare [--steps N] [--damaged N] [--lines N] [--rack PROGRAM] [--audit PROGRAM] [--seed S] [--fault F]
//!     compare --find-faults [--steps N] [--damaged N] [--lines N] [--rack PROGRAM] [--audit PROGRAM] [--seed S]
//!     compare --faults
//!     compare --as-model [--fault F] <SCHEDULE
//!
//! The second does so with each fault put round the model in turn, and stops at the first that is not found; the third
//! prints the faults with their numbers; the last writes what the model answers to the schedule.
mod audit;
mod audit_words;
mod audits;
mod beside;
mod damaged;
mod drawing;
mod faults;
mod flips;
mod known;
mod late;
mod lent;
mod library;
mod lives;
mod marks;
mod model;
mod odd;
mod picker;
mod previews;
mod processes;
mod reads;
mod reboots;
mod record_lists;
mod recorded;
mod releases;
mod row_edges;
mod row_inputs;
mod rules;
mod runs;
mod schedule;
mod schedules;
mod seen;
mod shift;
mod shifts;
mod turns;
mod words;

use beside::Agreed;
use common::arguments::{Arguments, AUDIT, RACK};
use faults::{Faulty, Runs, FAULTS};
use library::Amount;
use processes::must_be_there;
use seen::Shows;
use std::path::PathBuf;
use std::process::exit;

struct Options {
    amount: Amount,
    lines: u64,
    seed: u64,
    rack: PathBuf,
    audit: PathBuf,
    faulty: Faulty,
    task: Task,
}

enum Task {
    Compare,
    FindFaults,
    PrintFaults,
    AsModel,
}

const NAMES: [&str; 10] = [
    "--steps",
    "--damaged",
    "--lines",
    "--seed",
    "--rack",
    "--audit",
    "--fault",
    "--find-faults",
    "--faults",
    "--as-model",
];

fn options() -> Options {
    let mut options = Options {
        amount: Amount {
            steps: 2_000_000,
            damaged: 500_000,
        },
        lines: 200_000,
        seed: 1,
        rack: PathBuf::from(RACK),
        audit: PathBuf::from(AUDIT),
        faulty: Faulty::NOT,
        task: Task::Compare,
    };
    let mut words = Arguments::new("compare", &NAMES);
    while let Some(name) = words.next_name() {
        match name {
            "--steps" => options.amount.steps = words.number(u64::MAX),
            "--damaged" => options.amount.damaged = words.number(u64::MAX),
            "--lines" => options.lines = words.number(u64::MAX),
            "--seed" => options.seed = words.number(u64::MAX),
            "--rack" => options.rack = PathBuf::from(words.word()),
            "--audit" => options.audit = PathBuf::from(words.word()),
            "--fault" => options.faulty = Faulty::numbered(words.number(FAULTS.len() as u64)),
            "--find-faults" => options.task = Task::FindFaults,
            "--faults" => options.task = Task::PrintFaults,
            _ => options.task = Task::AsModel,
        }
    }
    options
}

/// A fault is looked for in the runs that can show it, and in no others.
fn compare(options: &Options, faulty: Faulty, prints: bool) -> Agreed {
    let seed = options.seed;
    let by_lines = options.lines > 0 && faulty.is_shown_by(Runs::Schedules);
    let by_rows = faulty.is_shown_by(Runs::Audits);
    if by_lines {
        must_be_there(&options.rack, "rack");
    }
    if by_rows {
        must_be_there(&options.audit, "audit");
    }
    // Without a fault all must have been seen that is to be compared.
    let show = |seen: &dyn Shows| {
        if prints {
            seen.print(seed);
        }
        if faulty.is_faulty() {
            Ok(())
        } else {
            seen.hold()
        }
    };
    if faulty.is_shown_by(Runs::Steps) {
        show(&library::compare(options.amount, seed, faulty)?)?;
    }
    if faulty.is_shown_by(Runs::Records) {
        show(&shifts::compare(seed, faulty)?)?;
    }
    if by_lines {
        show(&schedules::compare(&options.rack, options.lines, seed, faulty)?)?;
    }
    if by_rows {
        show(&audits::compare(&options.audit, seed, faulty)?)?;
    }
    Ok(())
}

fn find_faults(options: &Options) {
    for (number, fault) in (1..).zip(FAULTS) {
        if compare(options, Faulty(Some(fault)), false).is_ok() {
            println!("fault {number}, {}, was not found", fault.name);
            exit(1);
        }
    }
    println!("{} faults, each found", FAULTS.len());
}

fn print_faults() {
    for (number, fault) in (1..).zip(FAULTS) {
        println!("{number} {}", fault.name);
    }
}

fn main() {
    let options = options();
    match options.task {
        Task::Compare => {
            if let Err(difference) = compare(&options, options.faulty, true) {
                println!("{}", difference.0);
                exit(1);
            }
        }
        Task::FindFaults => find_faults(&options),
        Task::PrintFaults => print_faults(),
        Task::AsModel => {
            if let Err(error) = schedules::answer(options.faulty) {
                eprintln!("compare: {error}");
                exit(2);
            }
        }
    }
}
