//! Runs by chance and damaged boards that all sides are seen to agree on; what is timed is drawn from among their
//! steps.
use crate::drawing::likely_step;
use crate::loaded::{Before, Now};
use crate::side::{Answer, Plain, Side, Unasked};
use common::{Chance, Step, Words};
use hatukeno::{Board, Compared, Outcome, Refusal, Release, BOARD_WORDS};
use std::process::exit;

/// Steps by chance that all sides agree on.
pub const STEPS: usize = 200_000;
/// The steps of a run.
pub const LENGTH: usize = 1000;
/// Boards that are timed for each kind of step.
pub const BOARDS: usize = 256;
/// Boards with a word out of place, on which the answer to question 1 is compared.
pub const DAMAGED: usize = 100_000;

/// Stops unless this kind of plain Rust answers as the library did, and has the same words after the step.
fn agree<B: Side<Said = Answer>>(words: &Words, step: Step, library: (Answer, Words)) {
    let mut plain = B::of(words);
    let expected = (plain.step(step), plain.in_words());
    if library != expected {
        let same = if library.1 == expected.1 {
            "the same board"
        } else {
            "another board"
        };
        println!(
            "a difference at {step:?} on {words:?}: the library answered {:?}, plain Rust {:?} and {same}",
            library.0, expected.0
        );
        exit(1);
    }
}

/// The step from the board in these words, which become the next board's; all sides are seen to agree.
fn both(words: &mut Words, step: Step) -> Answer {
    let mut library = Board::of(words);
    let answer = library.step(step);
    let next = library.in_words();
    let (mut now, mut before) = (Now::of(words), Before::of(words));
    if now.step(step) != before.step(step) || now.in_words() != next || before.in_words() != next {
        println!("a difference at {step:?} on {words:?} between the library and itself with tags compared as before");
        exit(1);
    }
    agree::<Plain>(words, step, (answer, next));
    if answer != Err(Refusal(1)) {
        agree::<Unasked>(words, step, (answer, next));
    }
    *words = next;
    answer
}

/// A run from a fresh board, and how many of its reads finished early.
pub struct Run {
    pub n: u32,
    pub m: u32,
    pub steps: Vec<Step>,
    early: usize,
}

/// Whether a step with this outcome or refusal belongs to a row.
type IsOf = fn(Step, Result<Outcome, Refusal>) -> bool;

/// One row of the table: up to BOARDS boards with a step on each, drawn evenly from all that there were.
pub struct Row {
    pub name: &'static str,
    is_of: IsOf,
    seen: u32,
    pub pairs: Vec<(Words, Step)>,
}

/// The rows, and which steps belong to each. Only a delivery has another outcome than done.
const ROWS: [(&str, IsOf); 13] = [
    ("begin read", |s, a| a.is_ok() && matches!(s, Step::BeginRead(_))),
    ("begin write", |s, a| a.is_ok() && matches!(s, Step::BeginWrite(..))),
    ("deliver", |s, a| a.is_ok() && matches!(s, Step::Deliver(..))),
    ("deliver: handed", |_, a| a == Ok(Outcome::Handed)),
    ("deliver: heard", |_, a| a == Ok(Outcome::Heard)),
    ("deliver: turned", |_, a| a == Ok(Outcome::Turned)),
    ("deliver: finished", |_, a| matches!(a, Ok(Outcome::Finished { .. }))),
    ("deliver: discarded", |_, a| a == Ok(Outcome::Discarded)),
    ("node down", |s, a| a.is_ok() && matches!(s, Step::NodeDown(_))),
    ("node up", |s, a| a.is_ok() && matches!(s, Step::NodeUp(_))),
    ("console down", |s, a| a.is_ok() && matches!(s, Step::ConsoleDown(_))),
    ("restart", |s, a| a.is_ok() && matches!(s, Step::Restart(_))),
    ("refused", |_, a| a.is_err()),
];

impl Row {
    pub fn all() -> [Row; ROWS.len()] {
        ROWS.map(|(name, is_of)| Row {
            name,
            is_of,
            seen: 0,
            pairs: Vec::new(),
        })
    }

    fn take(&mut self, words: Words, step: Step, chance: &mut Chance) {
        self.seen += 1;
        if self.pairs.len() < BOARDS {
            self.pairs.push((words, step));
        } else if let Some(place) = self.pairs.get_mut(chance.below(self.seen) as usize) {
            *place = (words, step);
        }
    }
}

/// The fresh board of the loaded libraries, as it is and as before.
fn made_by_loaded(n: u32, m: u32) -> [Words; 2] {
    let now = Now::made(n, m).expect("an allowed size");
    let before = Before::made(n, m).expect("an allowed size");
    [now.in_words(), before.in_words()]
}

/// One run by chance on a size by chance under the release, its steps sorted into the rows.
pub fn made_run(release: Release, chance: &mut Chance, rows: &mut [Row]) -> Run {
    let (n, m) = (1 + chance.below(5), 1 + chance.below(8));
    let mut words = Board::fresh_under(n, m, release).expect("an allowed size").in_words();
    let plain = Plain::fresh_under(n, m, release).expect("an allowed size").in_words();
    // The loaded libraries make release 1.
    let loaded = match release {
        Release::One => made_by_loaded(n, m),
        Release::Two => [words; 2],
    };
    if plain != words || loaded != [words; 2] {
        println!("a difference at fresh {n} {m} under {release:?}");
        exit(1);
    }
    let (mut steps, mut early) = (Vec::new(), 0);
    while steps.len() < LENGTH {
        let before = words;
        let step = likely_step(&words, chance);
        let answer = both(&mut words, step);
        let outcome = answer.map(|answer| answer.outcome);
        let took_reply = answer.is_ok_and(|answer| answer.compared != Compared::None);
        early += usize::from(took_reply && matches!(outcome, Ok(Outcome::Finished { .. })));
        for row in rows.iter_mut().filter(|row| (row.is_of)(step, outcome)) {
            row.take(before, step, chance);
        }
        steps.push(step);
    }
    Run { n, m, steps, early }
}

/// Runs under release 2, of which nothing is timed: how many steps all sides agree on, and how many of them were early
/// finishes.
pub fn agree_under_two(chance: &mut Chance) -> (usize, usize) {
    let (mut steps, mut early) = (0, 0);
    while steps < STEPS {
        let run = made_run(Release::Two, chance, &mut []);
        steps += run.steps.len();
        early += run.early;
    }
    if early == 0 {
        println!("no read finished early under release 2");
        exit(1);
    }
    (steps, early)
}

/// Question 1 is part of what is timed, but no run gets a no to it: here it is compared on boards with a word out of
/// place. How many of them were not well formed.
pub fn damaged(chance: &mut Chance, rows: &[Row]) -> usize {
    let mut refused = 0;
    for i in 0..DAMAGED {
        let pairs = &rows[i % rows.len()].pairs;
        let (mut words, step) = pairs[chance.below(pairs.len() as u32) as usize];
        let some = [
            0,
            1,
            2,
            3,
            4,
            5,
            6,
            8,
            31,
            32,
            255,
            256,
            1000,
            1001,
            65536,
            4_000_000_000,
            4_000_000_001,
            u32::MAX,
        ];
        let word = chance.below(BOARD_WORDS as u32) as usize;
        words[word] = some[chance.below(some.len() as u32) as usize];
        if both(&mut words, step) == Err(Refusal(1)) {
            refused += 1;
        }
    }
    refused
}
