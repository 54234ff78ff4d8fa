//! Runs from fresh boards in which consoles crash in the midst of their writes and restart soon (Paper 7). A write that
//! is begun again then often chooses the timestamp that it had chosen before, and the tags of the two differ in the
//! life alone. Demand 3's rules are held to these runs too.
use crate::beside::{both, listed, made, Agreed};
use crate::faults::Faulty;
use crate::model::{Kind, Model, Release, State, Step};
use crate::reads::some_delivery;
use crate::rules::{Counts, Run};
use crate::runs::LENGTH;
use common::Chance;

/// A crash of a console that tells what it writes, a restart, a begin, mostly while no console waits, or a delivery.
/// The first idle console writes, so that it is mostly the one that has crashed, and the last one reads.
fn step(board: &Model, chance: &mut Chance) -> Step {
    let in_state = |state: State| (0..board.m).filter(move |c| board.consoles[c].state == state);
    if let (true, Some(c)) = (chance.one_in(4), chance.drawn(in_state(State::Telling(Kind::Write)))) {
        return Step::ConsoleDown(c);
    }
    if let (true, Some(c)) = (chance.one_in(2), chance.drawn(in_state(State::Down))) {
        return Step::Restart(c);
    }
    let mut states = board.consoles.values().map(|x| x.state);
    let is_quiet = !states.any(|state| matches!(state, State::Asking(_) | State::Telling(_)));
    let begins = is_quiet || chance.one_in(32);
    let (first, last) = (in_state(State::Idle).min(), in_state(State::Idle).max());
    match (first, last, some_delivery(board, chance)) {
        (_, Some(c), _) if begins && chance.one_in(4) => Step::BeginRead(c),
        (Some(c), _, _) if begins => Step::BeginWrite(c, chance.value()),
        (_, _, Some(delivery)) => delivery,
        (c, _, None) => Step::Restart(c.unwrap_or(0)),
    }
}

/// What such runs show.
#[derive(Default)]
pub struct Reboots {
    counts: Counts,
}

impl Reboots {
    /// A run on this size under this release, one by one and as a list.
    pub fn run(&mut self, n: u32, m: u32, release: Release, chance: &mut Chance, faulty: Faulty) -> Agreed {
        let (first, mut model) = made(n, m, release);
        let mut board = first.clone();
        let mut held = Run::fresh(faulty.rules(n));
        let (mut list, mut answers) = (Vec::new(), Vec::new());
        for _ in 0..LENGTH {
            let step = step(&model, chance);
            let before = board.clone();
            let answer = both(&mut board, &mut model, step, faulty)?;
            held.take(step, answer, &before, &board, &mut self.counts)?;
            answers.push(answer);
            list.push(step.into());
        }
        listed(first, &list, &answers, &board)
    }

    pub fn print(&self) {
        let Counts { restarts, finished, .. } = self.counts;
        println!(
            "and runs in which consoles crash in their writes: {restarts} restarts, {} operations finished; no two writes chose one tag",
            finished.operations
        );
        println!(
            "  {} replies taken in and {} puts had a tag that differs in the life alone from the one it was compared with",
            self.counts.replies_by_life, self.counts.puts_by_life
        );
    }

    pub fn shows_all(&self) -> bool {
        ![self.counts.restarts, self.counts.replies_by_life, self.counts.puts_by_life].contains(&0)
    }
}
