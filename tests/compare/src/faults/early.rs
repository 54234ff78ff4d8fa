//! Faults of Paper 4: which reads finish early, what an early finish does, and that a board keeps its release.
use super::taken::Taken;
use crate::model::{Compared, Console, Frame, Kind, Outcome, Release, State, Step, MAX_TS};

/// A write finishes early too.
pub fn early_write(t: &mut Taken) {
    let is_last = matches!(t.turned(), Some((_, Kind::Write))) || t.answer.outcome == Err(10);
    if let (true, Release::Two, Some(heard)) = (is_last, t.before.release, t.heard()) {
        if heard.console.alike {
            t.finish_at(heard);
        }
    }
}

/// The mark need not be on.
pub fn early_unalike(t: &mut Taken) {
    if let (Some((_, Kind::Read)), Release::Two, Some(heard)) = (t.turned(), t.before.release, t.heard()) {
        t.finish_at(heard);
    }
}

/// The mark is the one before the last reply.
pub fn early_by_old_mark(t: &mut Taken) {
    let Some(heard) = t.heard() else { return };
    match t.before.consoles[&heard.c].alike {
        true => early_unalike(t),
        false if t.finished_by_reply().is_some() => t.step_under(Release::One),
        false => {}
    }
}

/// A read finishes early under release 1 too.
pub fn early_under_one(t: &mut Taken) {
    t.step_under(Release::Two);
}

/// One reply fewer than q is enough. What the model asks at q has to be asked here again.
pub fn early_one_short(t: &mut Taken) {
    let (Ok(Outcome::Heard), Release::Two, Some(heard)) = (t.answer.outcome, t.before.release, t.heard()) else {
        return;
    };
    let x = &heard.console;
    if x.state == State::Asking(Kind::Read) && x.alike && x.answered.len() + 1 == t.before.majority() {
        t.finish_at(heard);
    }
}

/// An early finish empties all cells of its console.
pub fn early_clears_cells(t: &mut Taken) {
    if let Some((c, ..)) = t.finished_by_reply() {
        t.empty(|d, _, _| d == c);
    }
}

/// An early finish sends puts.
pub fn early_sends_puts(t: &mut Taken) {
    if let Some((c, tag, value)) = t.finished_by_reply() {
        t.next.send_all(c, Frame::Put(tag, value));
    }
}

/// An early finish leaves the console telling.
pub fn early_stays_telling(t: &mut Taken) {
    if let Some((c, best, value)) = t.finished_by_reply() {
        let telling = Console::at_rest(State::Telling(Kind::Read), t.console(c).life);
        *t.console(c) = Console { best, value, ..telling };
    }
}

/// An early finish leaves the console its best.
pub fn early_keeps_best(t: &mut Taken) {
    if let Some((c, best, value)) = t.finished_by_reply() {
        (t.console(c).best, t.console(c).value) = (best, value);
    }
}

/// An early finish leaves the mark on.
pub fn early_keeps_mark(t: &mut Taken) {
    if let Some((c, ..)) = t.finished_by_reply() {
        t.console(c).alike = true;
    }
}

/// An early finish does not say how its last reply compared.
pub fn early_uncompared(t: &mut Taken) {
    if t.finished_by_reply().is_some() {
        t.answer.compared = Compared::None;
    }
}

/// Question 10 is asked of an early finish.
pub fn early_asks_10(t: &mut Taken) {
    if let Some((_, (MAX_TS, ..), _)) = t.finished_by_reply() {
        t.refuse(10);
    }
}

/// A begin makes the board one of release 1.
pub fn release_lost(t: &mut Taken) {
    if let (Step::BeginRead(_) | Step::BeginWrite(..), true) = (t.step, t.is_done()) {
        t.next.release = Release::One;
    }
}
