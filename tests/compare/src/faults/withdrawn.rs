//! Faults of Paper 6: which frames are withdrawn, when, and what else becomes of them and of the board.
use super::taken::Taken;
use crate::model::{Frame, Outcome, State, Step};

impl Taken<'_> {
    /// The frame that was withdrawn, and its console and node.
    fn withdrawn(&self) -> Option<(u32, u32, Frame)> {
        let is_discarded = self.answer.outcome == Ok(Outcome::Discarded);
        self.frame().filter(|(.., frame)| is_discarded && frame.goes_to_node())
    }
}

/// Question 9 is asked first.
pub fn withdrawn_after_9(t: &mut Taken) {
    if let Some((_, k, _)) = t.withdrawn() {
        if !t.before.nodes[&k].up {
            t.refuse(9);
        }
    }
}

/// The node takes the put all the same.
pub fn withdrawn_taken(t: &mut Taken) {
    if let Some((_, k, Frame::Put(tag, value))) = t.withdrawn() {
        t.next.nodes.get_mut(&k).expect("it is there").take_put(tag, value);
    }
}

/// All cells of the console are emptied.
pub fn withdrawn_by_row(t: &mut Taken) {
    if let Some((c, ..)) = t.withdrawn() {
        t.empty(|d, _, _| d == c);
    }
}

/// The frames of an idle console are withdrawn too.
pub fn withdrawn_of_idle(t: &mut Taken) {
    if let Some((c, _, frame)) = t.frame() {
        if frame.goes_to_node() && t.before.consoles[&c].state == State::Idle {
            t.step_as(c, State::Down);
        }
    }
}

/// An ask of a down console is handed on.
pub fn ask_not_withdrawn(t: &mut Taken) {
    if let Some((c, _, Frame::Ask)) = t.withdrawn() {
        t.step_as(c, State::Idle);
    }
}

/// A put of a down console is handed on.
pub fn put_not_withdrawn(t: &mut Taken) {
    if let Some((c, _, Frame::Put(..))) = t.withdrawn() {
        t.step_as(c, State::Idle);
    }
}

/// The outcome is handed.
pub fn withdrawn_handed(t: &mut Taken) {
    if t.withdrawn().is_some() {
        t.answer.outcome = Ok(Outcome::Handed);
    }
}

/// The frame stays in its cell.
pub fn withdrawn_stays(t: &mut Taken) {
    if let Some((c, k, frame)) = t.withdrawn() {
        t.next.cells.insert((c, k), frame);
    }
}

/// The frames are withdrawn when their console goes down already.
pub fn withdrawn_at_down(t: &mut Taken) {
    if let (Step::ConsoleDown(c), true) = (t.step, t.is_done()) {
        t.empty(|d, _, frame| d == c && frame.goes_to_node());
    }
}
