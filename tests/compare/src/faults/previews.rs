//! Faults of Paper 8: which frames a preview counts, when, and under which refusals.
use crate::model::{Frame, Model, Outcome, Preview, State};

/// A preview that the model has given, which a fault changes, with the board before the delivery and after it.
pub struct Foreseen<'a> {
    before: &'a Model,
    pair: (u32, u32),
    after: &'a Model,
    preview: Preview,
}

impl Foreseen<'_> {
    /// The preview with this fault.
    pub fn changed(before: &Model, pair: (u32, u32), after: &Model, preview: Preview, change: fn(&mut Foreseen)) -> Preview {
        let mut foreseen = Foreseen {
            before,
            pair,
            after,
            preview,
        };
        change(&mut foreseen);
        foreseen.preview
    }

    /// Only the frames are counted of which this is so.
    fn count(&mut self, which: impl Fn(u32, u32, &Frame) -> bool) {
        if self.preview.outcome != Err(1) {
            let counted = self.after.cells.iter().filter(|((c, k), frame)| which(*c, *k, frame));
            self.preview.in_flight = counted.count() as u32;
        }
    }
}

/// The frames are counted before the delivery.
pub fn counted_before(f: &mut Foreseen) {
    f.after = f.before;
    f.count(|_, _, _| true);
}

/// The pairs are counted, with and without a frame.
pub fn pairs_counted(f: &mut Foreseen) {
    if f.preview.outcome != Err(1) {
        f.preview.in_flight = f.before.n * f.before.m;
    }
}

/// The puts of a turn are one frame.
pub fn row_counted_once(f: &mut Foreseen) {
    if f.preview.outcome == Ok(Outcome::Turned) {
        f.preview.in_flight -= f.before.n - 1;
    }
}

/// The frames of this console alone are counted.
pub fn own_counted(f: &mut Foreseen) {
    let (console, _) = f.pair;
    f.count(|c, _, _| c == console);
}

/// Asks and puts alone are counted.
pub fn only_to_nodes(f: &mut Foreseen) {
    f.count(|_, _, frame| frame.goes_to_node());
}

/// The frames of an idle or down console are not counted: no one waits for them.
pub fn only_waited_for(f: &mut Foreseen) {
    let consoles = &f.after.consoles;
    f.count(|c, _, _| !matches!(consoles[&c].state, State::Idle | State::Down));
}

/// The frames to and from a node that is down are not counted.
pub fn only_of_up_nodes(f: &mut Foreseen) {
    let nodes = &f.after.nodes;
    f.count(|_, k, _| nodes[&k].up);
}

/// The frames of a console that is down are not counted.
pub fn only_of_up_consoles(f: &mut Foreseen) {
    let consoles = &f.after.consoles;
    f.count(|c, _, _| consoles[&c].state != State::Down);
}

/// The frames of a board that is not well formed are counted.
pub fn counted_under_1(f: &mut Foreseen) {
    if f.preview.outcome == Err(1) {
        f.preview.in_flight = f.before.cells.len() as u32;
    }
}

/// None are counted where the cell is empty.
pub fn none_under_8(f: &mut Foreseen) {
    if f.preview.outcome == Err(8) {
        f.preview.in_flight = 0;
    }
}

/// None are counted under any refusal.
pub fn none_if_refused(f: &mut Foreseen) {
    if f.preview.outcome.is_err() {
        f.preview.in_flight = 0;
    }
}

/// The frame that is handed on leaves the link, and its answer is not counted.
pub fn frame_counted_out(f: &mut Foreseen) {
    if f.preview.outcome == Ok(Outcome::Handed) {
        f.preview.in_flight -= 1;
    }
}
