//! A step that the model has taken, and what a fault can do to it.
use crate::model::{Answer, Compared, Console, Frame, Kind, Model, Outcome, Release, State, Step, Tag};

/// The board before the step, and what the step answered and left, which a fault changes.
pub struct Taken<'a> {
    pub before: &'a Model,
    pub step: Step,
    pub answer: Answer,
    pub next: Model,
}

/// A reply that is taken in: between which console and node, the console after it, and how it compared.
pub struct Heard {
    pub c: u32,
    pub k: u32,
    pub console: Console,
    pub compared: Compared,
}

/// What was seen.
impl Taken<'_> {
    /// The step with this fault.
    pub fn changed(before: &Model, step: Step, change: fn(&mut Taken)) -> (Answer, Model) {
        let (answer, next) = before.step(step);
        let mut taken = Taken {
            before,
            step,
            answer,
            next,
        };
        change(&mut taken);
        (taken.answer, taken.next)
    }

    pub fn is_done(&self) -> bool {
        self.answer.outcome == Ok(Outcome::Done)
    }

    /// The frame that was to be delivered, unless question 1, 4, 5 or 8 refused it, and its console and node.
    pub fn frame(&self) -> Option<(u32, u32, Frame)> {
        match (self.step, self.answer.outcome) {
            (_, Err(1 | 4 | 5 | 8)) => None,
            (Step::Deliver(c, k), _) => Some((c, k, self.before.cells[&(c, k)])),
            _ => None,
        }
    }

    /// The reply that was taken in, or would have been if question 10 had not refused it.
    pub fn heard(&self) -> Option<Heard> {
        let (c, k, Frame::Reply(tag, value)) = self.frame()? else {
            return None;
        };
        let (console, compared) = self.before.heard(c, k, tag, value)?;
        Some(Heard { c, k, console, compared })
    }

    /// The console and its kind, if this delivery turned it.
    pub fn turned(&self) -> Option<(u32, Kind)> {
        match (self.step, self.answer.outcome) {
            (Step::Deliver(c, _), Ok(Outcome::Turned)) => match self.next.consoles[&c].state {
                State::Telling(kind) => Some((c, kind)),
                _ => None,
            },
            _ => None,
        }
    }

    /// The console that this delivery finished, with which tag and value.
    fn finished(&self) -> Option<(u32, Tag, u32)> {
        match (self.step, self.answer.outcome) {
            (Step::Deliver(c, _), Ok(Outcome::Finished(tag, value))) => Some((c, tag, value)),
            _ => None,
        }
    }

    pub fn finished_by_ack(&self) -> Option<(u32, Tag, u32)> {
        self.finished().filter(|_| self.answer.compared == Compared::None)
    }

    pub fn finished_by_reply(&self) -> Option<(u32, Tag, u32)> {
        self.finished().filter(|_| self.answer.compared != Compared::None)
    }
}

/// What is changed.
impl Taken<'_> {
    pub fn refuse(&mut self, refusal: u32) {
        self.answer = Answer::plain(Err(refusal));
        self.next = self.before.clone();
    }

    pub fn console(&mut self, c: u32) -> &mut Console {
        self.next.consoles.get_mut(&c).expect("it is there")
    }

    /// Empties the cells of which this is so.
    pub fn empty(&mut self, which: impl Fn(u32, u32, &Frame) -> bool) {
        self.next.cells.retain(|(c, k), frame| !which(*c, *k, frame));
    }

    /// The step as from a board of this release; the board keeps its own.
    pub fn step_under(&mut self, release: Release) {
        let mut board = self.before.clone();
        board.release = release;
        (self.answer, self.next) = board.step(self.step);
        self.next.release = self.before.release;
    }

    /// The step as if this console were idle or down; it stays what it is.
    pub fn step_as(&mut self, c: u32, state: State) {
        let mut board = self.before.clone();
        board.consoles.insert(c, Console::at_rest(state, board.consoles[&c].life));
        (self.answer, self.next) = board.step(self.step);
        self.next.consoles.insert(c, self.before.consoles[&c].clone());
    }

    /// A put is taken where this says so of its tag and the node's.
    pub fn put_by(&mut self, is_taken: impl Fn(Tag, Tag) -> bool) {
        let (Some((_, k, Frame::Put(tag, value))), Ok(Outcome::Handed)) = (self.frame(), self.answer.outcome) else {
            return;
        };
        let mut node = self.before.nodes[&k].clone();
        if is_taken(tag, node.tag) {
            (node.tag, node.value) = (tag, value);
        }
        self.next.nodes.insert(k, node);
    }

    /// A reply is taken in by another comparison of its tag with best.
    pub fn reply_by(&mut self, compare: impl Fn(Tag, Tag) -> Compared) {
        if let (Some(Heard { c, k, .. }), Some((_, _, Frame::Reply(tag, value)))) = (self.heard(), self.frame()) {
            let mut console = self.before.consoles[&c].clone();
            let compared = compare(tag, console.best);
            console.take_reply(k, tag, value, compared);
            self.hear(Heard { c, k, console, compared });
        }
    }

    /// The delivery goes on from a reply that is taken in so.
    pub fn hear(&mut self, heard: Heard) {
        let Heard { c, k, console, compared } = heard;
        if !self.before.can_turn(&console) {
            return self.refuse(10);
        }
        self.next = self.before.clone();
        self.next.cells.remove(&(c, k));
        let outcome = Ok(self.next.hear_reply(c, console));
        self.answer = Answer { outcome, compared };
    }

    /// The operation finishes at this reply, with the best that it then has.
    pub fn finish_at(&mut self, heard: Heard) {
        let Heard { c, k, console, compared } = heard;
        self.next = self.before.clone();
        self.next.cells.remove(&(c, k));
        self.next.consoles.insert(c, console);
        let outcome = Ok(self.next.finish(c));
        self.answer = Answer { outcome, compared };
    }
}
