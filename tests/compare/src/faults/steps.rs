//! Faults in the steps of document 01 and Papers 2 and 3, and in the numbers of Paper 5.
use super::taken::{Heard, Taken};
use crate::model::{Compared, Frame, Kind, Model, Node, Outcome, State, Step, Tag};

/// A read returns the greatest tag without telling it.
pub fn read_untold(t: &mut Taken) {
    if let (Some((_, Kind::Read)), Some(heard)) = (t.turned(), t.heard()) {
        t.finish_at(heard);
    }
}

/// A node compares timestamps only.
pub fn ts_only(t: &mut Taken) {
    t.put_by(|put, own| put.0 > own.0);
}

/// The answered set is kept when asking turns to telling.
pub fn set_kept(t: &mut Taken) {
    if let (Some((c, _)), Some(heard)) = (t.turned(), t.heard()) {
        t.console(c).answered = heard.console.answered;
    }
}

/// A node takes a put with its own tag.
pub fn equal_taken(t: &mut Taken) {
    t.put_by(|put, own| put >= own);
}

/// A read tells best ts + 1.
pub fn next_after_read(t: &mut Taken) {
    if let Some((c, Kind::Read)) = t.turned() {
        let x = t.console(c);
        x.best.0 += 1;
        let put = Frame::Put(x.best, x.value);
        t.next.send_all(c, put);
    }
}

/// The ack that finishes an operation empties all cells of its console.
pub fn cells_cleared(t: &mut Taken) {
    if let Some((c, ..)) = t.finished_by_ack() {
        t.empty(|d, _, _| d == c);
    }
}

/// A board of nine consoles is taken for one of eight.
pub fn nine_consoles(board: &mut Model) {
    if board.m == 9 {
        board.m = 8;
    }
}

/// A node comes back fresh.
pub fn disk_lost(t: &mut Taken) {
    if let (Step::NodeUp(k), true) = (t.step, t.is_done()) {
        t.next.nodes.insert(k, Node::fresh());
    }
}

/// 14 is asked before question 5.
pub fn up_before_number(t: &mut Taken) {
    if let (Step::NodeUp(k), Err(5)) = (t.step, t.answer.outcome) {
        if t.before.nodes.get(&k).is_some_and(|node| node.up) {
            t.refuse(14);
        }
    }
}

/// The frames that wait for a node are lost when it comes back.
pub fn waiting_lost(t: &mut Taken) {
    if let (Step::NodeUp(k), true) = (t.step, t.is_done()) {
        t.empty(|_, j, frame| j == k && frame.goes_to_node());
    }
}

/// Node up of a node that is up is accepted.
pub fn up_twice(t: &mut Taken) {
    if t.answer.outcome == Err(14) {
        t.answer.outcome = Ok(Outcome::Done);
    }
}

/// A reply is compared with the best that it leaves.
pub fn new_best_compared(t: &mut Taken) {
    if t.answer.compared == Compared::Higher {
        t.answer.compared = Compared::Same;
    }
}

/// Every answer of asking sets the mark.
pub fn mark_by_any(t: &mut Taken) {
    if let Some(mut heard) = t.heard() {
        heard.console.alike = true;
        t.hear(heard);
    }
}

/// The mark is kept when asking turns to telling.
pub fn mark_kept_at_turn(t: &mut Taken) {
    if let (Some((c, _)), Some(heard)) = (t.turned(), t.heard()) {
        t.console(c).alike = heard.console.alike;
    }
}

/// A delivery that question 10 refuses says how the reply compared.
pub fn refused_compared(t: &mut Taken) {
    if let (Err(10), Some(Heard { compared, .. })) = (t.answer.outcome, t.heard()) {
        t.answer.compared = compared;
    }
}

/// A lower tag does not clear the mark.
pub fn mark_kept_by_lower(t: &mut Taken) {
    if let Some(mut heard) = t.heard() {
        let was_on = t.before.consoles[&heard.c].alike;
        heard.console.alike |= was_on && heard.compared == Compared::Lower;
        t.hear(heard);
    }
}

/// A discarded reply says how it compares.
pub fn discarded_compared(t: &mut Taken) {
    if let (Some((c, _, Frame::Reply(tag, _))), Ok(Outcome::Discarded)) = (t.frame(), t.answer.outcome) {
        t.answer.compared = Compared::of(tag, t.before.consoles[&c].best);
    }
}

/// The mark need not be on at one answer: such a console is taken for one whose mark is on.
pub fn one_unmarked(board: &mut Model) {
    for x in board.consoles.values_mut() {
        x.alike |= matches!(x.state, State::Asking(_)) && x.answered.len() == 1;
    }
}

/// A fresh in a list keeps the release of the board before it.
pub fn list_keeps_release(before: &Model, made: &mut Model) {
    made.release = before.release;
}

fn in_32_bits((ts, console, life): Tag) -> (u32, u64) {
    ((ts * 8 + console) as u32, life)
}

fn times_4((ts, console, life): Tag) -> (u64, u64) {
    (ts * 4 + console, life)
}

/// The tag of a put is compared by ts × 8 + console, worked in 32 bits.
pub fn put_in_32_bits(t: &mut Taken) {
    t.put_by(|put, own| in_32_bits(put) > in_32_bits(own));
}

/// The tag of a put is compared by ts × 4 + console.
pub fn put_times_4(t: &mut Taken) {
    t.put_by(|put, own| times_4(put) > times_4(own));
}

/// The tag of a reply is compared by ts × 8 + console, worked in 32 bits.
pub fn reply_in_32_bits(t: &mut Taken) {
    t.reply_by(|reply, best| Compared::of(in_32_bits(reply), in_32_bits(best)));
}

/// The tag of a reply is compared by ts × 4 + console.
pub fn reply_times_4(t: &mut Taken) {
    t.reply_by(|reply, best| Compared::of(times_4(reply), times_4(best)));
}
