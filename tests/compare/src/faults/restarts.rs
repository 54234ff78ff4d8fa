//! Faults of Paper 7: what a restart is refused with and what it does, which life a tag and a console have, how lives
//! are compared, and what of them is well formed.
use super::taken::Taken;
use crate::model::{Compared, Console, Frame, Kind, Model, Outcome, State, Step, Tag, MAX_LIFE};

impl Taken<'_> {
    /// The console that was restarted.
    fn restarted(&self) -> Option<u32> {
        match self.step {
            Step::Restart(c) if self.is_done() => Some(c),
            _ => None,
        }
    }

    /// The console that was to be restarted, and as it was, if this refused it.
    fn not_restarted(&self, refusal: u32) -> Option<(u32, &Console)> {
        match (self.step, self.answer.outcome) {
            (Step::Restart(c), Err(number)) if number == refusal => Some((c, self.before.consoles.get(&c)?)),
            _ => None,
        }
    }

    /// The restart is taken all the same.
    fn restart(&mut self, c: u32) {
        self.answer.outcome = Ok(self.next.restart(c));
    }

    /// The write that this delivery turned has this life in its tag.
    fn write_life(&mut self, life: impl Fn(&Console) -> u64) {
        if let Some((c, Kind::Write)) = self.turned() {
            let x = self.console(c);
            x.best.2 = life(x);
            let put = Frame::Put(x.best, x.value);
            self.next.send_all(c, put);
        }
    }
}

/// A restart keeps the life.
pub fn restart_keeps_life(t: &mut Taken) {
    if let Some(c) = t.restarted() {
        t.console(c).life -= 1;
    }
}

/// A restart begins with life 1 again.
pub fn restart_life_1(t: &mut Taken) {
    if let Some(c) = t.restarted() {
        t.console(c).life = 1;
    }
}

/// A restart leaves the cells as they are.
pub fn restart_leaves_cells(t: &mut Taken) {
    if t.restarted().is_some() {
        t.next.cells = t.before.cells.clone();
    }
}

/// A restart withdraws asks and puts, and leaves replies and acks.
pub fn restart_leaves_replies(t: &mut Taken) {
    if t.restarted().is_some() {
        t.next.cells = t.before.cells.clone();
        let Step::Restart(c) = t.step else { return };
        t.empty(|d, _, frame| d == c && frame.goes_to_node());
    }
}

/// A restart empties the cells of every console.
pub fn restart_empties_all(t: &mut Taken) {
    if t.restarted().is_some() {
        t.empty(|_, _, _| true);
    }
}

/// An idle console can be restarted.
pub fn restart_of_idle(t: &mut Taken) {
    if let Some((c, x)) = t.not_restarted(15) {
        if x.state == State::Idle && x.life < MAX_LIFE {
            t.restart(c);
        }
    }
}

/// A waiting console can be restarted.
pub fn restart_of_waiting(t: &mut Taken) {
    if let Some((c, x)) = t.not_restarted(15) {
        if x.state != State::Idle && x.life < MAX_LIFE {
            t.restart(c);
        }
    }
}

/// A restart of a console that is up is refused with 7 while it waits, as a begin is.
pub fn waiting_refused_7(t: &mut Taken) {
    if t.not_restarted(15).is_some_and(|(_, x)| x.state != State::Idle) {
        t.refuse(7);
    }
}

/// 15 is asked before question 4.
pub fn restart_before_number(t: &mut Taken) {
    if t.not_restarted(4).is_some_and(|(_, x)| x.state != State::Down) {
        t.refuse(15);
    }
}

/// 16 is asked before 15.
pub fn life_before_up(t: &mut Taken) {
    if t.not_restarted(15).is_some_and(|(_, x)| x.life == MAX_LIFE) {
        t.refuse(16);
    }
}

/// The last life is 999.
pub fn last_life_999(t: &mut Taken) {
    if let Some(c) = t.restarted() {
        if t.before.consoles[&c].life == MAX_LIFE - 1 {
            t.refuse(16);
        }
    }
}

/// The last life is 1,001.
pub fn last_life_1001(t: &mut Taken) {
    if let Some((c, _)) = t.not_restarted(16) {
        t.restart(c);
    }
}

/// A console that has no life left is restarted with the last one.
pub fn last_life_again(t: &mut Taken) {
    if let Some((c, _)) = t.not_restarted(16) {
        t.restart(c);
        t.console(c).life = MAX_LIFE;
    }
}

/// A write's tag has life 0.
pub fn write_life_0(t: &mut Taken) {
    t.write_life(|_| 0);
}

/// A write's tag has the life of the best before it, if that is higher.
pub fn write_life_of_best(t: &mut Taken) {
    if let Some(heard) = t.heard() {
        t.write_life(|x| x.life.max(heard.console.best.2));
    }
}

/// A read, too, tells its own life.
pub fn read_own_life(t: &mut Taken) {
    if let Some((c, Kind::Read)) = t.turned() {
        let x = t.console(c);
        if x.best.0 > 0 {
            x.best.2 = x.life;
        }
        let put = Frame::Put(x.best, x.value);
        t.next.send_all(c, put);
    }
}

/// A finished operation says the life of its console.
pub fn finished_own_life(t: &mut Taken) {
    if let (Step::Deliver(c, _), Ok(Outcome::Finished((ts, console, _), value))) = (t.step, t.answer.outcome) {
        let life = t.console(c).life;
        t.answer.outcome = Ok(Outcome::Finished((ts, console, life), value));
    }
}

/// The life ends as the console goes down, and not as it restarts.
pub fn down_raises_life(t: &mut Taken) {
    if let (Step::ConsoleDown(c), true) = (t.step, t.is_done()) {
        t.console(c).life += 1;
    }
    restart_keeps_life(t);
}

/// Console down clears the life.
pub fn down_clears_life(t: &mut Taken) {
    if let (Step::ConsoleDown(c), true) = (t.step, t.is_done()) {
        t.console(c).life = 0;
    }
}

/// The finish by an ack clears the life.
pub fn finish_clears_life(t: &mut Taken) {
    if let Some((c, ..)) = t.finished_by_ack() {
        t.console(c).life = 0;
    }
}

/// An early finish clears the life.
pub fn early_clears_life(t: &mut Taken) {
    if let Some((c, ..)) = t.finished_by_reply() {
        t.console(c).life = 0;
    }
}

/// A begin clears the life.
pub fn begin_clears_life(t: &mut Taken) {
    if let (Step::BeginRead(c) | Step::BeginWrite(c, _), true) = (t.step, t.is_done()) {
        t.console(c).life = 0;
    }
}

/// The turn clears the life.
pub fn turn_clears_life(t: &mut Taken) {
    if let Some((c, _)) = t.turned() {
        t.console(c).life = 0;
    }
}

fn without_life((ts, console, _): Tag) -> (u64, u64) {
    (ts, console)
}

fn life_first((ts, console, life): Tag) -> Tag {
    (ts, life, console)
}

fn life_before_ts((ts, console, life): Tag) -> Tag {
    (life, ts, console)
}

/// The life of a put's tag is not compared.
pub fn put_without_life(t: &mut Taken) {
    t.put_by(|put, own| without_life(put) > without_life(own));
}

/// The life of a reply's tag is not compared.
pub fn reply_without_life(t: &mut Taken) {
    t.reply_by(|reply, best| Compared::of(without_life(reply), without_life(best)));
}

/// The life of a put's tag is compared before its console.
pub fn put_life_first(t: &mut Taken) {
    t.put_by(|put, own| life_first(put) > life_first(own));
}

/// The life of a reply's tag is compared before its console.
pub fn reply_life_first(t: &mut Taken) {
    t.reply_by(|reply, best| Compared::of(life_first(reply), life_first(best)));
}

/// The life of a put's tag is compared before its ts.
pub fn put_life_before_ts(t: &mut Taken) {
    t.put_by(|put, own| life_before_ts(put) > life_before_ts(own));
}

/// The life of a reply's tag is compared before its ts.
pub fn reply_life_before_ts(t: &mut Taken) {
    t.reply_by(|reply, best| Compared::of(life_before_ts(reply), life_before_ts(best)));
}

/// Every tag of the board.
fn in_tags(board: &mut Model, change: fn(&mut Tag)) {
    board.nodes.values_mut().for_each(|x| change(&mut x.tag));
    board.consoles.values_mut().for_each(|x| change(&mut x.best));
    for frame in board.cells.values_mut() {
        if let Frame::Reply(tag, _) | Frame::Put(tag, _) = frame {
            change(tag);
        }
    }
}

/// A tag with a life above 1,000 is taken for one with the last life.
pub fn tag_life_any(board: &mut Model) {
    in_tags(board, |tag| tag.2 = tag.2.min(MAX_LIFE));
}

/// A tag of the last life is taken for one that is not well formed.
pub fn tag_life_999(board: &mut Model) {
    in_tags(board, |tag| {
        if tag.2 == MAX_LIFE {
            tag.2 += 1;
        }
    });
}

/// A tag with ts 0 and a life is taken for tag zero.
pub fn zero_with_life(board: &mut Model) {
    in_tags(board, |tag| {
        if tag.0 == 0 && tag.2 <= MAX_LIFE {
            tag.2 = 0;
        }
    });
}

/// A tag's life above that of its console is taken for a tag that is not well formed.
pub fn tag_beyond_console(board: &mut Model) {
    let lives: Vec<u64> = board.consoles.values().map(|x| x.life).collect();
    for node in board.nodes.values_mut() {
        let (_, console, life) = node.tag;
        if lives.get(console as usize).is_some_and(|own| life > *own) {
            node.tag.2 = MAX_LIFE + 1;
        }
    }
}

/// A console with a life above 1,000 is taken for one with the last life.
pub fn console_life_any(board: &mut Model) {
    board.consoles.values_mut().for_each(|x| x.life = x.life.min(MAX_LIFE));
}

/// A console with the last life is taken for one that is not well formed.
pub fn console_life_999(board: &mut Model) {
    for x in board.consoles.values_mut().filter(|x| x.life == MAX_LIFE) {
        x.life += 1;
    }
}

/// A console beyond m with a life is taken for one without.
pub fn beyond_with_life(board: &mut Model) {
    for x in board.consoles.range_mut(board.m..).map(|(_, x)| x) {
        if x.life <= MAX_LIFE {
            x.life = 0;
        }
    }
}

/// A fresh in a list leaves the consoles their lives.
pub fn list_keeps_lives(before: &Model, made: &mut Model) {
    for (c, x) in made.consoles.range_mut(..made.m) {
        x.life = before.consoles[c].life;
    }
}
