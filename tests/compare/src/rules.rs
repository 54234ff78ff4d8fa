//! Demand 3's three rules, held to a run of the library by its steps and their answers alone: the progress rule with
//! Paper 2's majority after each accepted step, the delivery bound at each delivery, the freshness rule at each finish.
//! They are the same under both releases; an early finish (Paper 4) is held to half the bound besides, since it takes
//! one phase. Beside them stands what lives are for (Paper 7): no two writes choose the same tag; a write's is read off
//! its console's best at the turn. And what the runs show, counted: finishes, node ups, how replies compared and what
//! they did to the mark, frames that were withdrawn, restarts, and tags that differ in the life alone.
use crate::beside::{differ, Agreed};
use crate::model::{Answer, Compared, Frame, Kind, Outcome, State, Step, Tag};
use crate::words::{best, cell, console, mark, node, read, tag};
use hatukeno::{Board, Refusal};
use std::collections::{BTreeMap, BTreeSet};

/// Finished operations, and their accepted deliveries: of all together, and the most of one.
#[derive(Clone, Copy, Default)]
pub struct Finished {
    pub operations: u64,
    pub deliveries: u64,
    pub most: u64,
}

impl Finished {
    fn add(&mut self, taken: u64) {
        self.operations += 1;
        self.deliveries += taken;
        self.most = self.most.max(taken);
    }

    pub fn mean(&self) -> f64 {
        self.deliveries as f64 / self.operations.max(1) as f64
    }
}

/// What was seen in the runs on one size under one release.
#[derive(Clone, Default)]
pub struct Counts {
    /// All finished operations, the reads among them, and the early finishes among these.
    pub finished: Finished,
    pub reads: Finished,
    pub early: Finished,
    /// Accepted node ups, those of them with a frame waiting for the node, and how many times a console with no frame
    /// to deliver had one again after one of them.
    pub node_ups: u64,
    pub waited_for: u64,
    pub again: u64,
    /// Node downs and node ups that were refused because the node was so already.
    pub twice: u64,
    /// Deliveries that said lower, same and higher.
    pub lower: u64,
    pub same: u64,
    pub higher: u64,
    /// Replies taken in that set the mark, kept it on, cleared it by a differing tag, by the turn, and by an early
    /// finish.
    pub set: u64,
    pub kept: u64,
    pub cleared: u64,
    pub turned: u64,
    pub ended: u64,
    /// Asks and puts that were withdrawn (Paper 6), those of both to a node that was down, and puts that their node,
    /// which was up, would have taken.
    pub asks_withdrawn: u64,
    pub puts_withdrawn: u64,
    pub withdrawn_from_down: u64,
    pub kept_from_landing: u64,
    /// Accepted restarts (Paper 7), those of them that emptied a cell, and restarts that were refused with 15, of an
    /// idle console and of a waiting one.
    pub restarts: u64,
    pub emptied: u64,
    pub idle_restarts: u64,
    pub waiting_restarts: u64,
    /// Replies taken in whose tag differs from the best in the life alone, and puts that were handed on whose tag
    /// differs so from the node's.
    pub replies_by_life: u64,
    pub puts_by_life: u64,
}

/// Whether these tags have one ts and one console, and two lives.
fn differ_in_life(a: Tag, b: Tag) -> bool {
    (a.0, a.1) == (b.0, b.1) && a.2 != b.2
}

impl Counts {
    /// The tag in the cell, and that at this place, which it is compared with.
    fn is_by_life(c: u32, k: u32, with: usize, from: &Board) -> u64 {
        let words = from.words();
        u64::from(differ_in_life(tag(&words[cell(c, k) + 1..]), tag(&words[with..])))
    }

    /// A handed frame of this console and node. Of a put the tag is compared.
    fn add_handed(&mut self, c: u32, k: u32, from: &Board) {
        const PUT: u32 = 3;
        if from.words()[cell(c, k)] == PUT {
            self.puts_by_life += Counts::is_by_life(c, k, node(k) + 1, from);
        }
    }

    /// An accepted restart of this console.
    fn add_restart(&mut self, c: u32, from: &Board) {
        let holds_frame = |k: u32| from.words()[cell(c, k)] != 0;
        self.restarts += 1;
        self.emptied += u64::from((0..5).any(holds_frame));
    }

    /// A restart that was refused because the console is up.
    fn add_up(&mut self, c: u32, from: &Board) {
        match State::of_word(from.words()[console(c)]) {
            Some(State::Idle) => self.idle_restarts += 1,
            _ => self.waiting_restarts += 1,
        }
    }

    /// A discarded delivery of this console and node. Of asks and puts it is those of down consoles that are discarded.
    fn add_discarded(&mut self, c: u32, k: u32, from: &Board) {
        let from = read(from.words()).expect("a delivery was accepted on it");
        let (frame, node) = (from.cells[&(c, k)], &from.nodes[&k]);
        match frame {
            Frame::Ask => self.asks_withdrawn += 1,
            Frame::Put(tag, _) => {
                self.puts_withdrawn += 1;
                self.kept_from_landing += u64::from(node.up && tag > node.tag);
            }
            Frame::Reply(..) | Frame::Ack => return,
        }
        self.withdrawn_from_down += u64::from(!node.up);
    }

    /// A delivery of this console and node, from one board to the next.
    fn add_delivery(&mut self, c: u32, k: u32, answer: Answer, from: &Board, to: &Board) {
        match answer.outcome {
            Ok(Outcome::Discarded) => self.add_discarded(c, k, from),
            Ok(Outcome::Handed) => self.add_handed(c, k, from),
            _ => {}
        }
        match answer.compared {
            Compared::None => return,
            Compared::Lower => self.lower += 1,
            Compared::Same => self.same += 1,
            Compared::Higher => self.higher += 1,
        }
        self.replies_by_life += Counts::is_by_life(c, k, best(c), from);
        let is_on = |board: &Board| board.words()[mark(c)] == 1;
        match (is_on(from), is_on(to), answer.outcome) {
            (false, true, _) => self.set += 1,
            (true, true, _) => self.kept += 1,
            (true, false, Ok(Outcome::Heard)) => self.cleared += 1,
            (true, false, Ok(Outcome::Turned)) => self.turned += 1,
            (true, false, _) => self.ended += 1,
            (false, false, _) => {}
        }
    }
}

/// The three rules for n nodes.
pub struct Rules {
    pub n: u32,
    /// Progress: so many machines must be up.
    pub up: u32,
    /// The most accepted deliveries of an operation, and of a read that finishes early.
    pub deliveries: u64,
    pub early_deliveries: u64,
    /// Freshness: whether an operation of this kind must have a higher tag than those finished before it, or else one
    /// no lower.
    pub rises: fn(Kind) -> bool,
    /// What of the tags of two writes must differ.
    pub apart: fn(Tag) -> Tag,
}

impl Rules {
    pub fn of(n: u32) -> Rules {
        let majority = n / 2 + 1;
        let one_phase = u64::from(n + majority);
        Rules {
            n,
            up: majority,
            deliveries: 2 * one_phase,
            early_deliveries: one_phase,
            rises: |kind| kind == Kind::Write,
            apart: |tag| tag,
        }
    }
}

/// An open operation: the accepted deliveries since its begin, and the highest final tag before it.
struct Open {
    kind: Kind,
    taken: u64,
    before: Option<Tag>,
}

/// A run so far: which machines are down, the open operation of each console that has one, the highest final tag, and
/// the tags that writes have chosen.
pub struct Run {
    rules: Rules,
    down: BTreeSet<u32>,
    open: BTreeMap<u32, Open>,
    highest: Option<Tag>,
    chosen: BTreeSet<Tag>,
}

impl Run {
    pub fn fresh(rules: Rules) -> Run {
        Run {
            rules,
            down: BTreeSet::new(),
            open: BTreeMap::new(),
            highest: None,
            chosen: BTreeSet::new(),
        }
    }

    /// Takes in a step with its answer, from one board of the library to the next.
    pub fn take(&mut self, step: Step, answer: Answer, from: &Board, to: &Board, counts: &mut Counts) -> Agreed {
        if let Step::Deliver(c, k) = step {
            counts.add_delivery(c, k, answer, from, to);
        }
        match (step, answer.outcome) {
            (_, Ok(_)) => self.accept(step, answer, from, to, counts)?,
            (Step::NodeDown(_), Err(9)) | (Step::NodeUp(_), Err(14)) => counts.twice += 1,
            (Step::Restart(c), Err(15)) => counts.add_up(c, from),
            _ => {}
        }
        Ok(())
    }

    fn accept(&mut self, step: Step, answer: Answer, from: &Board, to: &Board, counts: &mut Counts) -> Agreed {
        match step {
            Step::BeginRead(c) => self.begin(c, Kind::Read),
            Step::BeginWrite(c, _) => self.begin(c, Kind::Write),
            Step::ConsoleDown(c) => {
                self.open.remove(&c);
            }
            Step::Deliver(c, _) => self.deliver(c, answer, to, counts)?,
            Step::NodeDown(k) => {
                self.down.insert(k);
            }
            Step::NodeUp(k) => {
                self.down.remove(&k);
                counts.node_ups += 1;
                counts.waited_for += u64::from(is_waited_for(k, from));
                counts.again += self.stuck(from).filter(|c| self.has_frame(*c, to)).count() as u64;
            }
            Step::Restart(c) => counts.add_restart(c, from),
        }
        self.hold_progress(to)
    }

    fn begin(&mut self, c: u32, kind: Kind) {
        let before = self.highest;
        self.open.insert(c, Open { kind, taken: 0, before });
    }

    fn deliver(&mut self, c: u32, answer: Answer, to: &Board, counts: &mut Counts) -> Agreed {
        let Some(operation) = self.open.get_mut(&c) else {
            return Ok(());
        };
        operation.taken += 1;
        let (taken, kind) = (operation.taken, operation.kind);
        self.hold_bound(taken, self.rules.deliveries)?;
        if (kind, answer.outcome) == (Kind::Write, Ok(Outcome::Turned)) {
            self.choose(tag(&to.words()[best(c)..]))?;
        }
        let Ok(Outcome::Finished(tag, _)) = answer.outcome else {
            return Ok(());
        };
        counts.finished.add(taken);
        if kind == Kind::Read {
            counts.reads.add(taken);
        }
        if answer.compared != Compared::None {
            counts.early.add(taken);
            self.hold_bound(taken, self.rules.early_deliveries)?;
        }
        self.finish(c, tag)
    }

    fn hold_bound(&self, taken: u64, most: u64) -> Agreed {
        if taken > most {
            let n = self.rules.n;
            return differ(&[format!("n = {n}: an operation took {taken} deliveries, more than {most}")]);
        }
        Ok(())
    }

    /// A write has chosen its tag.
    fn choose(&mut self, tag: Tag) -> Agreed {
        if !self.chosen.insert((self.rules.apart)(tag)) {
            return differ(&[format!("two writes have chosen the tag {tag:?}")]);
        }
        Ok(())
    }

    fn finish(&mut self, c: u32, tag: Tag) -> Agreed {
        let Some(Open { kind, before, .. }) = self.open.remove(&c) else {
            return Ok(());
        };
        if Some(tag) < before || (self.rules.rises)(kind) && Some(tag) == before {
            return differ(&[format!("console {c} finished with tag {tag:?} after {before:?} was finished")]);
        }
        self.highest = self.highest.max(Some(tag));
        Ok(())
    }

    fn hold_progress(&self, board: &Board) -> Agreed {
        let up = self.rules.n - self.down.len() as u32;
        if up < self.rules.up {
            return Ok(());
        }
        match self.stuck(board).next() {
            Some(c) => differ(&[
                format!("console {c} has an operation open and no frame that can be delivered"),
                format!("of {} machines those that are down are {:?}", self.rules.n, self.down),
                format!("the words of the board are {:?}", board.words()),
            ]),
            None => Ok(()),
        }
    }

    /// The consoles with an operation open and no frame that can be delivered on this board.
    fn stuck<'a>(&'a self, board: &'a Board) -> impl Iterator<Item = u32> + 'a {
        self.open.keys().copied().filter(|c| !self.has_frame(*c, board))
    }

    fn has_frame(&self, c: u32, board: &Board) -> bool {
        (0..self.rules.n).any(|k| board.clone().deliver(c, k).is_ok())
    }
}

/// Whether a frame waits for this node, which is down.
fn is_waited_for(k: u32, board: &Board) -> bool {
    (0..8).any(|c| board.clone().deliver(c, k) == Err(Refusal(9)))
}
