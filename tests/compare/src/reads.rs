//! The accepted deliveries of finished reads under release 1 and 2, on each size, in quiet and in busy runs.
//!
//! - Quiet: one begin in eight is a write's, and nothing else is open while a write is. Frames that a finished write
//!   left in flight, puts among them, may still be there.
//! - Busy: one begin in two is a write's, whatever is open.
//!
//! In both the consoles begin in turn, each some time after it is idle, frames are delivered in a drawn order, and
//! nothing goes down. Both releases have the same begins in the same order, and a run goes on until all is finished and
//! delivered.
use crate::beside::{both, differ, made, Agreed};
use crate::faults::Faulty;
use crate::model::{Kind, Model, Release, State, Step};
use crate::rules::{Counts, Run};
use common::Chance;

/// The operations of a run.
const OPERATIONS: u32 = 1000;

/// A console, and the value if it writes.
type Begin = (u32, Option<u32>);

#[derive(Clone, Copy, PartialEq, Eq)]
enum Load {
    Quiet,
    Busy,
}

impl Load {
    /// Of so many begins one is a write's.
    fn writes(self) -> u32 {
        match self {
            Load::Quiet => 8,
            Load::Busy => 2,
        }
    }

    fn begins(self, m: u32, chance: &mut Chance) -> Vec<Begin> {
        let mut value = || chance.one_in(self.writes()).then(|| chance.value());
        (0..OPERATIONS).map(|i| (i % m, value())).collect()
    }

    fn allows(self, (c, written): Begin, board: &Model) -> bool {
        let is_open = |kind| {
            let mut states = board.consoles.values().map(|x| x.state);
            states.any(|state| state == State::Asking(kind) || state == State::Telling(kind))
        };
        let is_quiet = !is_open(Kind::Write) && (written.is_none() || !is_open(Kind::Read));
        board.consoles[&c].state == State::Idle && (is_quiet || self == Load::Busy)
    }
}

/// Some frame in flight, if there is one. While no node is down, each can be delivered.
pub fn some_delivery(board: &Model, chance: &mut Chance) -> Option<Step> {
    let frames = board.cells.len() as u32;
    let (c, k) = board.cells.keys().nth(chance.below(frames.max(1)) as usize)?;
    Some(Step::Deliver(*c, *k))
}

fn run(n: u32, m: u32, release: Release, load: Load, begins: &[Begin], chance: &mut Chance, faulty: Faulty) -> Agreed<Counts> {
    let (mut board, mut model) = made(n, m, release);
    let (mut held, mut counts) = (Run::fresh(faulty.rules(n)), Counts::default());
    let mut begins = begins.iter().peekable();
    while begins.peek().is_some() || !model.cells.is_empty() {
        let step = match begins.next_if(|begin| load.allows(**begin, &model) && chance.one_in(4)) {
            Some((c, Some(value))) => Some(Step::BeginWrite(*c, *value)),
            Some((c, None)) => Some(Step::BeginRead(*c)),
            None => some_delivery(&model, chance),
        };
        let Some(step) = step else {
            continue;
        };
        let before = board.clone();
        let answer = both(&mut board, &mut model, step, faulty)?;
        held.take(step, answer, &before, &board, &mut counts)?;
    }
    Ok(counts)
}

/// What was seen on one size, under each release.
struct Size {
    n: u32,
    m: u32,
    quiet: [Counts; 2],
    busy: [Counts; 2],
}

#[derive(Default)]
pub struct Reads {
    sizes: Vec<Size>,
}

impl Reads {
    pub fn run(&mut self, n: u32, m: u32, chance: &mut Chance, faulty: Faulty) -> Agreed {
        let mut under_both = |load: Load| -> Agreed<[Counts; 2]> {
            let (begins, seed) = (load.begins(m, chance), chance.next());
            let under = |release| run(n, m, release, load, &begins, &mut Chance(seed), faulty);
            Ok([under(Release::One)?, under(Release::Two)?])
        };
        let (quiet, busy) = (under_both(Load::Quiet)?, under_both(Load::Busy)?);
        self.sizes.push(Size { n, m, quiet, busy });
        Ok(())
    }

    pub fn print(&self) {
        println!("accepted deliveries of a finished read, in runs of {OPERATIONS} operations; both releases have the same begins, nothing goes down");
        println!(
            "quiet: one begin in {} is a write's, and nothing else is open while a write is; frames that a finished write left may be in flight",
            Load::Quiet.writes()
        );
        println!("busy: one begin in {} is a write's, whatever is open", Load::Busy.writes());
        println!("early: the share of reads that finished early under release 2, each after at most n + q; under release 1 none may");
        println!("       quiet, release 1 and 2           busy, release 1 and 2");
        println!(" n  m  mean  most   mean  most   early   mean  most   mean  most   early  2(n + q)");
        for Size { n, m, quiet, busy } in &self.sizes {
            println!("{n:2} {m:2} {}  {} {:9}", row(quiet), row(busy), 2 * (n + n / 2 + 1));
        }
    }

    /// Whether all operations finished and the reads are as Paper 4 has them: under release 1 none finishes early;
    /// under release 2 some of a quiet board's do, and all together take less than under release 1, and some of a busy
    /// one's tell, if there is more than one node and console.
    pub fn hold(&self) -> Agreed {
        for Size { n, m, quiet, busy } in &self.sizes {
            let is_whole = |counts: &Counts| counts.finished.operations == u64::from(OPERATIONS);
            let never_early = |counts: &Counts| counts.early.operations == 0;
            let always_early = |counts: &Counts| counts.early.operations == counts.reads.operations;
            let wrong = if !quiet.iter().chain(busy).all(is_whole) {
                "an operation did not finish"
            } else if !never_early(&quiet[0]) || !never_early(&busy[0]) {
                "a read finished early under release 1"
            } else if never_early(&quiet[1]) {
                "no read of a quiet board finished early"
            } else if quiet[1].reads.mean() >= quiet[0].reads.mean() {
                "reads of a quiet board take no less under release 2"
            } else if always_early(&busy[1]) && *n > 1 && *m > 1 {
                "all reads of a busy board finished early"
            } else {
                continue;
            };
            return differ(&[format!("n = {n}, m = {m}: {wrong}")]);
        }
        Ok(())
    }
}

/// Mean and most under each release, and the share of reads that finished early under release 2.
fn row([one, two]: &[Counts; 2]) -> String {
    let early = 100.0 * two.early.operations as f64 / two.reads.operations.max(1) as f64;
    let of = |counts: &Counts| format!("{:5.2} {:5}", counts.reads.mean(), counts.reads.most);
    format!("{}  {}  {early:5.1}%", of(one), of(two))
}
