//! The record of a run of the library, as its steps and their answers show it: every finished operation, and every write that
//! has chosen a tag, which is read off its console's best at the turn. Places are step numbers from 1, refused steps counted.
use crate::beside::{made, put, Said};
use crate::model::{Kind, Release, Step, Tag, ZERO};
use crate::shift::{Record, MAX_RECORDS};
use crate::words;
use common::Chance;
use hatukeno::{Board, Outcome};
use std::collections::BTreeMap;

/// The most steps of a run.
const LENGTH: u32 = 8000;

/// An operation of a run, whether it has chosen a tag or is finished, and the step at which its console went down with it.
pub struct Operation {
    pub record: Record,
    pub is_listed: bool,
    pub lost_at: Option<u32>,
}

impl Operation {
    /// Its record, if it is one of the shift's. What is not finished has no end, lost or not.
    pub fn listed(&self) -> Option<Record> {
        self.is_listed.then_some(self.record)
    }
}

/// A run so far: the steps, the operations as they began, how many of them are listed, and the open one of each console that has
/// one.
#[derive(Default)]
struct Run {
    steps: u32,
    operations: Vec<Operation>,
    listed: usize,
    open: BTreeMap<u32, usize>,
}

fn in_tuple(tag: hatukeno::Tag) -> Tag {
    (tag.ts.into(), tag.console.into(), tag.life.into())
}

impl Run {
    /// Takes in a step that answered so and left this board.
    fn take(&mut self, step: Step, said: Said, board: &Board) {
        self.steps += 1;
        let Ok(answer) = said else {
            return;
        };
        match step {
            Step::BeginRead(c) => self.begin(c, Kind::Read, 0),
            Step::BeginWrite(c, value) => self.begin(c, Kind::Write, value),
            Step::Deliver(c, _) => self.deliver(c, answer.outcome, board),
            Step::ConsoleDown(c) => {
                if let Some(i) = self.open.remove(&c) {
                    self.operations[i].lost_at = Some(self.steps);
                }
            }
            Step::NodeDown(_) | Step::NodeUp(_) | Step::Restart(_) => {}
        }
    }

    fn begin(&mut self, console: u32, kind: Kind, value: u32) {
        self.open.insert(console, self.operations.len());
        self.operations.push(Operation {
            record: Record {
                console,
                kind,
                begin: self.steps,
                end: 0,
                tag: ZERO,
                value,
            },
            is_listed: false,
            lost_at: None,
        });
    }

    fn deliver(&mut self, c: u32, outcome: Outcome, board: &Board) {
        let Some(i) = self.open.get(&c) else {
            return;
        };
        let Operation { record, is_listed, .. } = &mut self.operations[*i];
        match outcome {
            Outcome::Turned if record.is_write() => record.tag = words::tag(&board.words()[words::best(c)..]),
            Outcome::Finished { tag, value } => {
                (record.end, record.tag, record.value) = (self.steps, in_tuple(tag), value);
                self.open.remove(&c);
            }
            _ => return,
        }
        self.listed += usize::from(!*is_listed);
        *is_listed = true;
    }
}

/// The operations of a run on this size, until as many are listed as a shift may have.
pub fn run(n: u32, m: u32, release: Release, crashes: bool, chance: &mut Chance) -> Vec<Operation> {
    let (mut board, _) = made(n, m, release);
    let mut run = Run::default();
    while run.steps < LENGTH && run.listed < MAX_RECORDS {
        let step = chance.step(n, m, crashes);
        let said = put(&mut board, step);
        run.take(step, said, &board);
    }
    run.operations
}
