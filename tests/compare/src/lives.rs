//! Runs from boards whose consoles have lives beside the last one (Paper 7): a restart is accepted at 999, refused with
//! 16 at 1,000, and writes choose tags with these lives.
use crate::beside::{made, Agreed};
use crate::faults::{put_without_life, reply_without_life, Faulty, Taken};
use crate::model::{Answer, Model, Outcome, Release, Step, MAX_LIFE};
use crate::runs;
use common::Chance;

/// What such runs show: restarts to the last life and to lower ones, those refused with 16 and those of an up console
/// with the last life, which are refused with 15, operations finished with a tag of the last life, and deliveries of a
/// put and of a reply that would go otherwise if lives were not compared.
#[derive(Default)]
pub struct Lives {
    pub to_last: u64,
    pub to_lower: u64,
    pub refused: u64,
    pub up_at_last: u64,
    pub finished: u64,
    pub puts_by_life: u64,
    pub replies_by_life: u64,
}

/// One of the three lives up to the last.
fn late_life(chance: &mut Chance) -> u64 {
    MAX_LIFE - u64::from(chance.below(3))
}

impl Lives {
    /// A run from a board whose consoles have such lives and whose nodes hold tags with such lives, of two timestamps
    /// and two consoles at most, one by one and as a list. Demand 3 does not speak of such a run.
    pub fn run(&mut self, n: u32, m: u32, release: Release, chance: &mut Chance, faulty: Faulty) -> Agreed {
        let (_, mut model) = made(n, m, release);
        for node in model.nodes.values_mut().take(n as usize) {
            let (ts, console) = (1 + chance.below(2), chance.below(m.min(2)));
            node.tag = (ts.into(), console.into(), late_life(chance));
            node.value = chance.value();
        }
        for console in model.consoles.values_mut().take(m as usize) {
            console.life = late_life(chance);
        }
        runs::from_board(model, true, chance, faulty, |before, step, answer| {
            self.add_by_life(before, step);
            self.add(before, step, answer);
        })
    }

    fn add_by_life(&mut self, model: &Model, step: Step) {
        let right = model.step(step);
        let goes_otherwise = |by: fn(&mut Taken)| u64::from(Taken::changed(model, step, by) != right);
        self.puts_by_life += goes_otherwise(put_without_life);
        self.replies_by_life += goes_otherwise(reply_without_life);
    }

    fn add(&mut self, before: &Model, step: Step, answer: Answer) {
        match (step, answer.outcome) {
            (Step::Restart(c), Ok(_)) if before.consoles[&c].life + 1 == MAX_LIFE => self.to_last += 1,
            (Step::Restart(_), Ok(_)) => self.to_lower += 1,
            (_, Err(16)) => self.refused += 1,
            (Step::Restart(c), Err(15)) if before.consoles[&c].life == MAX_LIFE => self.up_at_last += 1,
            (_, Ok(Outcome::Finished((_, _, MAX_LIFE), _))) => self.finished += 1,
            _ => {}
        }
    }

    pub fn print(&self) {
        println!(
            "and runs beside the last life: {} restarts to it and {} to a lower one\n  {} were refused with 16, and {} of an up console that has the last life with 15",
            self.to_last, self.to_lower, self.refused, self.up_at_last
        );
        println!(
            "  {} operations finished with a tag of that life; {} puts and {} replies would go otherwise by ts and console",
            self.finished, self.puts_by_life, self.replies_by_life
        );
    }

    pub fn shows_all(&self) -> bool {
        let restarts = [self.to_last, self.to_lower, self.refused, self.up_at_last];
        let tags = [self.finished, self.puts_by_life, self.replies_by_life];
        !restarts.contains(&0) && !tags.contains(&0)
    }
}
