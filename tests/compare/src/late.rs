//! Runs from late timestamps: beside the last one, where question 10 refuses, and beside those at which a number of 32
//! bits for a tag would wrap (Paper 5).
use crate::beside::{made, Agreed};
use crate::faults::{put_in_32_bits, reply_in_32_bits, Faulty, Taken};
use crate::model::{Answer, Compared, Model, Outcome, Release, Step, MAX_TS};
use crate::runs;
use common::Chance;

/// At each multiple of this timestamp ts × 8 would wrap to 0, if it were worked in 32 bits.
pub const WRAPS_AT: u32 = 1 << 29;

/// What such runs show: deliveries refused with 10, early finishes with the last timestamp, of which question 10 is not
/// asked, and deliveries of a put and of a reply that would go otherwise by a number of 32 bits.
#[derive(Default)]
pub struct Late {
    pub refused: u64,
    pub early: u64,
    pub puts_wrapped: u64,
    pub replies_wrapped: u64,
}

impl Late {
    /// A run from a board whose nodes hold tags with one of the three timestamps up to the highest, one by one and as a
    /// list. Demand 3 does not speak of such a run.
    pub fn run(&mut self, n: u32, m: u32, release: Release, highest: u32, chance: &mut Chance, faulty: Faulty) -> Agreed {
        let (_, mut model) = made(n, m, release);
        for node in model.nodes.values_mut().take(n as usize) {
            let (ts, console, life) = (highest - chance.below(3), chance.below(m), chance.below(2));
            node.tag = (ts.into(), console.into(), life.into());
            node.value = chance.value();
        }
        runs::from_board(model, false, chance, faulty, |before, step, answer| {
            self.add_wrapped(before, step);
            self.add(answer);
        })
    }

    fn add_wrapped(&mut self, model: &Model, step: Step) {
        let right = model.step(step);
        let goes_otherwise = |by: fn(&mut Taken)| u64::from(Taken::changed(model, step, by) != right);
        self.puts_wrapped += goes_otherwise(put_in_32_bits);
        self.replies_wrapped += goes_otherwise(reply_in_32_bits);
    }

    fn add(&mut self, Answer { outcome, compared }: Answer) {
        match outcome {
            Err(10) => self.refused += 1,
            Ok(Outcome::Finished((MAX_TS, ..), _)) if compared != Compared::None => self.early += 1,
            _ => {}
        }
    }
}
