//! Puts schedules to the program and to the model, and stops at the first difference.
use crate::beside::{differ, Agreed};
use crate::drawing::{edges, Drawing};
use crate::faults::Faulty;
use crate::model::Outcome;
use crate::processes::{left, run, shown};
use crate::schedule::{lines, Answer};
use crate::seen::Shows;
use common::Chance;
use std::collections::BTreeMap;
use std::io::{self, Read, Write};
use std::path::Path;
use std::process::Output;

/// In each round that many tiny schedules; and one round in so many has a schedule of that many lines.
const TINY: u32 = 20;
const ROUNDS: u64 = 32;
const MANY: u64 = 70_000;

/// Reads standard input as the program does and writes what the model answers.
pub fn answer(faulty: Faulty) -> io::Result<()> {
    let mut input = Vec::new();
    io::stdin().read_to_end(&mut input)?;
    io::stdout().write_all(&faulty.written(&faulty.answers(&input)))
}

/// How many lines there were, by their answers.
#[derive(Default)]
pub struct Counts {
    schedules: u64,
    lines: u64,
    finished: u64,
    refused: BTreeMap<u32, u64>,
}

impl Counts {
    fn add(&mut self, answers: &[Answer]) {
        self.schedules += 1;
        self.lines += answers.len() as u64;
        for answer in answers {
            match answer {
                Ok(Outcome::Finished(..)) => self.finished += 1,
                Ok(_) => {}
                Err(refusal) => *self.refused.entry(*refusal).or_default() += 1,
            }
        }
    }
}

impl Shows for Counts {
    fn print(&self, seed: u64) {
        let refused: u64 = self.refused.values().sum();
        let accepted = self.lines - refused;
        println!("seed {seed}: {} lines in {} schedules agree", self.lines, self.schedules);
        println!("{accepted} lines were accepted, {} of them finished an operation", self.finished);
        let each: Vec<String> = self.refused.iter().map(|(refusal, lines)| format!("{refusal}: {lines}")).collect();
        println!("{refused} lines were refused, with\n  {}", each.join(", "));
    }
}

/// The edges, then by chance until so many lines are answered.
pub fn compare(rack: &Path, wanted: u64, seed: u64, faulty: Faulty) -> Agreed<Counts> {
    let mut drawn = Drawn {
        rack,
        seed,
        faulty,
        chance: Chance(seed),
        counts: Counts::default(),
    };
    for schedule in edges() {
        drawn.put(&schedule)?;
    }
    for round in 0.. {
        let left = wanted.saturating_sub(drawn.counts.lines);
        if left == 0 {
            break;
        }
        drawn.round(round, left)?;
    }
    Ok(drawn.counts)
}

/// The schedules so far, and what they are put to.
struct Drawn<'a> {
    rack: &'a Path,
    seed: u64,
    faulty: Faulty,
    chance: Chance,
    counts: Counts,
}

impl Drawn<'_> {
    /// One schedule is mostly good, one is half damaged, and the tiny ones are mostly ends of the input.
    fn round(&mut self, round: u64, left: u64) -> Agreed {
        let good = if round % ROUNDS == 1 {
            MANY
        } else {
            500 + u64::from(self.chance.below(3500))
        };
        self.draw(60, good.min(left))?;
        let half = u64::from(self.chance.below(1500));
        self.draw(2, half.min(left))?;
        for _ in 0..TINY {
            let few = u64::from(self.chance.below(5));
            self.draw(3, few)?;
        }
        Ok(())
    }

    /// A schedule of so many lines, one of so many damaged.
    fn draw(&mut self, damaged: u32, lines: u64) -> Agreed {
        let schedule = Drawing::new(&mut self.chance, damaged).schedule(lines);
        self.put(&schedule)
    }

    /// Puts the schedule to the program and to the model.
    fn put(&mut self, schedule: &[u8]) -> Agreed {
        let answers = self.faulty.answers(schedule);
        let expected = self.faulty.written(&answers);
        let ended = run(self.rack, schedule, &mut self.chance);
        if ended.stdout != expected || !ended.stderr.is_empty() || !ended.status.success() {
            return differ(&difference(schedule, &ended, &expected, self.seed));
        }
        self.counts.add(&answers);
        Ok(())
    }
}

/// The first line at which they differ. The schedule is left in a file.
fn difference(schedule: &[u8], ended: &Output, expected: &[u8], seed: u64) -> [String; 6] {
    let mut program = ended.stdout.split_inclusive(|byte| *byte == b'\n');
    let mut model = expected.split_inclusive(|byte| *byte == b'\n');
    let mut number = 1;
    let (a, b) = loop {
        let (a, b) = (program.next(), model.next());
        if a != b || a.is_none() {
            break (a, b);
        }
        number += 1;
    };
    let wrote = |line: Option<&[u8]>| line.map_or("nothing more".to_string(), shown);
    [
        format!(
            "seed {seed}: a difference at line {number}; the program ended with {}",
            ended.status
        ),
        format!("the program wrote {}", wrote(a)),
        format!("the model wrote {}", wrote(b)),
        format!("on standard error the program wrote {}", shown(&ended.stderr)),
        match lines(schedule).nth(number - 1) {
            Some(line) => format!("the line is {}, its end {}", shown(line.text), shown(line.end)),
            None => "there is no such line".to_string(),
        },
        left("schedule", schedule),
    ]
}
