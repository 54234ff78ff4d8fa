//! Times a whole schedule: the program, the same in plain Rust, and the model, each a process that reads the same file.
use crate::clock;
use crate::drawing::likely_step;
use crate::runs::LENGTH;
use crate::side::{Plain, Side};
use crate::timing::medians;
use common::Chance;
use hatukeno::{Outcome, Refusal};
use std::fmt::Write;
use std::fs::{self, File};
use std::io;
use std::path::{Path, PathBuf};
use std::process::{exit, Command, Stdio};

/// What is timed is written here.
const SCHEDULE: &str = "target/bench.csv";
/// The lines of a long run, on five nodes and eight consoles; of ten runs one is long. The others are as in runs.rs.
const LONG: usize = 10_000;
const ROUNDS: usize = 5;

/// Words that make this program read a schedule itself, in plain Rust.
pub const AS_PLAIN: &str = "--as-plain";
pub const AS_UNASKED: &str = "--as-unasked";

/// A schedule of good lines, and how many of its steps were refused and how many finished.
#[derive(Default)]
struct Schedule {
    text: String,
    lines: usize,
    refused: usize,
    finished: usize,
}

impl Schedule {
    fn made(seed: u64, lines: usize) -> Schedule {
        let mut chance = Chance(seed);
        let mut schedule = Schedule::default();
        while schedule.lines < lines {
            let to = lines.min(schedule.lines + if chance.below(10) == 0 { LONG } else { LENGTH });
            let is_long = to - schedule.lines > LENGTH;
            schedule.add_run(&mut chance, is_long, to);
        }
        schedule
    }

    /// A run from a fresh board, up to that many lines.
    fn add_run(&mut self, chance: &mut Chance, is_long: bool, to: usize) {
        let (n, m) = if is_long {
            (5, 8)
        } else {
            (1 + chance.below(5), 1 + chance.below(8))
        };
        let mut board = Plain::made(n, m).expect("an allowed size");
        self.add([0, n, m], Ok(Outcome::Done));
        while self.lines < to {
            let step = likely_step(&board.in_words(), chance);
            self.add(step.numbers(), board.step(step).map(|answer| answer.outcome));
        }
    }

    fn add(&mut self, [verb, first, second]: [u32; 3], outcome: Result<Outcome, Refusal>) {
        writeln!(self.text, "{verb},{first},{second}").expect("memory takes all that is written");
        self.lines += 1;
        self.refused += usize::from(outcome.is_err());
        self.finished += usize::from(matches!(outcome, Ok(Outcome::Finished { .. })));
    }
}

/// One of the programs, and the word that makes it read a schedule.
struct Program {
    name: &'static str,
    path: PathBuf,
    word: Option<&'static str>,
}

impl Program {
    fn command(&self) -> io::Result<Command> {
        let mut command = Command::new(&self.path);
        command.args(self.word).stdin(File::open(SCHEDULE)?);
        Ok(command)
    }

    fn output(&self) -> io::Result<Vec<u8>> {
        let output = self.command()?.stderr(Stdio::inherit()).output()?;
        Ok(output.stdout)
    }

    /// What the process takes from its start to its end, its output thrown away.
    fn seconds(&self) -> io::Result<f64> {
        let mut command = self.command()?;
        let start = clock::of_processes();
        let status = command.stdout(Stdio::null()).status()?;
        let seconds = clock::of_processes() - start;
        if !status.success() {
            return Err(io::Error::other(format!("{} ended with {status}", self.path.display())));
        }
        Ok(seconds)
    }
}

/// The four programs. Stops if one is missing.
pub struct Programs([Program; 4]);

impl Programs {
    pub fn new(rack: &Path) -> Programs {
        let own = std::env::current_exe().expect("the path of this program");
        let program = |name, path: &Path, word| Program {
            name,
            path: path.to_path_buf(),
            word,
        };
        let programs = [
            program("rack", rack, None),
            program("plain", &own, Some(AS_PLAIN)),
            program("plain, question 1 never asked", &own, Some(AS_UNASKED)),
            program("model", &own.with_file_name("compare"), Some("--as-model")),
        ];
        for Program { path, .. } in &programs {
            if !path.is_file() {
                eprintln!("bench: there is no program {}", path.display());
                exit(1);
            }
        }
        Programs(programs)
    }

    /// Prints the times of a schedule of so many lines, once the outputs are seen to be the same bytes.
    pub fn time(&self, seed: u64, lines: usize) -> io::Result<()> {
        let schedule = Schedule::made(seed, lines);
        fs::write(SCHEDULE, &schedule.text)?;
        let Programs(programs) = self;
        let expected = programs[1].output()?;
        for program in programs {
            if program.output()? != expected {
                println!("{} writes something else than plain Rust for {SCHEDULE}", program.name);
                exit(1);
            }
        }
        let time = |program: &Program| {
            let seconds = program.seconds().unwrap_or_else(|error| {
                eprintln!("bench: {error}");
                exit(1);
            });
            1e9 * seconds / schedule.lines as f64
        };
        let [a, b, c, d] = programs;
        let times = medians(ROUNDS, [&|| time(a), &|| time(b), &|| time(c), &|| time(d)]);

        println!();
        println!("| a schedule | ns per line | lines per second | times plain | times never asked |");
        println!("|---|---:|---:|---:|---:|");
        for (program, time) in programs.iter().zip(times) {
            let (per_second, a, b) = (1e9 / time, time / times[1], time / times[2]);
            println!("| {} | {time:.0} | {per_second:.0} | {a:.2} | {b:.2} |", program.name);
        }
        println!();
        println!(
            "{} lines of {} bytes, {} refused and {} finished; all four wrote the same {} bytes; medians of {ROUNDS} rounds",
            schedule.lines,
            schedule.text.len(),
            schedule.refused,
            schedule.finished,
            expected.len()
        );
        Ok(())
    }
}
