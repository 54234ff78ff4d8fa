//! The words after a program's name.
use std::env::{args, Args};
use std::iter::Skip;
use std::process::exit;

/// The program for schedules, if no other is named.
pub const RACK: &str = "crates/rack/out/rack";

/// The program for records of shifts, if no other is named.
pub const AUDIT: &str = "crates/audit/out/audit";

/// Names, some of them with a word after them. Any other use ends the program with status 2.
pub struct Arguments {
    program: &'static str,
    known: &'static [&'static str],
    words: Skip<Args>,
    name: String,
}

impl Arguments {
    /// The arguments of this program, which knows these names.
    pub fn new(program: &'static str, known: &'static [&'static str]) -> Arguments {
        let (words, name) = (args().skip(1), String::new());
        Arguments {
            program,
            known,
            words,
            name,
        }
    }

    /// The next name.
    pub fn next_name(&mut self) -> Option<&'static str> {
        self.name = self.words.next()?;
        let found = self.known.iter().find(|known| **known == self.name);
        Some(found.unwrap_or_else(|| self.stop(&format!("is none of {}", self.known.join(", ")))))
    }

    /// The word after the name.
    pub fn word(&mut self) -> String {
        self.words.next().unwrap_or_else(|| self.stop("needs a word after it"))
    }

    /// The number after the name, up to the most that it may be.
    pub fn number(&mut self, most: u64) -> u64 {
        let number = self.word().parse().ok().filter(|number| *number <= most);
        number.unwrap_or_else(|| self.stop(&format!("needs a number from 0 to {most} after it")))
    }

    fn stop(&self, why: &str) -> ! {
        eprintln!("{}: {} {why}", self.program, self.name);
        exit(2)
    }
}
