//! Puts records of shifts as rows to the program audit and to the model, and stops at the first difference.
use crate::audit::{Against, BadRow, Report, Unsound, FIELDS, TOO_LONG};
use crate::audit_words::Said;
use crate::beside::{differ, Agreed};
use crate::faults::Faulty;
use crate::model::RELEASES;
use crate::odd::one_of;
use crate::processes::{left, run, shown};
use crate::record_lists::{damage, shuffle};
use crate::recorded;
use crate::row_edges::edges;
use crate::row_inputs::{damaged, drawn, written};
use crate::schedule::lines;
use crate::seen::{sizes, Shows};
use common::Chance;
use std::collections::BTreeMap;
use std::fmt::Display;
use std::path::Path;
use std::process::Output;

/// Of an input with more lines so many are printed.
const SHOWN: usize = 300;
/// So many inputs are drawn, besides those at the edges and those of runs.
const DRAWN: u32 = 1000;

/// What inputs come to, all of which must be seen.
const KINDS: [(&str, &[&str]); 3] = [
    (
        "are in order, or a row is at fault",
        &[
            "in order",
            "rule 1",
            "rule 2 by another value",
            "rule 2 by no write",
            "rule 3 for it ended first",
            "rule 3 for it began later",
        ],
    ),
    (
        "have a line that is no row",
        &[
            "too few fields",
            "too many fields",
            "field 1",
            "field 2",
            "field 3",
            "field 4",
            "field 5",
            "field 6",
            "field 7",
            "field 8",
            "kind",
            "life",
        ],
    ),
    (
        "cannot be checked",
        &["17", "17 by its start", "18 by its end", "18 by ts 0", "18 by its tag", "too long"],
    ),
];

fn kind(input: &[u8], report: &Report) -> String {
    let kind = match report {
        Report::InOrder { .. } => "in order",
        Report::AtFault(_, Against::SameTag(_)) => "rule 1",
        Report::AtFault(_, Against::OtherValue(_)) => "rule 2 by another value",
        Report::AtFault(_, Against::NoWrite) => "rule 2 by no write",
        Report::AtFault(_, Against::EndedFirst(_)) => "rule 3 for it ended first",
        Report::AtFault(_, Against::BeganLater(_)) => "rule 3 for it began later",
        Report::NotARow(_, BadRow::Fields(count)) if *count < FIELDS => "too few fields",
        Report::NotARow(_, BadRow::Fields(_)) => "too many fields",
        Report::NotARow(_, BadRow::NotANumber(field)) => return format!("field {field}"),
        Report::NotARow(_, BadRow::Kind) => "kind",
        Report::NotARow(_, BadRow::Life) => "life",
        Report::TooMany if input.len() < TOO_LONG => "17",
        Report::TooMany => "17 by its start",
        Report::NotSound(_, Unsound::End) => "18 by its end",
        Report::NotSound(_, Unsound::WriteOfNoTs) => "18 by ts 0",
        Report::NotSound(_, Unsound::Tag) => "18 by its tag",
        Report::TooLong => "too long",
    };
    kind.to_string()
}

/// How many inputs came to what.
#[derive(Default)]
pub struct Audits {
    counts: BTreeMap<String, u64>,
}

impl Audits {
    fn count(&self, kind: &str) -> u64 {
        self.counts.get(kind).copied().unwrap_or(0)
    }
}

impl Shows for Audits {
    fn print(&self, seed: u64) {
        let inputs: u64 = self.counts.values().sum();
        println!("seed {seed}: {inputs} records as rows agree, each put to a process of its own");
        for (what, kinds) in KINDS {
            let each: Vec<String> = kinds.iter().map(|kind| format!("{kind}: {}", self.count(kind))).collect();
            println!("some {what}");
            for some in each.chunks(4) {
                println!("  {}", some.join(", "));
            }
        }
    }

    fn hold(&self) -> Agreed {
        let mut kinds = KINDS.iter().flat_map(|(_, kinds)| *kinds);
        match kinds.find(|kind| self.count(kind) == 0) {
            Some(kind) => differ(&[format!("the records as rows do not show '{kind}'")]),
            None => Ok(()),
        }
    }
}

/// What inputs are put to, and what they came to so far.
struct Compared<'a> {
    audit: &'a Path,
    seed: u64,
    faulty: Faulty,
    chance: Chance,
    audits: Audits,
}

/// The edges, then the records of runs, then by chance.
pub fn compare(audit: &Path, seed: u64, faulty: Faulty) -> Agreed<Audits> {
    let mut compared = Compared {
        audit,
        seed,
        faulty,
        chance: Chance(seed),
        audits: Audits::default(),
    };
    for input in edges() {
        compared.put(&input)?;
    }
    for (n, m) in sizes() {
        compared.run(n, m)?;
    }
    for _ in 0..DRAWN {
        let input = drawn(&mut compared.chance);
        compared.put(&input)?;
    }
    Ok(compared.audits)
}

impl Compared<'_> {
    /// The record of a run, in two orders, and the same damaged.
    fn run(&mut self, n: u32, m: u32) -> Agreed {
        let (release, crashes) = (one_of(&RELEASES, &mut self.chance), self.chance.one_in(2));
        let operations = recorded::run(n, m, release, crashes, &mut self.chance);
        let mut records: Vec<_> = operations.iter().filter_map(|operation| operation.listed()).collect();
        for _ in 0..2 {
            for write in [written, damaged] {
                let input = write(&records, &mut self.chance);
                self.put(&input)?;
            }
            shuffle(&mut records, &mut self.chance);
        }
        damage(&mut records, &mut self.chance);
        let input = written(&records, &mut self.chance);
        self.put(&input)
    }

    fn put(&mut self, input: &[u8]) -> Agreed {
        let report = self.faulty.report(input);
        let said = self.faulty.said(&report);
        let ended = run(self.audit, input, &mut self.chance);
        let is_same = ended.stdout == said.output.as_bytes() && ended.stderr == said.error.as_bytes();
        if !is_same || ended.status.code() != Some(said.status) {
            return differ(&difference(input, &ended, &said, self.seed));
        }
        *self.audits.counts.entry(kind(input, &report)).or_default() += 1;
        Ok(())
    }
}

fn side(who: &str, output: &[u8], error: &[u8], status: impl Display) -> String {
    let [output, error] = [output, error].map(<[u8]>::escape_ascii);
    format!("the {who} wrote '{output}', on standard error '{error}', and ended with {status}")
}

/// All that both print, and the lines. The input is left in a file.
fn difference(input: &[u8], ended: &Output, said: &Said, seed: u64) -> Vec<String> {
    let head = [
        format!("seed {seed}: a difference at these rows, {} bytes", input.len()),
        side("program", &ended.stdout, &ended.stderr, ended.status),
        side("model", said.output.as_bytes(), said.error.as_bytes(), said.status),
    ];
    let each = (1..).zip(lines(input).take(SHOWN));
    let rows = each.map(|(number, line): (usize, _)| format!("{number}: {}, its end {}", shown(line.text), shown(line.end)));
    head.into_iter().chain(rows).chain([left("record", input)]).collect()
}
