//! The check of records of shifts beside the model: of those of real runs, which must be in order, of the same damaged, of those
//! drawn from small numbers, and of those with numbers at the edges.
use crate::beside::{differ, Agreed};
use crate::faults::Faulty;
use crate::model::{Kind, Release, RELEASES};
use crate::record_lists::{at_edges, damage, in_order, shuffle, small, three};
use crate::recorded;
use crate::seen::{sizes, Shows};
use crate::shift::{Fault, Record, Rule, Said, MAX_RECORDS};
use common::Chance;
use hatukeno::{check_shift, Refusal};

/// Of each run's record so many are damaged, and of each drawn list in order.
const DAMAGED: u32 = 16;
/// So many lists in order are drawn, and so many of small numbers.
const IN_ORDER: u32 = 150;
const SMALL: u32 = 20_000;
/// A first fault is late from this place on.
const LATE: usize = 200;

/// What was seen of the lists.
#[derive(Default)]
pub struct Shifts {
    /// Runs, the operations in their records, and the writes among these that were lost.
    runs: u64,
    operations: u64,
    lost: u64,
    in_order: u64,
    /// At fault by the first rule, by the second, where a write has the read's tag and where none has, and by the third; and those
    /// of each that are late.
    shared: u64,
    other_value: u64,
    unwritten: u64,
    too_low: u64,
    late: [u64; 3],
    /// Refused with 17 and with 18.
    too_many: u64,
    unsound: u64,
}

fn in_library(x: &Record) -> hatukeno::Record {
    let number = |part: u64| u32::try_from(part).expect("each number has 32 bits");
    let (ts, console, life) = x.tag;
    hatukeno::Record {
        console: x.console,
        kind: match x.kind {
            Kind::Read => hatukeno::Kind::Read,
            Kind::Write => hatukeno::Kind::Write,
        },
        begin: x.begin,
        end: x.end,
        tag: hatukeno::Tag {
            ts: number(ts),
            console: number(console),
            life: number(life),
        },
        value: x.value,
    }
}

fn told(fault: Fault) -> hatukeno::Fault {
    hatukeno::Fault {
        record: fault.record,
        rule: match fault.rule {
            Rule::SharedTag => hatukeno::Rule::SharedTag,
            Rule::NoSuchWrite => hatukeno::Rule::NoSuchWrite,
            Rule::TagTooLow => hatukeno::Rule::TagTooLow,
        },
        other: fault.other,
    }
}

/// Stops at a list of which this is to be told, which is printed whole.
fn stop(what: &str, records: &[Record], said: &[String]) -> Agreed {
    let whole = (0..).zip(records).map(|(i, x): (usize, &Record)| format!("{i}: {x:?}"));
    let lines: Vec<String> = [what.to_string()].into_iter().chain(whole).chain(said.iter().cloned()).collect();
    differ(&lines)
}

/// Puts the list to both, and gives what they say.
fn both(records: &[Record], faulty: Faulty) -> Agreed<Said> {
    let list: Vec<hatukeno::Record> = records.iter().map(in_library).collect();
    let (library, model) = (check_shift(&list), faulty.check(records));
    if library != model.map(|fault| fault.map(told)).map_err(Refusal) {
        let said = [format!("the library said {library:?}"), format!("the model said {model:?}")];
        stop("a difference at the check of these records", records, &said)?;
    }
    Ok(model)
}

impl Shifts {
    fn put(&mut self, records: &[Record], faulty: Faulty) -> Agreed {
        self.add(both(records, faulty)?);
        Ok(())
    }

    fn add(&mut self, said: Said) {
        match said {
            Ok(None) => self.in_order += 1,
            Ok(Some(Fault { record, rule, other })) => {
                match (rule, other) {
                    (Rule::SharedTag, _) => self.shared += 1,
                    (Rule::NoSuchWrite, Some(_)) => self.other_value += 1,
                    (Rule::NoSuchWrite, None) => self.unwritten += 1,
                    (Rule::TagTooLow, _) => self.too_low += 1,
                }
                self.late[rule as usize] += u64::from(record >= LATE);
            }
            Err(17) => self.too_many += 1,
            Err(_) => self.unsound += 1,
        }
    }

    /// The list, which must be in order, as it is and in another order.
    fn put_in_order(&mut self, mut records: Vec<Record>, chance: &mut Chance, faulty: Faulty) -> Agreed<Vec<Record>> {
        for _ in 0..2 {
            let said = both(&records, faulty)?;
            self.add(said);
            if said != Ok(None) {
                stop("these records are not in order", &records, &[format!("both said {said:?}")])?;
            }
            shuffle(&mut records, chance);
        }
        Ok(records)
    }

    /// The record of a run, and the same damaged.
    fn run(&mut self, n: u32, m: u32, release: Release, crashes: bool, chance: &mut Chance, faulty: Faulty) -> Agreed {
        let operations = recorded::run(n, m, release, crashes, chance);
        let records: Vec<Record> = operations.iter().filter_map(|x| faulty.listed(x)).collect();
        self.runs += 1;
        self.operations += records.len() as u64;
        self.lost += operations.iter().filter(|x| x.is_listed && x.lost_at.is_some()).count() as u64;
        let shuffled = self.put_in_order(records.clone(), chance, faulty)?;
        self.put_damaged(&records, chance, faulty)?;
        self.put_damaged(&shuffled, chance, faulty)
    }

    fn put_damaged(&mut self, records: &[Record], chance: &mut Chance, faulty: Faulty) -> Agreed {
        for _ in 0..DAMAGED {
            let mut damaged = records.to_vec();
            damage(&mut damaged, chance);
            while chance.one_in(4) {
                damage(&mut damaged, chance);
            }
            self.put(&damaged, faulty)?;
        }
        Ok(())
    }

    /// A drawn list, which is in order, and the same damaged, and with more records than are allowed.
    fn drawn(&mut self, length: usize, chance: &mut Chance, faulty: Faulty) -> Agreed {
        let records = in_order(length, chance);
        if length > MAX_RECORDS {
            self.put(&records, faulty)?;
            return self.put_damaged(&records, chance, faulty);
        }
        let shuffled = self.put_in_order(records.clone(), chance, faulty)?;
        self.put_damaged(&records, chance, faulty)?;
        self.put_damaged(&shuffled, chance, faulty)
    }

    /// Each of three records with one field and with two at an edge, before the others and after them.
    fn edges(&mut self, faulty: Faulty) -> Agreed {
        let [write, read, initial] = three();
        for x in [write, read, initial] {
            for changed in at_edges(x).into_iter().flat_map(at_edges) {
                self.put(&[changed], faulty)?;
                self.put(&[changed, write, read], faulty)?;
                self.put(&[initial, write, changed], faulty)?;
            }
        }
        Ok(())
    }
}

impl Shows for Shifts {
    fn print(&self, seed: u64) {
        let Shifts {
            runs, operations, lost, ..
        } = self;
        println!("seed {seed}: the records of {runs} runs are in order, {operations} operations, {lost} of them lost writes");
        println!(
            "and of lists of records {} are in order, {}, {} and {} at fault by each rule\n  {} are refused with 17, {} with 18",
            self.in_order,
            self.shared,
            self.other_value + self.unwritten,
            self.too_low,
            self.too_many,
            self.unsound
        );
        let [one, two, three] = self.late;
        println!(
            "  {} reads have another value than the write of their tag, {} a tag that none wrote\n  the first fault is late in {one}, {two} and {three}",
            self.other_value, self.unwritten
        );
    }

    fn hold(&self) -> Agreed {
        let runs = [self.operations, self.lost, self.in_order];
        let faults = [self.shared, self.other_value, self.unwritten, self.too_low];
        let refused = [self.too_many, self.unsound];
        if [&runs[..], &faults, &self.late, &refused].concat().contains(&0) {
            return differ(&["the lists do not show records of shifts in every way that is to be compared".to_string()]);
        }
        Ok(())
    }
}

/// All lists.
pub fn compare(seed: u64, faulty: Faulty) -> Agreed<Shifts> {
    let (mut seen, mut chance) = (Shifts::default(), Chance(seed));
    seen.edges(faulty)?;
    for i in 0..IN_ORDER {
        let length = match i % 4 {
            0 => chance.below(301),
            near => 254 + near,
        };
        seen.drawn(length as usize, &mut chance, faulty)?;
    }
    for i in 0..SMALL {
        let length = match i % 64 {
            0 => chance.below(301),
            1 => 255 + chance.below(3),
            _ => chance.below(12),
        };
        seen.put(&small(length as usize, &mut chance), faulty)?;
    }
    for (n, m) in sizes() {
        for release in RELEASES {
            for crashes in [false, true] {
                seen.run(n, m, release, crashes, &mut chance, faulty)?;
            }
        }
    }
    Ok(seen)
}
