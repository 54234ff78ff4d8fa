//! The check of a shift's record (Paper 10), written from the paper alone, the three rules one after the other. Which other
//! record one at fault is against is as bindings/rust/src/shift.rs says it.
use crate::model::{is_tag_good, Kind, Tag, ZERO};
use std::collections::{BTreeMap, BTreeSet};

/// An operation: its places, of which the end is 0 while it is unfinished, and its tag and value.
#[derive(Clone, Copy, Debug, PartialEq, Eq)]
pub struct Record {
    pub kind: Kind,
    pub tag: Tag,
    pub value: u32,
    pub begin: u32,
    pub end: u32,
    pub console: u32,
}

/// The rules, in the order just given.
#[derive(Clone, Copy, Debug, PartialEq, Eq, PartialOrd, Ord)]
pub enum Rule {
    SharedTag,
    NoSuchWrite,
    TagTooLow,
}

#[derive(Clone, Copy, Debug, PartialEq, Eq)]
pub struct Fault {
    pub record: usize,
    pub rule: Rule,
    pub other: Option<usize>,
}

/// What the check answers: a fault, none if the list is in order, or the refusal.
pub type Said = Result<Option<Fault>, u32>;

/// The places of the records that break a rule, each with that of the other record, if there is one.
pub type Broken = BTreeMap<usize, Option<usize>>;

/// The same of all rules.
pub type Found = BTreeMap<(usize, Rule), Option<usize>>;

pub const MAX_RECORDS: usize = 256;

impl Record {
    pub fn is_write(&self) -> bool {
        self.kind == Kind::Write
    }

    /// Not one whose end is not 0 and not after its begin, or whose tag, value aside, is not well formed for 8 consoles, or a
    /// write with ts 0.
    pub fn is_sound(&self) -> bool {
        let (ts, ..) = self.tag;
        let is_place_good = self.end == 0 || self.end > self.begin;
        is_place_good && is_tag_good(8, self.tag, 0) && !(self.is_write() && ts == 0)
    }

    /// An end of 0 is before nothing.
    pub fn ends_before(&self, later: &Record) -> bool {
        self.end != 0 && self.end < later.begin
    }

    /// After the other one this has no lower tag, and a higher one if it wrote.
    pub fn may_follow(&self, earlier: &Record) -> bool {
        self.tag > earlier.tag || self.kind == Kind::Read && self.tag == earlier.tag
    }

    /// Of tag zero with value 0.
    pub fn is_initial(&self) -> bool {
        (self.tag, self.value) == (ZERO, 0)
    }
}

/// A record with its place in the list.
pub type Placed<'a> = (usize, &'a Record);

pub fn placed(records: &[Record]) -> impl DoubleEndedIterator<Item = Placed<'_>> {
    records.iter().enumerate()
}

fn writes(records: &[Record]) -> impl DoubleEndedIterator<Item = Placed<'_>> {
    placed(records).filter(|(_, x)| x.is_write())
}

/// The place of the first write of each tag.
fn first_writes(records: &[Record]) -> BTreeMap<Tag, usize> {
    writes(records).rev().map(|(i, x)| (x.tag, i)).collect()
}

/// Each read of which this is so, with the first write of its tag.
pub fn reads(records: &[Record], is_broken: impl Fn(Placed) -> bool) -> Broken {
    let first = first_writes(records);
    let broken = placed(records).filter(|(i, x)| !x.is_write() && is_broken((*i, x)));
    broken.map(|(i, x)| (i, first.get(&x.tag).copied())).collect()
}

/// Of any two of which this is so, whichever way round, the one that stands later in the list, with the first that does before.
pub fn pairs(records: &[Record], is_broken: impl Fn(Placed, Placed) -> bool) -> Broken {
    let mut broken = Broken::new();
    for (i, x) in placed(records) {
        for (j, y) in placed(records) {
            if i != j && is_broken((i, x), (j, y)) {
                let before = Some(i.min(j));
                let first = broken.entry(i.max(j)).or_insert(before);
                *first = (*first).min(before);
            }
        }
    }
    broken
}

/// No two writes share a tag.
fn shared(records: &[Record]) -> Broken {
    let first = first_writes(records);
    let with_first = writes(records).map(|(i, x)| (i, first[&x.tag]));
    with_first.filter(|(i, j)| i != j).map(|(i, j)| (i, Some(j))).collect()
}

/// Each read's tag and value are those of a listed write, or tag zero with value 0.
fn unwritten(records: &[Record]) -> Broken {
    let written: BTreeSet<(Tag, u32)> = writes(records).map(|(_, x)| (x.tag, x.value)).collect();
    reads(records, |(_, x)| !x.is_initial() && !written.contains(&(x.tag, x.value)))
}

/// Whenever one operation's end comes before another's begin, the later has no lower tag, and a higher one if it wrote.
fn too_low(records: &[Record]) -> Broken {
    pairs(records, |(_, x), (_, y)| x.ends_before(y) && !y.may_follow(x))
}

/// All that break a rule.
pub fn found(records: &[Record]) -> Found {
    let rules = [
        (Rule::SharedTag, shared(records)),
        (Rule::NoSuchWrite, unwritten(records)),
        (Rule::TagTooLow, too_low(records)),
    ];
    let of_rule = |(rule, broken): (Rule, Broken)| broken.into_iter().map(move |(i, other)| ((i, rule), other));
    rules.into_iter().flat_map(of_rule).collect()
}

/// The earliest record at fault, and the first rule that puts it at fault.
pub fn earliest(found: &Found) -> Option<Fault> {
    let ((record, rule), other) = found.first_key_value()?;
    Some(Fault {
        record: *record,
        rule: *rule,
        other: *other,
    })
}

/// More than 256 records are refused with 17, then one that is not sound with 18.
pub fn refused(records: &[Record]) -> Result<(), u32> {
    if records.len() > MAX_RECORDS {
        Err(17)
    } else if !records.iter().all(Record::is_sound) {
        Err(18)
    } else {
        Ok(())
    }
}

pub fn check(records: &[Record]) -> Said {
    refused(records)?;
    Ok(earliest(&found(records)))
}
