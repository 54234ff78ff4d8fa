//! The check of a shift's record: the operations that consoles made, and whether they fit one register.
use crate::{Refusal, Tag};
use std::error::Error;
use std::fmt::{self, Display, Formatter};

/// Whether an operation read or wrote.
#[derive(Clone, Copy, Debug, PartialEq, Eq, Hash)]
#[repr(u32)]
pub enum Kind {
    Read = 0,
    Write = 1,
}

/// An operation of a shift, as the library takes it. Places are numbers that grow with time, such as those of the steps of a
/// run, from 1; `end` is 0 while the operation is unfinished.
#[derive(Clone, Copy, Debug, PartialEq, Eq, Hash)]
#[repr(C)]
pub struct Record {
    pub console: u32,
    pub kind: Kind,
    pub begin: u32,
    pub end: u32,
    pub tag: Tag,
    pub value: u32,
}

/// The rules, in the order in which they are put to a record.
#[derive(Clone, Copy, Debug, PartialEq, Eq, Hash)]
pub enum Rule {
    /// No two writes share a tag.
    SharedTag,
    /// Each read's tag and value are those of a listed write, or tag zero with value 0.
    NoSuchWrite,
    /// Whenever one operation's end comes before another's begin, the later has no lower tag, and a higher one if it wrote.
    TagTooLow,
}

/// The earliest record at fault, by its place in the list, from 0, and the first rule that puts it at fault.
#[derive(Clone, Copy, Debug, PartialEq, Eq, Hash)]
pub struct Fault {
    pub record: usize,
    pub rule: Rule,
    /// The record that it is against: of `SharedTag` and `TagTooLow` the first before it in the list with which it breaks the rule,
    /// of `NoSuchWrite` the first write of its tag, which has another value; none if no record wrote its tag.
    pub other: Option<usize>,
}

impl Display for Fault {
    fn fmt(&self, f: &mut Formatter) -> fmt::Result {
        let record = self.record;
        match (self.rule, self.other) {
            (Rule::SharedTag, Some(other)) => write!(f, "records {other} and {record} are writes of one tag"),
            (Rule::NoSuchWrite, Some(other)) => write!(f, "record {record} read another value than record {other} wrote"),
            (Rule::NoSuchWrite, None) => write!(f, "record {record} read what no record wrote"),
            (Rule::TagTooLow, Some(other)) => write!(f, "of records {other} and {record} the later has too low a tag"),
            (rule, None) => write!(f, "record {record} is at fault by {rule:?}"),
        }
    }
}

impl Error for Fault {}

#[repr(C)]
struct Verdict {
    refusal: u32,
    rule: u32,
    record: usize,
    other: usize,
}

// A lent slice is a pointer and a length.
extern "C" {
    fn shift_check(records: *const Record, records_len: usize) -> Verdict;
}

/// Checks the records: `None` if they are in order, else the earliest that is at fault. It refuses more than 256 with 17, then a
/// record with 18 whose end is not 0 and not after its begin, whose tag is that of no board of 8 consoles, or that is a
/// write with a timestamp of 0.
pub fn check_shift(records: &[Record]) -> Result<Option<Fault>, Refusal> {
    let verdict = unsafe { shift_check(records.as_ptr(), records.len()) };
    let rule = match (verdict.refusal, verdict.rule) {
        (0, 0) => return Ok(None),
        (0, 1) => Rule::SharedTag,
        (0, 2) => Rule::NoSuchWrite,
        (0, 3) => Rule::TagTooLow,
        (0, rule) => unreachable!("{rule} is no rule"),
        (refusal, _) => return Err(Refusal(refusal)),
    };
    let other = (verdict.other != usize::MAX).then_some(verdict.other);
    Ok(Some(Fault { record: verdict.record, rule, other }))
}

#[cfg(test)]
mod tests {
    use super::*;

    fn record(kind: Kind, begin: u32, end: u32, ts: u32, value: u32) -> Record {
        let tag = Tag { ts, console: u32::from(ts > 0), life: 0 };
        Record { console: 1, kind, begin, end, tag, value }
    }

    fn write(begin: u32, end: u32, ts: u32, value: u32) -> Record {
        record(Kind::Write, begin, end, ts, value)
    }

    fn read(begin: u32, end: u32, ts: u32, value: u32) -> Record {
        record(Kind::Read, begin, end, ts, value)
    }

    fn fault(record: usize, rule: Rule, other: Option<usize>) -> Result<Option<Fault>, Refusal> {
        Ok(Some(Fault { record, rule, other }))
    }

    #[test]
    fn records_in_order() {
        assert_eq!(check_shift(&[]), Ok(None));
        assert_eq!(check_shift(&[read(1, 2, 0, 0), write(3, 9, 1, 7), write(10, 0, 2, 8), read(10, 18, 1, 7)]), Ok(None));
        assert_eq!(check_shift(&[read(1, 2, 0, 0); 256]), Ok(None));
    }

    #[test]
    fn each_rule_with_the_other_record() {
        assert_eq!(check_shift(&[write(1, 0, 1, 7), write(2, 0, 1, 8)]), fault(1, Rule::SharedTag, Some(0)));
        assert_eq!(check_shift(&[read(3, 4, 1, 8), write(1, 2, 1, 7)]), fault(0, Rule::NoSuchWrite, Some(1)));
        assert_eq!(check_shift(&[read(3, 4, 1, 7)]), fault(0, Rule::NoSuchWrite, None));
        assert_eq!(check_shift(&[write(1, 2, 1, 7), read(3, 4, 0, 0)]), fault(1, Rule::TagTooLow, Some(0)));
    }

    /// A fault is said with the places that it has.
    #[test]
    fn a_fault_in_words() {
        let said = |fault: Result<Option<Fault>, Refusal>| fault.unwrap().unwrap().to_string();
        assert_eq!(said(fault(1, Rule::SharedTag, Some(0))), "records 0 and 1 are writes of one tag");
        assert_eq!(said(fault(3, Rule::NoSuchWrite, None)), "record 3 read what no record wrote");
        assert_eq!(said(fault(0, Rule::NoSuchWrite, Some(2))), "record 0 read another value than record 2 wrote");
        assert_eq!(said(fault(9, Rule::TagTooLow, Some(4))), "of records 4 and 9 the later has too low a tag");
    }

    #[test]
    fn refusals() {
        assert_eq!(check_shift(&[write(5, 5, 0, 0); 257]), Err(Refusal(17)));
        let refused = |change: fn(&mut Record)| {
            let mut changed = write(1, 2, 1, 7);
            assert_eq!(check_shift(&[changed]), Ok(None));
            change(&mut changed);
            check_shift(&[write(1, 2, 2, 7), changed])
        };
        for change in [
            (|x| x.end = 1) as fn(&mut Record),
            |x| x.tag.ts = 4_000_000_001,
            |x| x.tag.console = 8,
            |x| x.tag.console = 65_536,
            |x| x.tag.life = 1_001,
            |x| x.tag.life = 65_536,
            |x| x.tag = Tag { ts: 0, console: 0, life: 0 },
            |x| (x.kind, x.tag.ts) = (Kind::Read, 0),
        ] {
            assert_eq!(refused(change), Err(Refusal(18)));
        }
        // the record's own console is not judged, and a begin of 0 is allowed
        assert_eq!(refused(|x| (x.console, x.begin) = (u32::MAX, 0)), Ok(None));
    }
}
