//! Faults of Papers 10 and 13 in what an input comes to, and in what the program audit prints of it where.
use crate::audit::{lines, read, row, Against, Numbered, Report, Unsound, TOO_LONG};
use crate::audit_words::Said;
use crate::shift::MAX_RECORDS;
use std::mem::swap;

/// The other row, if there is one.
fn other_of(against: Against) -> Option<Numbered> {
    match against {
        Against::SameTag(x) | Against::OtherValue(x) | Against::EndedFirst(x) | Against::BeganLater(x) => Some(x),
        Against::NoWrite => None,
    }
}

/// The same against another row.
fn with_other(against: Against, other: impl Fn(Numbered) -> Numbered) -> Against {
    match against {
        Against::SameTag(x) => Against::SameTag(other(x)),
        Against::OtherValue(x) => Against::OtherValue(other(x)),
        Against::NoWrite => Against::NoWrite,
        Against::EndedFirst(x) => Against::EndedFirst(other(x)),
        Against::BeganLater(x) => Against::BeganLater(other(x)),
    }
}

/// Rows and lines are numbered from 0.
pub fn rows_from_0(_: &[u8], report: Report) -> Report {
    let before = |x: Numbered| Numbered { number: x.number - 1, ..x };
    match report {
        Report::AtFault(this, against) => Report::AtFault(before(this), with_other(against, before)),
        Report::NotARow(number, why) => Report::NotARow(number - 1, why),
        Report::NotSound(this, why) => Report::NotSound(before(this), why),
        _ => report,
    }
}

/// Reads are counted for writes.
pub fn reads_and_writes_crossed(_: &[u8], mut report: Report) -> Report {
    if let Report::InOrder { reads, writes } = &mut report {
        swap(reads, writes);
    }
    report
}

/// The other row is said to be at fault.
pub fn rows_crossed(_: &[u8], report: Report) -> Report {
    match report {
        Report::AtFault(this, against) => match other_of(against) {
            Some(other) => Report::AtFault(other, with_other(against, |_| this)),
            None => report,
        },
        _ => report,
    }
}

/// A read of another value than the write of its tag is said to be of a tag that none wrote.
pub fn other_row_left_out(_: &[u8], report: Report) -> Report {
    match report {
        Report::AtFault(this, Against::OtherValue(_)) => Report::AtFault(this, Against::NoWrite),
        _ => report,
    }
}

/// Of two that break the third rule the one is taken for the other.
pub fn ended_first_crossed(_: &[u8], report: Report) -> Report {
    match report {
        Report::AtFault(this, Against::EndedFirst(other)) => Report::AtFault(this, Against::BeganLater(other)),
        Report::AtFault(this, Against::BeganLater(other)) => Report::AtFault(this, Against::EndedFirst(other)),
        _ => report,
    }
}

/// 256 rows are too many.
pub fn refuses_256_rows(input: &[u8], report: Report) -> Report {
    match report {
        Report::InOrder { .. } | Report::AtFault(..) | Report::NotSound(..) if lines(input).len() == MAX_RECORDS => Report::TooMany,
        _ => report,
    }
}

/// A line that is no row is told before there are too many, wherever it stands.
pub fn no_row_before_many(input: &[u8], report: Report) -> Report {
    let bad = |(number, line): (usize, &[u8])| Some(Report::NotARow(number, row(line).err()?));
    match report {
        Report::TooMany if input.len() < TOO_LONG => (1..).zip(lines(input)).find_map(bad).unwrap_or(report),
        _ => report,
    }
}

/// That there are too many is told before a line that is no row.
pub fn many_before_no_row(input: &[u8], report: Report) -> Report {
    match report {
        Report::NotARow(..) if lines(input).len() > MAX_RECORDS => Report::TooMany,
        _ => report,
    }
}

/// Each row is looked at as it is read, and one that is not sound is told before a later line that is none.
pub fn unsound_before_no_row(input: &[u8], report: Report) -> Report {
    match report {
        Report::NotARow(number, _) => match read(&lines(input)[..number - 1], row) {
            unsound @ Report::NotSound(..) => unsound,
            _ => report,
        },
        _ => report,
    }
}

/// A write with ts 0 is told before its end is looked at.
pub fn ts_0_before_end(_: &[u8], report: Report) -> Report {
    match report {
        Report::NotSound(this, Unsound::End) if this.row.is_write() && this.row.tag.0 == 0 => Report::NotSound(this, Unsound::WriteOfNoTs),
        _ => report,
    }
}

/// 65535 bytes are too many.
pub fn too_long_at_65535(input: &[u8], report: Report) -> Report {
    if input.len() == TOO_LONG - 1 {
        Report::TooLong
    } else {
        report
    }
}

/// 65536 are not.
pub fn allows_65536(input: &[u8], report: Report) -> Report {
    if input.len() == TOO_LONG {
        read(&lines(input), row)
    } else {
        report
    }
}

/// An input that is too long is told to be that, however many rows it has.
pub fn too_long_before_many(input: &[u8], report: Report) -> Report {
    match report {
        Report::TooMany if input.len() >= TOO_LONG => Report::TooLong,
        _ => report,
    }
}

/// All ends of lines are counted of an input that is too long.
pub fn many_by_the_rest(input: &[u8], report: Report) -> Report {
    match report {
        Report::TooLong if lines(input).len() > MAX_RECORDS => Report::TooMany,
        _ => report,
    }
}

/// The status is 1 whenever the rows are not in order.
pub fn status_1_not_checkable(said: &mut Said) {
    said.status = said.status.min(1);
}

/// What is at fault is said on standard error.
pub fn fault_on_error(said: &mut Said) {
    if said.status == 1 {
        swap(&mut said.output, &mut said.error);
    }
}

/// What cannot be checked is said on standard output.
pub fn not_checkable_on_output(said: &mut Said) {
    if said.status == 2 {
        swap(&mut said.output, &mut said.error);
    }
}
