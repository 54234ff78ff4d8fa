//! What an input of the program audit comes to (Papers 10 and 13), written from the papers alone, from the bytes of the whole
//! input; but what is told first of an input that is no record is as crates/rows/specs/Audit.antt says it. Nothing here is
//! shared with the program. The lines and their fields are those of schedule.rs, the check is that of shift.rs.
use crate::model::{Kind, MAX_LIFE};
use crate::schedule::{self, fields, number};
use crate::shift::{self, Fault, Record, Rule, MAX_RECORDS};

/// An input of so many bytes is too long, and of a longer one no more are looked at.
pub const TOO_LONG: usize = 65_536;

/// How many fields a row has.
pub const FIELDS: usize = 8;

/// Why a line is no row: how many fields it has; which of them, from 1, is no number of 32 bits; its kind; its life.
#[derive(Clone, Copy)]
pub enum BadRow {
    Fields(usize),
    NotANumber(usize),
    Kind,
    Life,
}

/// Why a record is not sound.
#[derive(Clone, Copy)]
pub enum Unsound {
    End,
    WriteOfNoTs,
    Tag,
}

/// A row and the number of its line, from 1.
#[derive(Clone, Copy)]
pub struct Numbered {
    pub number: usize,
    pub row: Record,
}

/// The other row, and how one at fault breaks a rule with it: by the first it shares its tag; by the second it read another value,
/// or no row wrote what it read; by the third it ended before the other one began, or began after that one had ended.
#[derive(Clone, Copy)]
pub enum Against {
    SameTag(Numbered),
    OtherValue(Numbered),
    NoWrite,
    EndedFirst(Numbered),
    BeganLater(Numbered),
}

/// What an input comes to.
#[derive(Clone, Copy)]
pub enum Report {
    InOrder { reads: usize, writes: usize },
    AtFault(Numbered, Against),
    NotARow(usize, BadRow),
    TooMany,
    NotSound(Numbered, Unsound),
    TooLong,
}

/// The lines of an input, their ends left off.
pub type Lines = fn(&[u8]) -> Vec<&[u8]>;

/// A line as a row, or why it is none.
pub type AsRow = fn(&[u8]) -> Result<Record, BadRow>;

pub fn lines(input: &[u8]) -> Vec<&[u8]> {
    schedule::lines(input).map(|line| line.text).collect()
}

/// The newer edition: eight fields, each a number; then 'kind at most 1', then 'life at most 1,000'.
pub fn row(line: &[u8]) -> Result<Record, BadRow> {
    let fields: Vec<&[u8]> = fields(line).collect();
    let Ok(fields) = <[&[u8]; FIELDS]>::try_from(fields.as_slice()) else {
        return Err(BadRow::Fields(fields.len()));
    };
    let mut numbers = [0; FIELDS];
    for (i, field) in fields.iter().enumerate() {
        numbers[i] = number(field).ok_or(BadRow::NotANumber(i + 1))?;
    }
    record(numbers)
}

fn record([console, kind, begin, end, ts, tag_console, life, value]: [u32; FIELDS]) -> Result<Record, BadRow> {
    let kind = match kind {
        0 => Kind::Read,
        1 => Kind::Write,
        _ => return Err(BadRow::Kind),
    };
    if u64::from(life) > MAX_LIFE {
        return Err(BadRow::Life);
    }
    Ok(Record {
        console,
        kind,
        begin,
        end,
        tag: (ts.into(), tag_console.into(), life.into()),
        value,
    })
}

/// The numbers of a row, in their order.
pub fn numbers(x: &Record) -> [u64; FIELDS] {
    let (ts, tag_console, life) = x.tag;
    let kind = u64::from(x.is_write());
    [
        x.console.into(),
        kind,
        x.begin.into(),
        x.end.into(),
        ts,
        tag_console,
        life,
        x.value.into(),
    ]
}

pub fn report(input: &[u8], lines: Lines, row: AsRow) -> Report {
    if input.len() >= TOO_LONG {
        too_long(input)
    } else {
        read(&lines(input), row)
    }
}

/// If more than 256 lines end in its start, it is told that there are too many of them.
fn too_long(input: &[u8]) -> Report {
    let ends = input[..TOO_LONG].iter().filter(|byte| **byte == b'\n').count();
    if ends > MAX_RECORDS {
        Report::TooMany
    } else {
        Report::TooLong
    }
}

/// Rows are read one after the other: the first line that is none ends it, and so does a 257th one. Then all are checked.
pub fn read(lines: &[&[u8]], row: AsRow) -> Report {
    let mut rows = Vec::new();
    for (number, line) in (1..).zip(lines) {
        if number > MAX_RECORDS {
            return Report::TooMany;
        }
        match row(line) {
            Ok(row) => rows.push(row),
            Err(why) => return Report::NotARow(number, why),
        }
    }
    checked(&rows)
}

pub fn checked(rows: &[Record]) -> Report {
    match shift::check(rows) {
        Ok(None) => {
            let writes = rows.iter().filter(|row| row.is_write()).count();
            let reads = rows.len() - writes;
            Report::InOrder { reads, writes }
        }
        Ok(Some(fault)) => at_fault(rows, fault),
        Err(_) => not_sound(rows),
    }
}

fn numbered(rows: &[Record], place: usize) -> Numbered {
    Numbered {
        number: place + 1,
        row: rows[place],
    }
}

fn at_fault(rows: &[Record], fault: Fault) -> Report {
    let this = numbered(rows, fault.record);
    let other = fault.other.map(|place| numbered(rows, place));
    let against = match (fault.rule, other) {
        (Rule::SharedTag, Some(other)) => Against::SameTag(other),
        (Rule::NoSuchWrite, Some(other)) => Against::OtherValue(other),
        (Rule::NoSuchWrite, None) => Against::NoWrite,
        (Rule::TagTooLow, Some(other)) if this.row.ends_before(&other.row) => Against::EndedFirst(other),
        (Rule::TagTooLow, Some(other)) => Against::BeganLater(other),
        (_, None) => unreachable!("two records break a pair rule"),
    };
    Report::AtFault(this, against)
}

/// The first that is not sound. If its end is, and it is no write with ts 0, then its tag is not.
fn not_sound(rows: &[Record]) -> Report {
    let place = rows.iter().position(|row| !row.is_sound()).expect("one is not sound");
    let this = numbered(rows, place);
    let why = if this.row.end != 0 && this.row.end <= this.row.begin {
        Unsound::End
    } else if this.row.is_write() && this.row.tag.0 == 0 {
        Unsound::WriteOfNoTs
    } else {
        Unsound::Tag
    };
    Report::NotSound(this, why)
}
