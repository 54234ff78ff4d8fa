//! The check of a shift's record in plain Rust, written to be fast: pair by pair, as the library does it, and by sorting.
use hatukeno::{Fault, Kind, Record, Refusal, Rule, Tag};

const MAX_RECORDS: usize = 256;
const MAX_TS: u32 = 4_000_000_000;
const MAX_LIFE: u32 = 1000;

/// What of a record the rules look at. Its tag is one number, and an operation without an end ends last of all.
#[derive(Clone, Copy)]
struct Operation {
    tag: u64,
    begin: u32,
    end: u32,
    is_write: bool,
    value: u32,
}

const NONE: Operation = Operation {
    tag: 0,
    begin: 0,
    end: 0,
    is_write: false,
    value: 0,
};

fn number(tag: Tag) -> u64 {
    (u64::from(tag.ts) << 32) | u64::from(tag.console << 16) | u64::from(tag.life)
}

fn is_sound(x: &Record) -> bool {
    let Tag { ts, console, life } = x.tag;
    let is_tag_good = if ts == 0 {
        console == 0 && life == 0 && x.kind == Kind::Read
    } else {
        ts <= MAX_TS && console < 8 && life <= MAX_LIFE
    };
    is_tag_good && (x.end == 0 || x.begin < x.end)
}

impl Operation {
    fn of(x: &Record) -> Operation {
        Operation {
            tag: number(x.tag),
            begin: x.begin,
            end: if x.end == 0 { u32::MAX } else { x.end },
            is_write: x.kind == Kind::Write,
            value: x.value,
        }
    }

    fn shares_tag(&self, x: &Operation) -> bool {
        self.tag == x.tag && x.is_write
    }

    fn is_out_of_order(&self, x: &Operation) -> bool {
        let (earlier, later) = if x.end < self.begin {
            (x, self)
        } else if self.end < x.begin {
            (self, x)
        } else {
            return false;
        };
        later.tag < earlier.tag || later.is_write && later.tag == earlier.tag
    }
}

/// The fault of the record in this place.
fn fault(all: &[Operation], place: usize) -> Option<(Rule, Option<usize>)> {
    let (y, before) = (&all[place], &all[..place]);
    if y.is_write {
        if let Some(other) = before.iter().position(|x| y.shares_tag(x)) {
            return Some((Rule::SharedTag, Some(other)));
        }
    } else if (y.tag != 0 || y.value != 0) && !all.iter().any(|x| y.shares_tag(x) && x.value == y.value) {
        return Some((Rule::NoSuchWrite, all.iter().position(|x| y.shares_tag(x))));
    }
    let other = before.iter().position(|x| y.is_out_of_order(x))?;
    Some((Rule::TagTooLow, Some(other)))
}

/// Whether no record is at fault, found by sorting: each write has its tag for itself, each read has its write, and as time goes
/// on no tag is too low for the highest that an operation has ended with.
fn is_in_order(all: &[Operation]) -> bool {
    let mut writes = [(0, 0); MAX_RECORDS];
    let mut count = 0;
    for x in all.iter().filter(|x| x.is_write) {
        writes[count] = (x.tag, x.value);
        count += 1;
    }
    let writes = &mut writes[..count];
    writes.sort_unstable();
    let has_source = |x: &Operation| x.is_write || x.tag == 0 && x.value == 0 || writes.binary_search(&(x.tag, x.value)).is_ok();
    writes.windows(2).all(|pair| pair[0].0 != pair[1].0) && all.iter().all(has_source) && is_in_time(all)
}

fn is_in_time(all: &[Operation]) -> bool {
    let (begins, ends) = (by_place(all, |x| x.begin), by_place(all, |x| x.end));
    let mut ends = ends[..all.len()].iter().peekable();
    // One more than the highest tag, or 0.
    let mut highest = 0;
    begins[..all.len()].iter().all(|(begin, i)| {
        while let Some((_, ended)) = ends.next_if(|(end, _)| end < begin) {
            highest = highest.max(all[usize::from(*ended)].tag + 1);
        }
        let y = &all[usize::from(*i)];
        y.tag + 1 >= highest + u64::from(y.is_write && highest > 0)
    })
}

/// The records by one of their places.
fn by_place(all: &[Operation], place: fn(&Operation) -> u32) -> [(u32, u8); MAX_RECORDS] {
    let mut sorted = [(u32::MAX, u8::MAX); MAX_RECORDS];
    for ((sorted, x), i) in sorted.iter_mut().zip(all).zip(0..=u8::MAX) {
        *sorted = (place(x), i);
    }
    sorted[..all.len()].sort_unstable();
    sorted
}

/// Record by record, each with those before it; if SORTED, only where sorting shows that there is a fault.
pub fn check<const SORTED: bool>(records: &[Record]) -> Result<Option<Fault>, Refusal> {
    if records.len() > MAX_RECORDS {
        return Err(Refusal(17));
    }
    let mut operations = [NONE; MAX_RECORDS];
    for (operation, record) in operations.iter_mut().zip(records) {
        if !is_sound(record) {
            return Err(Refusal(18));
        }
        *operation = Operation::of(record);
    }
    let all = &operations[..records.len()];
    if SORTED && is_in_order(all) {
        return Ok(None);
    }
    let found = (0..all.len()).find_map(|record| fault(all, record).map(|(rule, other)| Fault { record, rule, other }));
    Ok(found)
}
