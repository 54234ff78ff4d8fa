//! The check of a shift's record with as many records as it may have, where every record has to be compared with every other.
use crate::clock;
use crate::plain_shift;
use crate::timing::medians;
use hatukeno::{check_shift, Fault, Kind, Record, Refusal, Rule, Tag};
use std::hint::black_box;
use std::process::exit;

const RECORDS: u32 = 256;
/// Every two of them.
const PAIRS: u32 = RECORDS * (RECORDS - 1) / 2;
/// An end after all begins.
const LATE: u32 = 10_000;

type Said = Result<Option<Fault>, Refusal>;
type Check = fn(&[Record]) -> Said;

/// The record in this place, which overlaps with those in all others.
fn record(kind: Kind, place: u32, ts: u32) -> Record {
    Record {
        console: place % 8,
        kind,
        begin: place,
        end: LATE + place,
        tag: Tag { ts, console: 1, life: 1 },
        value: ts,
    }
}

/// Writes, each followed by a read of it.
fn halves(place: u32) -> Record {
    let kind = if place.is_multiple_of(2) { Kind::Write } else { Kind::Read };
    record(kind, place, 1 + place / 2)
}

fn write(place: u32) -> Record {
    record(Kind::Write, place, 1 + place)
}

/// The last one writes what all others read.
fn read_of_last(place: u32) -> Record {
    let kind = if place + 1 == RECORDS { Kind::Write } else { Kind::Read };
    record(kind, place, 1)
}

/// Each begins after the one before it has ended.
fn in_turn(place: u32) -> Record {
    Record {
        begin: 3 * place,
        end: 3 * place + 2,
        ..halves(place)
    }
}

/// The last one reads the first write, after a higher one has ended that stands just before it.
fn last_too_low() -> Vec<Record> {
    let mut records: Vec<Record> = (0..RECORDS).map(halves).collect();
    let [.., before, last] = &mut records[..] else {
        unreachable!("there are more than two");
    };
    before.end = LATE - 2;
    *last = record(Kind::Read, LATE - 1, 1);
    records
}

/// The cases, and whether the last record is at fault by the third rule.
fn cases() -> [(&'static str, Vec<Record>, bool); 5] {
    let all = |of: fn(u32) -> Record| (0..RECORDS).map(of).collect();
    [
        ("writes and reads, all overlap", all(halves), false),
        ("writes, all overlap", all(write), false),
        ("reads of the last, all overlap", all(read_of_last), false),
        ("writes and reads, one by one", all(in_turn), false),
        ("all overlap, the last too low", last_too_low(), true),
    ]
}

/// Nanoseconds for a check.
fn each(records: &[Record], check: Check) -> f64 {
    const TIMES: u32 = 4;
    let time = clock::nanoseconds(|| {
        for _ in 0..TIMES {
            let _ = black_box(check(black_box(records)));
        }
    });
    time / f64::from(TIMES)
}

fn by_pairs(records: &[Record]) -> Said {
    plain_shift::check::<false>(records)
}

fn by_sorting(records: &[Record]) -> Said {
    plain_shift::check::<true>(records)
}

/// What all three say; stops unless it is the same.
fn agree(records: &[Record]) -> Said {
    let library = check_shift(records);
    for plain in [by_pairs(records), by_sorting(records)] {
        if library != plain {
            println!("a difference at the check of {records:?}: {library:?}, {plain:?}");
            exit(1);
        }
    }
    library
}

/// Stops unless the last record is at fault or none is, and all agree on the same records with one field of one changed, too.
fn agree_about(records: &[Record], is_at_fault: bool) {
    let last = records.len() - 1;
    let is_right = |said: Said| match said {
        Ok(Some(fault)) => is_at_fault && (fault.record, fault.rule) == (last, Rule::TagTooLow),
        Ok(None) => !is_at_fault,
        Err(_) => false,
    };
    if !is_right(agree(records)) {
        println!("a case is not what it is to be: {records:?}");
        exit(1);
    }
    let changes: [fn(&mut Record); 8] = [
        |x| x.end = x.begin + 1,
        |x| x.end = x.begin,
        |x| x.begin = 2 * LATE,
        |x| x.tag.ts = 0,
        |x| x.tag.ts += 1,
        |x| x.tag.console = 8,
        |x| x.tag.life = 0,
        |x| x.value = 0,
    ];
    for change in changes {
        for place in 0..records.len() {
            let mut changed = records.to_vec();
            change(&mut changed[place]);
            let _ = agree(&changed);
        }
    }
}

/// For each case.
pub fn time_shifts(rounds: usize) {
    println!();
    println!("| ns per check of {RECORDS} records | library | plain | plain, sorted first | library / plain | library / sorted first |");
    println!("|---|---:|---:|---:|---:|---:|");
    let mut of_pairs = Vec::new();
    for (name, records, is_at_fault) in cases() {
        agree_about(&records, is_at_fault);
        let time = |check: Check| each(&records, check);
        let sides: [&dyn Fn() -> f64; 3] = [&|| time(check_shift), &|| time(by_pairs), &|| time(by_sorting)];
        let [library, pairs, sorted] = medians(rounds, sides);
        let (a, b) = (library / pairs, library / sorted);
        println!("| {name} | {library:.0} | {pairs:.0} | {sorted:.0} | {a:.2} | {b:.1} |");
        of_pairs.push((name, [library, pairs].map(|time| time / f64::from(PAIRS))));
    }
    println!();
    println!("| ns per pair, of {PAIRS} | library | plain |");
    println!("|---|---:|---:|");
    for (name, [library, plain]) in of_pairs {
        println!("| {name} | {library:.2} | {plain:.2} |");
    }
}
