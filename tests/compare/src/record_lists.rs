//! Lists of records: such as are in order, such as are damaged, such as are drawn from small numbers, and records with numbers at
//! the edges of what is sound.
use crate::model::{Kind, Tag, MAX_LIFE, MAX_TS, ZERO};
use crate::shift::Record;
use common::Chance;

/// A write, a read of what it wrote, and a read of what none wrote, in order.
pub fn three() -> [Record; 3] {
    let write = Record {
        console: 1,
        kind: Kind::Write,
        begin: 3,
        end: 5,
        tag: (1, 1, 1),
        value: 1,
    };
    let read = Record {
        kind: Kind::Read,
        begin: 7,
        end: 9,
        ..write
    };
    let initial = Record {
        begin: 1,
        end: 3,
        tag: ZERO,
        value: 0,
        ..read
    };
    [write, read, initial]
}

/// The operations of one register that does each at a point of its own, one after the other, and begins and ends it around that
/// point, so that the list is in order as it is and in any other order.
pub fn in_order(length: usize, chance: &mut Chance) -> Vec<Record> {
    let overlap = 1 + chance.below(40);
    let writes = 1 + chance.below(8);
    let (mut tag, mut value) = (ZERO, 0);
    let mut records = Vec::new();
    for i in 0..length as u32 {
        let kind = if chance.one_in(writes) { Kind::Write } else { Kind::Read };
        if kind == Kind::Write {
            (tag, value) = (higher(tag, chance), chance.below(3));
        }
        let point = overlap + 2 * i;
        records.push(Record {
            console: chance.below(8),
            kind,
            begin: point - chance.below(overlap),
            end: if chance.one_in(16) { 0 } else { point + 1 + chance.below(overlap) },
            tag,
            value,
        });
    }
    records
}

/// A tag that is higher by the life alone, by the console whatever the life, or by the ts whatever the others.
fn higher((ts, console, life): Tag, chance: &mut Chance) -> Tag {
    let (any_console, any_life) = (chance.below(8).into(), chance.below(3).into());
    match chance.below(3) {
        0 if ts > 0 && life < MAX_LIFE => (ts, console, life + 1),
        1 if ts > 0 && console < 7 => (ts, console + 1, any_life),
        _ => (ts + 1, any_console, any_life),
    }
}

pub fn shuffle(records: &mut [Record], chance: &mut Chance) {
    for i in (1..records.len()).rev() {
        records.swap(i, chance.below(i as u32 + 1) as usize);
    }
}

/// The list with one field of one record changed, two records swapped, one repeated somewhere after it, or one left out.
pub fn damage(records: &mut Vec<Record>, chance: &mut Chance) {
    let length = records.len() as u32;
    if length == 0 {
        return;
    }
    let [i, j] = [(); 2].map(|()| chance.below(length) as usize);
    match chance.below(12) {
        0 => records.swap(i, j),
        1 => records.insert(i.max(j) + 1, records[i.min(j)]),
        2 => {
            records.remove(i);
        }
        _ => {
            let other = records[j];
            change(&mut records[i], other, chance);
        }
    }
}

/// One field becomes another number: the other record's, one beside its own, or 0.
fn change(x: &mut Record, other: Record, chance: &mut Chance) {
    let mut number = |own: u32, others: u32| match chance.below(4) {
        0 => own.wrapping_add(1),
        1 => own.wrapping_sub(1),
        2 => 0,
        _ => others,
    };
    let part = |of: u64| of as u32;
    let (own, others) = (x.tag, other.tag);
    let tag = [
        number(part(own.0), part(others.0)),
        number(part(own.1), part(others.1)),
        number(part(own.2), part(others.2)),
    ]
    .map(u64::from);
    let [begin, end, value] = [number(x.begin, other.end), number(x.end, other.begin), number(x.value, other.value)];
    match chance.below(9) {
        0 => x.kind = opposite(x.kind),
        1 => x.begin = begin,
        2 => x.end = end,
        3 => x.tag.0 = tag[0],
        4 => x.tag.1 = tag[1],
        5 => x.tag.2 = tag[2],
        6 => x.value = value,
        7 => x.tag = others,
        _ => x.console = other.console,
    }
}

fn opposite(kind: Kind) -> Kind {
    match kind {
        Kind::Read => Kind::Write,
        Kind::Write => Kind::Read,
    }
}

/// What the numbers of a list are drawn below, and one in how many of its records is a write, and of its reads is another's not.
struct Bounds {
    places: u32,
    span: u32,
    ts: u32,
    consoles: u32,
    lives: u32,
    values: u32,
    writes: u32,
    others: u32,
}

impl Bounds {
    /// Mostly small ones.
    fn drawn(chance: &mut Chance) -> Bounds {
        let mut bound = |most: u32| {
            let bits = chance.below(1 + most.ilog2());
            1 + chance.below(2u32 << bits)
        };
        Bounds {
            places: bound(512),
            span: bound(64),
            ts: 1 + bound(512),
            consoles: bound(8).min(8),
            lives: bound(4),
            values: bound(8),
            writes: bound(16),
            others: bound(8),
        }
    }

    /// A sound record, after these. A read may have the tag and value of one of them.
    fn record(&self, before: &[Record], chance: &mut Chance) -> Record {
        let kind = if chance.one_in(self.writes) { Kind::Write } else { Kind::Read };
        let begin = chance.below(self.places);
        let end = if chance.one_in(4) { 0 } else { begin + 1 + chance.below(self.span) };
        let (console, value) = (chance.below(self.consoles), chance.below(self.values));
        let [ts, tag_console, life] = [self.ts, self.consoles, self.lives].map(|bound| chance.below(bound).into());
        let drawn = match (ts, kind) {
            (0, Kind::Read) => ZERO,
            (0, Kind::Write) => (1, tag_console, life),
            _ => (ts, tag_console, life),
        };
        let copies = kind == Kind::Read && !chance.one_in(self.others);
        let copied = chance.drawn(before.iter()).filter(|_| copies).map(|x| (x.tag, x.value));
        let (tag, value) = copied.unwrap_or((drawn, value));
        Record {
            console,
            kind,
            begin,
            end,
            tag,
            value,
        }
    }
}

/// A list of numbers below bounds of its own. One list in eight has records now and then that are not sound.
pub fn small(length: usize, chance: &mut Chance) -> Vec<Record> {
    let bounds = Bounds::drawn(chance);
    let unsound = if chance.one_in(8) {
        1 + length as u32 * chance.below(2)
    } else {
        u32::MAX
    };
    let mut records = Vec::new();
    for _ in 0..length {
        let mut record = bounds.record(&records, chance);
        if chance.one_in(unsound) {
            record = chance.drawn(at_edges(record).into_iter()).expect("an edge");
        }
        records.push(record);
    }
    records
}

const FAR: u32 = u32::MAX;

/// The record with one field at an edge: all numbers on both sides of each edge of what is sound, and those that are sound once
/// they are cut to 8 or to 16 bits.
pub fn at_edges(x: Record) -> Vec<Record> {
    let last_ts = MAX_TS as u32;
    let mut all = vec![Record {
        kind: opposite(x.kind),
        ..x
    }];
    let mut with = |numbers: &[u32], set: fn(&mut Record, u32)| {
        all.extend(numbers.iter().map(|number| {
            let mut record = x;
            set(&mut record, *number);
            record
        }));
    };
    with(&[0, x.end.wrapping_sub(1), x.end, x.end.wrapping_add(1), FAR], |x, to| x.begin = to);
    with(&[0, 1, x.begin.wrapping_sub(1), x.begin, x.begin.wrapping_add(1), FAR], |x, to| {
        x.end = to
    });
    with(&[0, 1, last_ts - 1, last_ts, last_ts + 1, FAR], |x, to| x.tag.0 = to.into());
    with(&[0, 1, 6, 7, 8, 255, 256, 65_535, 65_536, 65_537, FAR], |x, to| x.tag.1 = to.into());
    with(&[0, 1, 999, 1000, 1001, 1024, 65_535, 65_536, 65_537, FAR], |x, to| {
        x.tag.2 = to.into()
    });
    with(&[0, 7, 8, 65_535, 65_536, FAR], |x, to| x.console = to);
    with(&[0, 1, FAR], |x, to| x.value = to);
    all
}
