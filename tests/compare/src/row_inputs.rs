//! Inputs of the program audit: rows written in every way that is allowed, the same damaged in a byte, a field or a line, and any
//! number of them by chance. Those at the edges are in row_edges.rs.
use crate::audit::numbers;
use crate::odd::{changed, field, one_of, ENDS, FAR_NUMBERS, ODD_FIELDS};
use crate::record_lists::{damage, in_order, shuffle, small};
use crate::shift::Record;
use common::Chance;

const NEVER: u32 = u32::MAX;

/// What a field may have in bytes that are no text, or with the end of a line in it.
pub const ODD_BYTES: [&[u8]; 8] = [b"\xff", b"1\xff", b"\xc3", b"\xed\xa0\x80", b"1\r", b"\r1", b"1\n", b"\n1"];

/// Numbers at the edges of a kind, a tag's console and a life, with the place of each of these fields.
pub const EDGE_NUMBERS: [(usize, &[&str]); 3] = [
    (1, &["2", "3", "255", "256", "257", "65536", "65537"]),
    (5, &["7", "8", "255", "256", "65535", "65536", "65537"]),
    (6, &["999", "1000", "1001", "1024", "65535", "65536", "65537"]),
];

/// A line by its fields, and its end.
pub struct Line {
    pub fields: Vec<Vec<u8>>,
    pub end: &'static [u8],
}

/// One field in so many has quotes, one in so many needless zeros; and each of the ends is that of some lines.
struct Hand {
    quoted: u32,
    padded: u32,
    ends: &'static [&'static [u8]],
}

const BARE: Hand = Hand {
    quoted: NEVER,
    padded: NEVER,
    ends: &[b"\n"],
};

impl Hand {
    fn drawn(chance: &mut Chance) -> Hand {
        let [quoted, padded] = [(); 2].map(|()| one_of(&[NEVER, 12, 1], chance));
        let ends = one_of(&[&ENDS[..1], &ENDS[1..2], &ENDS[..2]], chance);
        Hand { quoted, padded, ends }
    }

    fn lines(&self, records: &[Record], chance: &mut Chance) -> Vec<Line> {
        let mut line = |record: &Record| Line {
            fields: numbers(record)
                .map(|number| field(number, self.quoted, self.padded, chance).into_bytes())
                .to_vec(),
            end: one_of(self.ends, chance),
        };
        records.iter().map(&mut line).collect()
    }
}

/// Rows without quotes or needless zeros, each with an LF.
pub fn bare(records: &[Record]) -> Vec<Line> {
    BARE.lines(records, &mut Chance(0))
}

pub fn joined(lines: &[Line]) -> Vec<u8> {
    let whole = |line: &Line| [&line.fields.join(&b','), line.end].concat();
    lines.iter().flat_map(whole).collect()
}

/// The rows as they may be written; the last line may have no end.
fn lines(records: &[Record], chance: &mut Chance) -> Vec<Line> {
    let mut lines = Hand::drawn(chance).lines(records, chance);
    if let Some(last) = lines.last_mut().filter(|_| chance.one_in(3)) {
        last.end = b"";
    }
    lines
}

pub fn written(records: &[Record], chance: &mut Chance) -> Vec<u8> {
    joined(&lines(records, chance))
}

/// The same, but one of the lines, or one byte of all, is damaged.
pub fn damaged(records: &[Record], chance: &mut Chance) -> Vec<u8> {
    let mut lines = lines(records, chance);
    let Some(line) = chance.drawn(0..lines.len()).map(|i| &mut lines[i]) else {
        return one_of(&ENDS, chance).to_vec();
    };
    if chance.one_in(3) {
        return changed(joined(&lines), chance);
    }
    line.damage(chance);
    joined(&lines)
}

impl Line {
    fn damage(&mut self, chance: &mut Chance) {
        let place = chance.below(8) as usize;
        let field = &mut self.fields[place];
        match chance.below(9) {
            0 => *field = one_of(&ODD_FIELDS, chance).into(),
            1 => *field = one_of(&ODD_BYTES, chance).into(),
            2 => *field = one_of(&FAR_NUMBERS, chance).into(),
            3 => *field = changed(field.clone(), chance),
            4 => drop(self.fields.remove(place)),
            5 => {
                let again = field.clone();
                self.fields.insert(place, again);
            }
            6 => self.fields = Vec::new(),
            7 => self.end = one_of(&ENDS, chance),
            _ => {
                let (place, numbers) = one_of(&EDGE_NUMBERS, chance);
                self.fields[place] = one_of(numbers, chance).into();
            }
        }
    }
}

/// A list by chance: in order, damaged, or of small numbers; mostly short. One input in three is damaged.
pub fn drawn(chance: &mut Chance) -> Vec<u8> {
    let length = match chance.below(24) {
        0 => 254 + chance.below(5),
        1 => chance.below(301),
        _ => chance.below(12),
    };
    let mut records = if chance.one_in(2) {
        in_order(length as usize, chance)
    } else {
        small(length as usize, chance)
    };
    if chance.one_in(2) {
        damage(&mut records, chance);
    }
    if chance.one_in(2) {
        shuffle(&mut records, chance);
    }
    if chance.one_in(3) {
        damaged(&records, chance)
    } else {
        written(&records, chance)
    }
}
