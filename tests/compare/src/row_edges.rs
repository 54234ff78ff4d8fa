//! Inputs of the program audit at every edge: odd fields and odd lines, numbers beside each limit, and as many rows and bytes as
//! there may be, one less and one more.
use crate::audit::{FIELDS, TOO_LONG};
use crate::odd::{ENDS, FAR_NUMBERS, ODD_FIELDS};
use crate::record_lists::{at_edges, in_order, three};
use crate::row_inputs::{bare, joined, Line, EDGE_NUMBERS, ODD_BYTES};
use crate::shift::{Record, MAX_RECORDS};
use common::Chance;

/// Whole lines that are no rows, or are for more reasons than one; and rows of records that are not sound for more than one.
const ODD_LINES: [&str; 34] = [
    "",
    ",",
    "x",
    "\"",
    "0",
    ",,,,,,,",
    ",,,,,,,,",
    "1,0,7,9,1,1,1",
    "1,0,7,9,1,1,1,1,1",
    "1,0,7,9,1,1,1,1,",
    ",1,0,7,9,1,1,1,1",
    "x,0,7,9,1,1,1",
    "1,2,7,9,1,1,1001",
    "1;0;7;9;1;1;1;1",
    "1 0 7 9 1 1 1 1",
    "1,0,7,9,1,1,1,1\0",
    "\u{feff}1,0,7,9,1,1,1,1",
    "\"1,0,7,9,1,1,1,1\"",
    "\"1,0\",7,9,1,1,1,1",
    "\"1,0\",7,9,1,1,1,1,1",
    "1,0,7,9,1,1,1,\"1,\"",
    "console,kind,begin,end,ts,tag console,life,value",
    "x,2,7,9,1,1,1001,y",
    "1,2,7,9,1,1,1001,y",
    "1,0,7,9,1,1,1001,y",
    "1,2,7,9,1,1,1001,1",
    "1,2,7,7,1,8,1,1",
    "1,0,7,7,1,8,1001,1",
    "1,1,7,7,0,0,0,1",
    "1,1,7,6,0,8,0,1",
    "1,1,7,9,0,8,1,1",
    "1,0,7,9,0,8,1,1",
    "1,0,7,9,4000000001,8,1000,1",
    "4294967295,0,4294967294,4294967295,4000000000,7,1000,4294967295",
];

/// Rows at fault by each rule, in each way.
const AT_FAULT: [&str; 5] = [
    "1,1,3,5,1,1,1,1\n2,1,7,9,1,1,1,1\n",
    "1,1,3,5,1,1,1,1\n2,0,7,9,1,1,1,2\n",
    "1,0,7,9,1,1,1,1\n",
    "0,0,9,0,0,0,0,0\n1,1,3,5,1,1,1,1\n",
    "1,1,3,5,1,1,1,1\n2,0,7,0,0,0,0,0\n",
];

pub fn edges() -> Vec<Vec<u8>> {
    [
        AT_FAULT.map(Vec::from).to_vec(),
        odd_fields(),
        odd_lines(),
        numbers(),
        orders(),
        counts(),
        lengths(),
    ]
    .concat()
}

fn odd(line: &[u8], end: &'static [u8]) -> Line {
    let fields = vec![line.to_vec()];
    Line { fields, end }
}

/// Each odd field in each place of the second of three rows.
fn odd_fields() -> Vec<Vec<u8>> {
    let texts = ODD_FIELDS.iter().chain(&FAR_NUMBERS).map(|field| field.as_bytes());
    let fields: Vec<(usize, &[u8])> = texts
        .chain(ODD_BYTES)
        .flat_map(|field| (0..FIELDS).map(move |place| (place, field)))
        .collect();
    let edges = EDGE_NUMBERS
        .iter()
        .flat_map(|(place, numbers)| numbers.iter().map(|number| (*place, number.as_bytes())));
    let with = |(place, field): (usize, &[u8])| {
        let mut lines = bare(&three());
        lines[1].fields[place] = field.to_vec();
        joined(&lines)
    };
    fields.into_iter().chain(edges).map(with).collect()
}

/// Each odd line before three rows, after them, and by itself, with each of the ends.
fn odd_lines() -> Vec<Vec<u8>> {
    let mut inputs = Vec::new();
    for line in ODD_LINES {
        for end in ENDS {
            let rows = joined(&bare(&three()));
            let odd = joined(&[odd(line.as_bytes(), end)]);
            inputs.extend([[&rows[..], &odd].concat(), [&odd[..], &rows].concat(), odd]);
        }
    }
    inputs
}

/// Each of three records with one number at an edge, after the others and by itself.
fn numbers() -> Vec<Vec<u8>> {
    let [write, read, _] = three();
    let changed = three().into_iter().flat_map(at_edges);
    changed
        .flat_map(|x| [vec![x], vec![write, read, x]])
        .map(|list| joined(&bare(&list)))
        .collect()
}

/// A line that is no row, one that is not sound and one at fault, in any order.
fn orders() -> Vec<Vec<u8>> {
    let lines = ["1,0,7,9,1,1,1,\n", "1,0,7,7,1,1,1,1\n", "1,1,7,7,0,0,0,1\n", "1,0,7,9,5,1,1,1\n"];
    let others = |first: &'static str| lines.map(|second| lines.map(|third| [first, second, third].concat().into_bytes()));
    lines.into_iter().flat_map(others).flatten().collect()
}

/// So many rows in order.
fn rows(count: usize) -> Vec<Record> {
    in_order(count, &mut Chance(count as u64))
}

/// About as many rows as there may be: with each of the ends, and with an odd line in a place near the last that there may be.
fn counts() -> Vec<Vec<u8>> {
    let mut inputs: Vec<Vec<u8>> = [0, 1, 2, 512, 1000, 2000].map(|count| joined(&bare(&rows(count)))).to_vec();
    for count in MAX_RECORDS - 2..MAX_RECORDS + 3 {
        for end in ENDS {
            let mut lines = bare(&rows(count));
            lines[count - 1].end = end;
            inputs.push(joined(&lines));
        }
        for place in [0, MAX_RECORDS - 2, MAX_RECORDS - 1, MAX_RECORDS, MAX_RECORDS + 1] {
            for line in ["", "x", "1,0,7,7,1,1,1,1", "1,0,7,9,4000000000,7,1000,1", "1,2,7,9,1,1,1,1"] {
                let mut lines = bare(&rows(count));
                lines.insert(place.min(count), odd(line.as_bytes(), b"\n"));
                inputs.push(joined(&lines));
            }
        }
    }
    inputs
}

/// The first line, or the last one, has so many zeros before it that the whole has this many bytes.
fn stretched(mut lines: Vec<Line>, last: bool, length: usize) -> Vec<u8> {
    let zeros = length.saturating_sub(joined(&lines).len());
    let place = if last { lines.len() - 1 } else { 0 };
    lines[place].fields[0].splice(..0, vec![b'0'; zeros]);
    joined(&lines)
}

/// About as many bytes as there may be: of few rows, of about as many as there may be, with an LF at the end and without, and of
/// bytes that are no rows.
fn lengths() -> Vec<Vec<u8>> {
    let mut inputs = Vec::new();
    let near = [TOO_LONG - 2, TOO_LONG - 1, TOO_LONG, TOO_LONG + 1, TOO_LONG + 2];
    for length in near.into_iter().chain([4096, 70_000, 2 * TOO_LONG, 200_000]) {
        for count in [1, 3, MAX_RECORDS - 1, MAX_RECORDS, MAX_RECORDS + 1, MAX_RECORDS + 2] {
            for last in [false, true] {
                let mut lines = bare(&rows(count));
                inputs.push(stretched(bare(&rows(count)), last, length));
                lines[count - 1].end = b"";
                inputs.push(stretched(lines, last, length));
            }
        }
        inputs.extend([b'x', b'\n', b'\r', b'0', b','].map(|byte| vec![byte; length]));
        let odd_first = [odd(b"x", b"\n")].into_iter().chain(bare(&rows(MAX_RECORDS)));
        inputs.push(stretched(odd_first.collect(), true, length));
    }
    inputs
}
