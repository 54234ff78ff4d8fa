//! Faults of Papers 10 and 13 in which lines an input has and which of them are rows.
use crate::audit::{lines, row, BadRow, FIELDS};
use crate::schedule::{digits, fields, number};
use crate::shift::Record;

/// The CR of a CR LF belongs to the line.
pub fn cr_kept(input: &[u8]) -> Vec<&[u8]> {
    let pieces = input.split_inclusive(|byte| *byte == b'\n');
    pieces.map(|piece| piece.strip_suffix(b"\n").unwrap_or(piece)).collect()
}

/// What stands after the last LF is a line, even if that is nothing.
pub fn empty_last_row(input: &[u8]) -> Vec<&[u8]> {
    let mut all = lines(input);
    if input.is_empty() || input.ends_with(b"\n") {
        all.push(b"");
    }
    all
}

/// A CR at the very end is no part of its line.
pub fn very_last_cr_dropped(input: &[u8]) -> Vec<&[u8]> {
    lines(input.strip_suffix(b"\r").unwrap_or(input))
}

/// An empty line is no line.
pub fn empty_rows_dropped(input: &[u8]) -> Vec<&[u8]> {
    let mut all = lines(input);
    all.retain(|line| !line.is_empty());
    all
}

/// A byte order mark before the first line is left off.
pub fn mark_dropped(input: &[u8]) -> Vec<&[u8]> {
    lines(input.strip_prefix(b"\xef\xbb\xbf").unwrap_or(input))
}

/// The line with other fields, as a row.
fn row_with(line: &[u8], change: impl Fn(&mut Vec<&[u8]>)) -> Result<Record, BadRow> {
    let mut all: Vec<&[u8]> = fields(line).collect();
    change(&mut all);
    row(&all.join(&b','))
}

/// The line with each of its fields read as another.
fn row_by(line: &[u8], read: impl Fn(&[u8]) -> &[u8]) -> Result<Record, BadRow> {
    row_with(line, |all| all.iter_mut().for_each(|field| *field = read(field)))
}

/// The value stands before the life.
pub fn row_value_before_life(line: &[u8]) -> Result<Record, BadRow> {
    row_with(line, |all| {
        if all.len() == FIELDS {
            all.swap(6, 7);
        }
    })
}

/// Kind 2 is that of a write, too.
pub fn kind_2(line: &[u8]) -> Result<Record, BadRow> {
    row_with(line, |all| {
        if let [_, kind @ b"2", ..] = &mut all[..] {
            *kind = b"1";
        }
    })
}

/// A record may have life 1,001.
pub fn row_life_1001(line: &[u8]) -> Result<Record, BadRow> {
    if fields(line).nth(6) != Some(b"1001") {
        return row(line);
    }
    let mut record = row_with(line, |all| all[6] = b"1000")?;
    record.tag.2 = 1001;
    Ok(record)
}

/// A ninth field is ignored.
pub fn nine_fields(line: &[u8]) -> Result<Record, BadRow> {
    row_with(line, |all| {
        if all.len() == FIELDS + 1 {
            all.pop();
        }
    })
}

/// A row of the older edition has life 0.
pub fn seven_fields(line: &[u8]) -> Result<Record, BadRow> {
    row_with(line, |all| {
        if all.len() == FIELDS - 1 {
            all.insert(6, b"0");
        }
    })
}

/// A comma inside quotes joins no fields.
pub fn quoted_comma_joins_none(line: &[u8]) -> Result<Record, BadRow> {
    let mut is_quoted = false;
    let bytes = line.iter().map(|byte| {
        is_quoted ^= *byte == b'"';
        if is_quoted && *byte == b',' {
            b';'
        } else {
            *byte
        }
    });
    row(&bytes.collect::<Vec<u8>>())
}

/// A field has no quotes.
pub fn quotes_refused(line: &[u8]) -> Result<Record, BadRow> {
    row_by(line, |field| if field.starts_with(b"\"") { b"" } else { field })
}

/// A field has no needless zeros.
pub fn zeros_refused(line: &[u8]) -> Result<Record, BadRow> {
    row_by(line, |field| match digits(field) {
        Some([b'0', _, ..]) => b"",
        _ => field,
    })
}

/// A number may have a plus sign.
pub fn plus_allowed(line: &[u8]) -> Result<Record, BadRow> {
    row_by(line, |field| field.strip_prefix(b"+").unwrap_or(field))
}

/// Blanks round a field are left off.
pub fn blanks_dropped(line: &[u8]) -> Result<Record, BadRow> {
    row_by(line, |field| field.trim_ascii())
}

/// Of a tag's console the lowest 16 bits are read.
pub fn row_tag_console_cut(line: &[u8]) -> Result<Record, BadRow> {
    let mut record = row(line)?;
    record.tag.1 %= 1 << 16;
    Ok(record)
}

/// The kind is asked for before the fields after it are numbers.
pub fn kind_before_numbers(line: &[u8]) -> Result<Record, BadRow> {
    let is_other_kind = fields(line).nth(1).and_then(number).is_some_and(|kind| kind > 1);
    match row(line) {
        Err(BadRow::NotANumber(field)) if field > 2 && is_other_kind => Err(BadRow::Kind),
        other => other,
    }
}

/// The life is asked for before the kind.
pub fn life_before_kind(line: &[u8]) -> Result<Record, BadRow> {
    let as_read = |all: &mut Vec<&[u8]>| all[1] = b"0";
    match row(line) {
        Err(BadRow::Kind) => row_with(line, as_read).and(Err(BadRow::Kind)),
        other => other,
    }
}
