//! Faults in the rules for lines.
use crate::model::{Model, Outcome, Release};
use crate::schedule::*;

pub fn limit_63(board: &mut Model, line: Line) -> Answer {
    if line.text.len() > LONGEST - 1 {
        return Err(TOO_LONG);
    }
    answer(board, line)
}

pub fn limit_65(board: &mut Model, line: Line) -> Answer {
    if line.text.len() > LONGEST + 1 {
        return Err(TOO_LONG);
    }
    answer_fields(board, line.text)
}

/// The CR of a CR LF is counted in the length.
pub fn cr_counted(board: &mut Model, line: Line) -> Answer {
    if line.end == b"\r\n" && line.text.len() + 1 > LONGEST {
        return Err(TOO_LONG);
    }
    answer(board, line)
}

/// A CR at the end of the input is an end, with no LF after it.
pub fn last_cr_left_off(line: Line) -> Option<Line> {
    match line.text.strip_suffix(b"\r") {
        Some(text) if line.end.is_empty() => Some(Line { text, ..line }),
        _ => Some(line),
    }
}

/// Both CRs of CR CR LF are left off.
pub fn both_crs_left_off(line: Line) -> Option<Line> {
    match line.text.strip_suffix(b"\r") {
        Some(text) if line.end == b"\r\n" => Some(Line { text, ..line }),
        _ => Some(line),
    }
}

/// What the end of the input ends is no line.
pub fn last_line_lost(line: Line) -> Option<Line> {
    (!line.end.is_empty()).then_some(line)
}

pub fn empty_unanswered(line: Line) -> Option<Line> {
    (!line.text.is_empty()).then_some(line)
}

/// 11 is asked before 13.
pub fn fields_before_length(board: &mut Model, line: Line) -> Answer {
    three_numbers(line.text).ok_or(NOT_THREE_FIELDS)?;
    answer(board, line)
}

/// 12 is asked before 11: of the first field, whatever the others are.
pub fn verb_before_fields(board: &mut Model, line: Line) -> Answer {
    let first = fields(line.text).next().unwrap_or_default();
    match answer(board, line) {
        Err(NOT_THREE_FIELDS) if number(first).is_some_and(|verb| verb > 7) => Err(UNKNOWN_VERB),
        other => other,
    }
}

/// The line with each field, by its place, read as another.
fn answer_as(board: &mut Model, line: Line, read: impl Fn(usize, &[u8]) -> Vec<u8>) -> Answer {
    if line.text.len() > LONGEST {
        return answer(board, line);
    }
    let fields: Vec<Vec<u8>> = fields(line.text).enumerate().map(|(i, field)| read(i, field)).collect();
    answer_fields(board, &fields.join(&b','))
}

/// A number beyond 32 bits is taken by its last 32.
pub fn number_wraps(board: &mut Model, line: Line) -> Answer {
    answer_as(board, line, |_, field| match digits(field) {
        Some(digits) => {
            let add = |sum: u32, byte: &u8| sum.wrapping_mul(10).wrapping_add(u32::from(*byte - b'0'));
            digits.iter().fold(0, add).to_string().into_bytes()
        }
        None => field.to_vec(),
    })
}

/// A quote on one side is left off.
pub fn half_quoted(board: &mut Model, line: Line) -> Answer {
    answer_as(board, line, |_, field| {
        let sides = (field.strip_prefix(b"\""), field.strip_suffix(b"\""));
        match sides {
            (Some(rest), None) | (None, Some(rest)) => rest.to_vec(),
            _ => field.to_vec(),
        }
    })
}

/// A field that a step has no use for is not read.
pub fn unused_unread(board: &mut Model, line: Line) -> Answer {
    let verb = fields(line.text).next().and_then(number);
    let is_unused = |i| i == 2 && matches!(verb, Some(1 | 4 | 5 | 6 | 7));
    answer_as(board, line, |i, field| if is_unused(i) { b"0".to_vec() } else { field.to_vec() })
}

/// A refused fresh makes the board of one node and one console.
pub fn small_board_taken(board: &mut Model, line: Line) -> Answer {
    let answer = answer(board, line);
    if let Err(2 | 3) = answer {
        *board = first_board();
    }
    answer
}

/// The three numbers of a line that is not too long.
fn numbers_of(line: Line) -> Option<[u32; 3]> {
    three_numbers(line.text).filter(|_| line.text.len() <= LONGEST)
}

/// Verb 6 is unknown.
pub fn node_up_unknown(board: &mut Model, line: Line) -> Answer {
    match numbers_of(line) {
        Some([6, ..]) => Err(UNKNOWN_VERB),
        _ => answer(board, line),
    }
}

/// Verb 7 is unknown.
pub fn restart_unknown(board: &mut Model, line: Line) -> Answer {
    match numbers_of(line) {
        Some([7, ..]) => Err(UNKNOWN_VERB),
        _ => answer(board, line),
    }
}

/// Verb 8 is restart too.
pub fn eight_restarts(board: &mut Model, line: Line) -> Answer {
    match numbers_of(line) {
        Some([8, console, _]) => answer_fields(board, format!("7,{console},0").as_bytes()),
        _ => answer(board, line),
    }
}

/// Verb 0 leaves the consoles their lives.
pub fn fresh_keeps_lives(board: &mut Model, line: Line) -> Answer {
    let before = board.clone();
    let answer = answer(board, line);
    if let (Some([0, ..]), Ok(_)) = (numbers_of(line), answer) {
        for (c, x) in board.consoles.range_mut(..board.m) {
            x.life = before.consoles[c].life;
        }
    }
    answer
}

/// The life in the output is the one that the console has, not the tag's.
pub fn life_of_console(board: &mut Model, line: Line) -> Answer {
    let answer = answer(board, line)?;
    match (numbers_of(line), answer) {
        (Some([_, c, _]), Outcome::Finished((ts, console, _), value)) => {
            Ok(Outcome::Finished((ts, console, board.consoles[&c].life), value))
        }
        _ => Ok(answer),
    }
}

/// The output has no life.
pub fn life_unwritten([fields @ .., _]: [u64; 7]) -> Vec<u64> {
    fields.to_vec()
}

/// The life is written before the value.
pub fn life_before_value(mut fields: [u64; 7]) -> Vec<u64> {
    fields.swap(5, 6);
    fields.to_vec()
}

/// The life is always written as 0.
pub fn life_written_0(mut fields: [u64; 7]) -> Vec<u64> {
    fields[6] = 0;
    fields.to_vec()
}

/// The program's boards are of release 2.
pub fn lines_under_two(board: &mut Model, line: Line) -> Answer {
    board.release = Release::Two;
    answer(board, line)
}
