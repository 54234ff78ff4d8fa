//! The program of Papers 1, 2 and 7 as they say it: the bytes of a whole input, and the bytes of the whole output.
//! Nothing here is shared with the program. The lines are document 01's ('Lines that programs read and write'), the
//! steps those of model.rs on boards of release 1 (Paper 4).
use crate::model::{Model, Outcome, Step, ZERO};
use std::io::Write;

/// The most bytes of a line, its end not counted.
pub const LONGEST: usize = 64;

pub const TOO_LONG: u32 = 13;
pub const NOT_THREE_FIELDS: u32 = 11;
pub const UNKNOWN_VERB: u32 = 12;

/// What a line is answered: the outcome, or the refusal. Paper 3 leaves lines as they are: how a reply compared is not
/// in them.
pub type Answer = Result<Outcome, u32>;

/// A line and what ended it: CR LF, LF, or nothing at the end of the input.
#[derive(Clone, Copy)]
pub struct Line<'a> {
    pub text: &'a [u8],
    pub end: &'a [u8],
}

/// The lines of an input. Nothing after the last LF is no line.
pub fn lines(input: &[u8]) -> impl Iterator<Item = Line<'_>> {
    let pieces = input.split_inclusive(|byte| *byte == b'\n');
    pieces.map(|piece| {
        let (text, end) = piece.split_at(piece.len() - end_length(piece));
        Line { text, end }
    })
}

/// How many of the bytes up to an LF or the end of the input are the line's end. One CR before the LF is; a CR with no
/// LF after it belongs to the line.
fn end_length(piece: &[u8]) -> usize {
    if piece.ends_with(b"\r\n") {
        2
    } else if piece.ends_with(b"\n") {
        1
    } else {
        0
    }
}

/// Before a verb 0 the board has one node and one console.
pub fn first_board() -> Model {
    Model::fresh(1, 1).expect("an allowed size")
}

/// What these lines are answered, one after the other. A refused line changes nothing, and the run goes on.
pub fn run<'a>(lines: impl Iterator<Item = Line<'a>>, answer: fn(&mut Model, Line) -> Answer) -> Vec<Answer> {
    let mut board = first_board();
    lines.map(|line| answer(&mut board, line)).collect()
}

/// Three questions are put to the line, then the step is taken. The first is whether it is too long.
pub fn answer(board: &mut Model, line: Line) -> Answer {
    if line.text.len() > LONGEST {
        return Err(TOO_LONG);
    }
    answer_fields(board, line.text)
}

/// The second is whether it has three fields that are numbers, the third whether the verb is known.
pub fn answer_fields(board: &mut Model, text: &[u8]) -> Answer {
    let numbers = three_numbers(text).ok_or(NOT_THREE_FIELDS)?;
    take(board, numbers)
}

/// Fields are joined by commas.
pub fn fields(text: &[u8]) -> impl Iterator<Item = &[u8]> {
    text.split(|byte| *byte == b',')
}

/// Verb, first number, second number: exactly three fields.
pub fn three_numbers(text: &[u8]) -> Option<[u32; 3]> {
    let fields: Vec<&[u8]> = fields(text).collect();
    let [verb, first, second] = fields[..] else {
        return None;
    };
    Some([number(verb)?, number(first)?, number(second)?])
}

/// One or more decimal digits, bare or inside one pair of double quotes.
pub fn digits(field: &[u8]) -> Option<&[u8]> {
    let digits = match field.strip_prefix(b"\"") {
        Some(rest) => rest.strip_suffix(b"\"")?,
        None => field,
    };
    (!digits.is_empty() && digits.iter().all(u8::is_ascii_digit)).then_some(digits)
}

/// The number of a field: its digits make a number of 32 bits.
pub fn number(field: &[u8]) -> Option<u32> {
    // Of digits alone, parse refuses just what is beyond 32 bits.
    std::str::from_utf8(digits(field)?).ok()?.parse().ok()
}

/// The step that the verb names. A number that it has no use for is left aside.
fn take(board: &mut Model, [verb, first, second]: [u32; 3]) -> Answer {
    let step = match verb {
        0 => {
            *board = Model::fresh(first, second)?;
            return Ok(Outcome::Done);
        }
        1 => Step::BeginRead(first),
        2 => Step::BeginWrite(first, second),
        3 => Step::Deliver(first, second),
        4 => Step::NodeDown(first),
        5 => Step::ConsoleDown(first),
        6 => Step::NodeUp(first),
        7 => Step::Restart(first),
        _ => return Err(UNKNOWN_VERB),
    };
    let (answer, next) = board.step(step);
    *board = next;
    answer.outcome
}

/// The fields of an output line: its number from 1, refusal or 0, outcome, and ts, console, value and life if it
/// finished.
fn written_fields(line: u64, answer: &Answer) -> [u64; 7] {
    let refusal = answer.err().unwrap_or(0);
    let (outcome, (ts, console, life), value) = match *answer {
        Err(_) => (0, ZERO, 0),
        Ok(Outcome::Done) => (1, ZERO, 0),
        Ok(Outcome::Handed) => (2, ZERO, 0),
        Ok(Outcome::Heard) => (3, ZERO, 0),
        Ok(Outcome::Turned) => (4, ZERO, 0),
        Ok(Outcome::Finished(tag, value)) => (5, tag, value),
        Ok(Outcome::Discarded) => (6, ZERO, 0),
    };
    [line, refusal.into(), outcome, ts, console, value.into(), life]
}

/// The output, with what these are of the fields of each line.
pub fn written(answers: &[Answer], fields: fn([u64; 7]) -> Vec<u64>) -> Vec<u8> {
    let mut output = Vec::new();
    for (line, answer) in (1..).zip(answers) {
        let fields: Vec<String> = fields(written_fields(line, answer)).iter().map(u64::to_string).collect();
        writeln!(output, "{}", fields.join(",")).expect("memory takes all that is written");
    }
    output
}
