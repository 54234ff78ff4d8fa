//! The program of Papers 1, 2 and 7 in plain Rust over plain.rs: one line at a time in memory that is used again, one
//! board changed in place.
use crate::plain::{Board, ZERO};
use hatukeno::{Outcome, Refusal, Tag};
use std::io::{self, BufRead, BufWriter, Write};

const LONGEST: usize = 64;

/// Reads a schedule from standard input and writes the answers to standard output.
pub fn run<const CHECKED: bool>() -> io::Result<()> {
    let mut input = io::stdin().lock();
    let mut output = BufWriter::new(io::stdout().lock());
    let mut board = Board::<CHECKED>::fresh(1, 1).expect("an allowed size");
    let mut line = Vec::new();
    let mut number = 0u64;
    while input.read_until(b'\n', &mut line)? > 0 {
        number += 1;
        let (refusal, outcome, tag, value) = match answer(&mut board, without_end(&line)) {
            Err(Refusal(refusal)) => (refusal, 0, ZERO, 0),
            Ok(Outcome::Done) => (0, 1, ZERO, 0),
            Ok(Outcome::Handed) => (0, 2, ZERO, 0),
            Ok(Outcome::Heard) => (0, 3, ZERO, 0),
            Ok(Outcome::Turned) => (0, 4, ZERO, 0),
            Ok(Outcome::Finished { tag, value }) => (0, 5, tag, value),
            Ok(Outcome::Discarded) => (0, 6, ZERO, 0),
        };
        let Tag { ts, console, life } = tag;
        writeln!(output, "{number},{refusal},{outcome},{ts},{console},{value},{life}")?;
        line.clear();
    }
    output.flush()
}

/// A CR is part of the end only before an LF.
fn without_end(line: &[u8]) -> &[u8] {
    match line {
        [text @ .., b'\r', b'\n'] | [text @ .., b'\n'] => text,
        text => text,
    }
}

/// The outcome; Paper 3 leaves the lines as they are, so how a reply compared is left aside.
fn answer<const CHECKED: bool>(board: &mut Board<CHECKED>, line: &[u8]) -> Result<Outcome, Refusal> {
    if line.len() > LONGEST {
        return Err(Refusal(13));
    }
    let [verb, first, second] = numbers(line).ok_or(Refusal(11))?;
    let answer = match verb {
        0 => {
            *board = Board::fresh(first, second)?;
            return Ok(Outcome::Done);
        }
        1 => board.begin_read(first),
        2 => board.begin_write(first, second),
        3 => board.deliver(first, second),
        4 => board.node_down(first),
        5 => board.console_down(first),
        6 => board.node_up(first),
        7 => board.restart(first),
        _ => Err(Refusal(12)),
    };
    answer.map(|answer| answer.outcome)
}

fn numbers(line: &[u8]) -> Option<[u32; 3]> {
    let mut fields = line.split(|byte| *byte == b',');
    let three = [number(fields.next()?)?, number(fields.next()?)?, number(fields.next()?)?];
    fields.next().is_none().then_some(three)
}

fn number(field: &[u8]) -> Option<u32> {
    let digits = match field {
        [b'"', digits @ .., b'"'] => digits,
        digits => digits,
    };
    if digits.is_empty() {
        return None;
    }
    digits.iter().try_fold(0u32, |sum, byte| {
        let digit = byte.is_ascii_digit().then(|| u32::from(byte - b'0'))?;
        sum.checked_mul(10)?.checked_add(digit)
    })
}
