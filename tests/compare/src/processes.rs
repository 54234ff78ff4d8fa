//! The proved programs as processes: what one prints and ends with for an input that it is fed in pieces of odd sizes.
use common::Chance;
use std::io::{self, Write};
use std::path::Path;
use std::process::{exit, ChildStdin, Command, Output, Stdio};
use std::thread::{scope, sleep};
use std::time::Duration;

/// Where an input is left that a program and the model differ on.
const DIFFERENT: &str = "target/different.csv";
/// Of a longer line only so many bytes are printed.
const SHOWN: usize = 200;

/// Ends with status 2 if there is no such program.
pub fn must_be_there(program: &Path, name: &str) {
    if !program.is_file() {
        eprintln!("compare: there is no program {}; tests/program {name} writes it", program.display());
        exit(2);
    }
}

/// What the program prints and ends with for this input.
pub fn run(program: &Path, input: &[u8], chance: &mut Chance) -> Output {
    let pieces = pieces(input.len(), chance);
    ended(program, input, &pieces).unwrap_or_else(|error| {
        eprintln!("compare: {} cannot be run: {error}", program.display());
        exit(2);
    })
}

/// The lengths of the pieces in which an input is fed. What waits in the pipe is read together; only a short input that
/// is fed byte by byte, now and then, is sure to be read so.
fn pieces(length: usize, chance: &mut Chance) -> Vec<usize> {
    let most = match chance.below(8) {
        0 if length <= 200 => 1,
        0 | 1 => 1 + length as u32 / 16,
        2 => 1021,
        3 => 5000,
        _ => 100_000,
    };
    let mut pieces = Vec::new();
    let mut left = length;
    while left > 0 {
        let piece = (1 + chance.below(most) as usize).min(left);
        pieces.push(piece);
        left -= piece;
    }
    pieces
}

/// A thread feeds the program, so that neither side waits for the other for ever.
fn ended(program: &Path, input: &[u8], pieces: &[usize]) -> io::Result<Output> {
    let mut command = Command::new(program);
    let mut child = command
        .stdin(Stdio::piped())
        .stdout(Stdio::piped())
        .stderr(Stdio::piped())
        .spawn()?;
    let stdin = child.stdin.take().expect("it is piped");
    scope(|threads| {
        threads.spawn(|| feed(stdin, input, pieces));
        child.wait_with_output()
    })
}

/// A program that ends before its input does is seen by what it prints, not here.
fn feed(mut stdin: ChildStdin, mut input: &[u8], pieces: &[usize]) {
    let byte_by_byte = pieces.len() == input.len();
    for length in pieces {
        let (piece, rest) = input.split_at(*length);
        if stdin.write_all(piece).is_err() {
            return;
        }
        if byte_by_byte {
            sleep(Duration::from_micros(50));
        }
        input = rest;
    }
}

/// Bytes as text in which each can be told from the others.
pub fn shown(bytes: &[u8]) -> String {
    let text = bytes[..bytes.len().min(SHOWN)].escape_ascii();
    if bytes.len() > SHOWN {
        format!("'{text}' and so on, {} bytes", bytes.len())
    } else {
        format!("'{text}'")
    }
}

/// Leaves an input in a file, and says so.
pub fn left(what: &str, input: &[u8]) -> String {
    match std::fs::write(DIFFERENT, input) {
        Ok(()) => format!("the {what} is in {DIFFERENT}"),
        Err(error) => format!("the {what} cannot be written to {DIFFERENT}: {error}"),
    }
}
