//! Every bit of every word flipped, one at a time, on a board of every size under each release: the words are then
//! another well-formed board's, and answered as the model does, or every step is refused with 1 and nothing is written.
use crate::beside::{differ, Agreed};
use crate::damaged::some_board_under;
use crate::faults::Faulty;
use crate::lent::{Lent, Standing};
use crate::model::{Model, Release, Step};
use crate::words::{self, Words, CELL, CELLS, CONSOLE, CONSOLES, NODE, NODES};
use common::Chance;
use hatukeno::BOARD_WORDS;

/// The boards are fewer steps than this into a run.
const STEPS: u32 = 200;

/// How many flips made another well-formed board, how many one that is not well formed, and how many none.
#[derive(Default)]
pub struct Flips {
    well_formed: u64,
    ill_formed: u64,
    no_board: u64,
}

impl Flips {
    pub fn run(&mut self, n: u32, m: u32, release: Release, chance: &mut Chance, faulty: Faulty) -> Agreed {
        let words = some_board_under(n, m, release, STEPS, chance);
        let Some(model) = words::read(&words) else {
            return differ(&[format!("a run left words that are no board's: {words:?}")]);
        };
        for (word, bit) in (0..BOARD_WORDS).flat_map(|word| (0..u32::BITS).map(move |bit| (word, bit))) {
            let mut flipped = words;
            flipped[word] ^= 1 << bit;
            self.put(flipped, &steps_about(word, &model, chance), faulty)?;
        }
        Ok(())
    }

    /// The steps on the flipped words, each from there and as one list; and if the words are read as a board, they are
    /// to be those that it is written as, so that no bit of them goes unread.
    fn put(&mut self, flipped: Words, steps: &[Step], faulty: Faulty) -> Agreed {
        let lent = Lent::of(flipped, faulty);
        lent.each(steps)?;
        match lent.standing() {
            Standing::WellFormed => self.well_formed += 1,
            Standing::IllFormed => self.ill_formed += 1,
            Standing::NoBoard => self.no_board += 1,
        }
        lent.in_turn(steps)?;
        if words::read(&flipped).is_some_and(|board| words::write(&board) != flipped) {
            return differ(&[format!("the board that is read from these words is written otherwise: {flipped:?}")]);
        }
        Ok(())
    }

    pub fn print(&self) {
        println!(
            "every bit flipped, {} flips: {} made another well-formed board, answered as the model does\n  refused with 1: {} made one that is not well formed, {} words that no board is written as",
            self.well_formed + self.ill_formed + self.no_board,
            self.well_formed,
            self.ill_formed,
            self.no_board
        );
    }

    pub fn shows_all(&self) -> bool {
        ![self.well_formed, self.ill_formed, self.no_board].contains(&0)
    }
}

/// Every kind of step, with the console and the node that this word is about, if it is about any, and with a frame of
/// the board that was flipped, if it has one there; a delivery of any frame; and a restart of the console as it is and
/// once it is down.
fn steps_about(word: usize, board: &Model, chance: &mut Chance) -> [Step; 9] {
    let (console, node) = about(word);
    let frames = board.cells.keys().copied();
    let of_word = |(c, k): &(u32, u32)| console.is_none_or(|d| d == *c) && node.is_none_or(|j| j == *k);
    let none = (console.unwrap_or(0), node.unwrap_or(0));
    let (c, k) = chance.drawn(frames.clone().filter(of_word)).unwrap_or(none);
    let (d, j) = chance.drawn(frames).unwrap_or(none);
    [
        Step::BeginRead(c),
        Step::Deliver(c, k),
        Step::Deliver(d, j),
        Step::NodeDown(k),
        Step::NodeUp(k),
        Step::Restart(c),
        Step::ConsoleDown(c),
        Step::Restart(c),
        Step::BeginWrite(c, 7),
    ]
}

/// The console and the node of this word; a cell has both, and n, m, the release and the version have none.
fn about(word: usize) -> (Option<u32>, Option<u32>) {
    if word < NODES {
        (None, None)
    } else if word < CONSOLES {
        (None, Some(((word - NODES) / NODE) as u32))
    } else if word < CELLS {
        (Some(((word - CONSOLES) / CONSOLE) as u32), None)
    } else {
        let index = ((word - CELLS) / CELL) as u32;
        (Some(index / 5), Some(index % 5))
    }
}
