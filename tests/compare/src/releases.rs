//! The release in the words (Paper 4): boards on which a read lacks one reply, with the same tag as all before it, and
//! on which the release is changed and nothing else. The reply turns the read where the number is 1 and finishes it
//! where it is 2; where it is any other there is no such board, and every step is refused with 1.
use crate::beside::{differ, Agreed};
use crate::damaged::some_board;
use crate::faults::Faulty;
use crate::lent::Lent;
use crate::model::{Compared, Outcome, Release, Step};
use crate::words::{self, Words, RELEASE};
use common::Chance;

/// On each size boards are drawn, fewer than STEPS into a run, until there are OF_EACH; at most DRAWN, and if that does
/// not do it is a difference.
const STEPS: u32 = 300;
const OF_EACH: usize = 10;
const DRAWN: u32 = 10_000;

/// Among them those that are 2 in 8, 16 or 31 bits.
const NUMBERS: [u32; 11] = [0, 1, 2, 3, 4, 255, 256 + 2, 65_536 + 2, (1 << 31) + 2, u32::MAX - 1, u32::MAX];

/// How many boards were tried.
#[derive(Default)]
pub struct Releases {
    tried: usize,
}

impl Releases {
    pub fn draw(&mut self, n: u32, m: u32, chance: &mut Chance, faulty: Faulty) -> Agreed {
        let drawn = (0..DRAWN).map(|_| some_board(n, m, STEPS, chance));
        let boards = drawn.filter_map(|words| Some((words, last_alike_reply(&words)?)));
        let mut here = 0;
        for (words, (c, k)) in boards.take(OF_EACH) {
            try_board(words, c, k, faulty)?;
            here += 1;
        }
        if here < OF_EACH {
            return differ(&[format!("n = {n}, m = {m}: too few boards for the release, {here}")]);
        }
        self.tried += here;
        Ok(())
    }

    pub fn print(&self) {
        println!(
            "boards with only the release changed, to each of {} numbers: {}\n  a read turns by 1 and finishes early by 2, every other is refused with 1 and the board kept",
            NUMBERS.len(),
            self.tried
        );
    }
}

/// A console and a node whose reply would finish a read early under release 2.
fn last_alike_reply(words: &Words) -> Option<(u32, u32)> {
    let mut model = words::read(words)?;
    model.release = Release::Two;
    let mut pairs = (0..model.m).flat_map(|c| (0..model.n).map(move |k| (c, k)));
    pairs.find(|(c, k)| {
        let (answer, _) = model.step(Step::Deliver(*c, *k));
        matches!(answer.outcome, Ok(Outcome::Finished(..))) && answer.compared != Compared::None
    })
}

fn try_board(mut words: Words, c: u32, k: u32, faulty: Faulty) -> Agreed {
    for number in NUMBERS {
        words[RELEASE] = number;
        let mut lent = Lent::of(words, faulty);
        lent.each(&[Step::NodeDown(k), Step::NodeUp(k), Step::ConsoleDown(c), Step::Restart(c)])?;
        let answer = lent.both(Step::Deliver(c, k))?;
        let is_right = match (number, answer.outcome) {
            (1, outcome) => outcome == Ok(Outcome::Turned),
            (2, outcome) => matches!(outcome, Ok(Outcome::Finished(..))),
            (_, outcome) => outcome == Err(1) && *lent.words() == words,
        };
        if !is_right || lent.words()[RELEASE] != number {
            let words = lent.words();
            return differ(&[format!(
                "the release is {number}: the reply answered {answer:?}, the words are {words:?}"
            )]);
        }
    }
    Ok(())
}
