//! Boards with words out of place.
use crate::beside::{made, put, Agreed};
use crate::faults::Faulty;
use crate::lent::{Lent, Standing};
use crate::model::{Release, Step, MAX_LIFE, MAX_TS, RELEASES};
use crate::words::{Words, LIVES};
use common::Chance;
use hatukeno::BOARD_WORDS;

const LAST_TS: u32 = MAX_TS as u32;
const LAST_LIFE: u32 = MAX_LIFE as u32;

/// A board of either release some steps into a run, fewer than this many.
pub fn some_board(n: u32, m: u32, most: u32, chance: &mut Chance) -> Words {
    let release = RELEASES[chance.below(2) as usize];
    some_board_under(n, m, release, most, chance)
}

pub fn some_board_under(n: u32, m: u32, release: Release, most: u32, chance: &mut Chance) -> Words {
    let (mut board, _) = made(n, m, release);
    for _ in 0..chance.below(most) {
        let step = chance.step(n, m, true);
        let _ = put(&mut board, step);
    }
    *board.words()
}

/// Numbers on both sides of every edge of what is a board's, and a well-formed one's, on n nodes and m consoles: n and
/// m and what is beside them, releases, states, frames, small sets and what is beside all n nodes and beside all sets,
/// the last timestamp and what is beside it, lives and what is beside the last of them and beside all that words can
/// have, and owners with the last console and what is beside it.
fn edges(n: u32, m: u32) -> impl Iterator<Item = u32> {
    let far = [2u32.pow(n) - 1, 2u32.pow(n), 255, 256, LAST_TS - 1, LAST_TS, LAST_TS + 1, u32::MAX];
    let lives = [LAST_LIFE - 1, LAST_LIFE, LAST_LIFE + 1, LIVES - 1, LIVES, LIVES + 1];
    let last = LIVES * (m - 1);
    let owners = [last, last + LAST_LIFE, last + LAST_LIFE + 1, last + LIVES - 1, last + LIVES];
    (0..10).chain(far).chain(lives).chain(owners)
}

/// How many boards were not well formed, or none at all, how many of these had one word out of place, and how many were
/// well formed after all.
#[derive(Default)]
pub struct Damaged {
    pub ill: u64,
    pub by_one: u64,
    pub well: u64,
}

impl Damaged {
    /// Eight steps on a board of which so many words were set, each from there.
    fn put(&mut self, words: Words, set: u32, (n, m): (u32, u32), chance: &mut Chance, faulty: Faulty) -> Agreed {
        let lent = Lent::of(words, faulty);
        let steps = [
            Step::BeginRead(chance.number(m)),
            Step::BeginWrite(chance.number(m), 7),
            Step::Deliver(chance.number(m), chance.number(n)),
            Step::Deliver(chance.number(m), chance.number(n)),
            Step::NodeDown(chance.number(n)),
            Step::ConsoleDown(chance.number(m)),
            Step::NodeUp(chance.number(n)),
            Step::Restart(chance.number(m)),
        ];
        lent.each(&steps)?;
        if lent.standing() == Standing::WellFormed {
            self.well += 1;
        } else {
            self.ill += 1;
            self.by_one += u64::from(set == 1);
        }
        Ok(())
    }

    /// Every word of a board at every edge, one at a time.
    pub fn sweep(&mut self, n: u32, m: u32, chance: &mut Chance, faulty: Faulty) -> Agreed {
        let words = some_board(n, m, 30, chance);
        for i in 0..BOARD_WORDS {
            for number in edges(n, m) {
                let mut damaged = words;
                damaged[i] = number;
                self.put(damaged, 1, (n, m), chance, faulty)?;
            }
        }
        Ok(())
    }

    /// A board with one word out of place, one time in four more.
    pub fn draw(&mut self, chance: &mut Chance, faulty: Faulty) -> Agreed {
        let (n, m) = (1 + chance.below(5), 1 + chance.below(8));
        let mut words = some_board(n, m, 30, chance);
        let mut set = 0;
        loop {
            let i = chance.below(BOARD_WORDS as u32) as usize;
            words[i] = if chance.one_in(12) {
                chance.next() as u32
            } else {
                let edge = chance.below(edges(n, m).count() as u32);
                edges(n, m).nth(edge as usize).expect("an edge")
            };
            set += 1;
            if !chance.one_in(4) {
                break;
            }
        }
        self.put(words, set, (n, m), chance, faulty)
    }
}
