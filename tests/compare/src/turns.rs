//! Turns of the link beside the model: one on every fourth board, before a step is put to it, and runs of them in which the
//! state goes on from board to board.
use crate::beside::{both, gave_otherwise, made, Agreed};
use crate::faults::Faulty;
use crate::model::{Model, Release, Step, MAX_TS};
use crate::picker::{Next, Picker};
use crate::previews::pair;
use crate::words;
use common::Chance;
use hatukeno::{Board, Refusal};

/// What was seen of the runs.
#[derive(Default)]
pub struct Turns {
    pub frames: u64,
    pub tiles: u64,
    pub idle: u64,
    pub refused: u64,
    /// Turns in a state out of range for their board, and those of them whose state had come of a board of another size.
    pub out_of_range: u64,
    pub left_range: u64,
}

fn in_library(picker: Picker) -> hatukeno::Picker {
    hatukeno::Picker {
        place: picker.place,
        console: picker.last.0,
        node: picker.last.1,
    }
}

fn sent(next: Next) -> hatukeno::Next {
    match next {
        Next::Nothing => hatukeno::Next::Nothing,
        Next::Tile => hatukeno::Next::Tile,
        Next::Frame(console, node) => hatukeno::Next::Frame { console, node },
    }
}

/// The library's turn on the board is to give this, and leave this state.
fn expect(board: &Board, given: Picker, tile_waits: bool, (next, left): (Result<Next, u32>, Picker)) -> Agreed {
    let mut picker = in_library(given);
    let library = picker.turn(board, tile_waits);
    if library != next.map(sent).map_err(Refusal) || picker != in_library(left) {
        let what = format!("a turn, tile {tile_waits}, of {given:?}");
        return gave_otherwise(&what, board, (library, picker), (next, left));
    }
    Ok(())
}

/// The turn before this step, at one step of four: a tile waits or not, and the state is as if the step's pair had been picked
/// last, at one of six places, of which two are none of the four.
fn drawn(board: &Board, step: Step) -> Option<(Picker, bool)> {
    let last = pair(step);
    let mixed = board
        .words()
        .iter()
        .fold(last.0 ^ last.1, |sum, word| sum.wrapping_mul(31).wrapping_add(*word));
    let picker = Picker {
        place: (mixed >> 8) % 6,
        last,
    };
    (mixed % 4 == 0).then_some((picker, mixed & 16 == 0))
}

/// Before this step, on whatever board.
pub fn before(board: &Board, model: &Model, step: Step, faulty: Faulty) -> Agreed {
    drawn(board, step).map_or(Ok(()), |(picker, tile_waits)| {
        expect(board, picker, tile_waits, faulty.turn(model, picker, tile_waits))
    })
}

/// Of words that are no board's.
pub fn of_no_board(board: &Board, step: Step) -> Agreed {
    drawn(board, step).map_or(Ok(()), |(picker, tile_waits)| expect(board, picker, tile_waits, (Err(1), picker)))
}

/// The turns of a run.
const LENGTH: u32 = 1000;

/// The board with a tag that no board may have, so that it is not well formed.
fn broken(model: &Model) -> Model {
    let mut broken = model.clone();
    broken.nodes.get_mut(&0).expect("each board has node 0").tag.0 = MAX_TS + 1;
    broken
}

impl Turns {
    /// Turns in one state on a board of this size and on one of another, between which the link is switched now and then. A frame
    /// that is sent is delivered, and steps by chance come between.
    pub fn run(&mut self, n: u32, m: u32, release: Release, chance: &mut Chance, faulty: Faulty) -> Agreed {
        let mut boards = [made(n, m, release), made(6 - n, 9 - m, release)];
        let mut picker = Picker {
            place: chance.below(6),
            last: (chance.number(m), chance.number(n)),
        };
        for _ in 0..LENGTH {
            let switched = chance.one_in(20);
            if switched {
                boards.swap(0, 1);
            }
            let [(board, model), _] = &mut boards;
            if chance.one_in(2) {
                both(board, model, chance.step(model.n, model.m, true), faulty)?;
            }
            if chance.one_in(20) {
                let broken = broken(model);
                picker = self
                    .turn(&Board::from_words(words::write(&broken)), &broken, picker, chance, faulty)?
                    .1;
            }
            self.out_of_range += u64::from(!picker.is_in_range(model));
            self.left_range += u64::from(switched && !picker.is_in_range(model));
            let (next, left) = self.turn(board, model, picker, chance, faulty)?;
            if let Ok(Next::Frame(c, k)) = next {
                both(board, model, Step::Deliver(c, k), faulty)?;
            }
            picker = left;
        }
        Ok(())
    }

    fn turn(
        &mut self,
        board: &Board,
        model: &Model,
        picker: Picker,
        chance: &mut Chance,
        faulty: Faulty,
    ) -> Agreed<(Result<Next, u32>, Picker)> {
        let tile_waits = chance.one_in(2);
        let given = faulty.turn(model, picker, tile_waits);
        expect(board, picker, tile_waits, given)?;
        match given.0 {
            Ok(Next::Frame(..)) => self.frames += 1,
            Ok(Next::Tile) => self.tiles += 1,
            Ok(Next::Nothing) => self.idle += 1,
            Err(_) => self.refused += 1,
        }
        Ok(given)
    }

    pub fn print(&self) {
        let Turns {
            frames,
            tiles,
            idle,
            refused,
            ..
        } = self;
        println!(
            "and turns of the link: {frames} frames, {tiles} tiles, {idle} idle turns, {refused} refused\n  {} in a state out of range, {} of them by a board of another size",
            self.out_of_range, self.left_range
        );
    }

    pub fn shows_all(&self) -> bool {
        ![self.frames, self.tiles, self.idle, self.refused, self.out_of_range, self.left_range].contains(&0)
    }
}
