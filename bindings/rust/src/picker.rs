//! The picker, which says what the link sends next where map tiles share it with the board.
use crate::{Board, Refusal, BOARD_WORDS};

/// The words of a turn: the picker's place, console and node, then what is sent by its number, the refusal, and the console and
/// node of its frame.
const TURN_WORDS: usize = 7;

// A lent slice is a pointer and a length. It returns 0, or 1 if `words` is too short, or 2 if `turn` is.
extern "C" {
    fn board_turn(words: *const u32, words_len: usize, turn: *mut u32, turn_len: usize, tile_waits: u32) -> u32;
}

/// What the link sends at a turn: nothing, a map tile, or the frame between a console and a node.
#[derive(Clone, Copy, Debug, PartialEq, Eq)]
pub enum Next {
    Nothing,
    Tile,
    Frame { console: u32, node: u32 },
}

/// The picker's state between turns: its place in the four, 0 to 3, and the pair last picked. It may be any state: one that is
/// out of range for the board's n and m counts as the start.
#[derive(Clone, Copy, Debug, PartialEq, Eq)]
pub struct Picker {
    pub place: u32,
    pub console: u32,
    pub node: u32,
}

impl Picker {
    /// A picker that has had no turn. On any board it is at the first place, and tries console 0 and node 0 first.
    pub const START: Picker = Picker {
        place: 0,
        console: u32::MAX,
        node: u32::MAX,
    };

    /// What the link sends next. In the first three turns of each four a frame that can be delivered without refusal goes, else
    /// a tile if one waits; in the fourth the tile comes first. Frames are tried by console, then node, from after the one
    /// last picked. The board is only read: a frame that is sent is to be delivered with [`Board::deliver`]. Of a board
    /// that is not well formed nothing is sent, with 1, and the picker stays as it is.
    pub fn turn(&mut self, board: &Board, tile_waits: bool) -> Result<Next, Refusal> {
        let mut turn = [self.place, self.console, self.node, 0, 0, 0, 0];
        let (w, t) = (board.words().as_ptr(), turn.as_mut_ptr());
        let short = unsafe { board_turn(w, BOARD_WORDS, t, TURN_WORDS, u32::from(tile_waits)) };
        assert_eq!(short, 0, "both arrays have the library's lengths");
        let [place, console, node, sent @ ..] = turn;
        *self = Picker { place, console, node };
        match sent {
            [0, 0, 0, 0] => Ok(Next::Nothing),
            [1, 0, 0, 0] => Ok(Next::Tile),
            [2, 0, console, node] => Ok(Next::Frame { console, node }),
            [0, refusal, 0, 0] => Err(Refusal(refusal)),
            _ => unreachable!("{turn:?} is no turn"),
        }
    }
}

impl Default for Picker {
    fn default() -> Picker {
        Picker::START
    }
}

#[cfg(test)]
mod tests {
    use super::*;

    /// A board of n nodes and m consoles that have all begun to read, so that each pair has a frame.
    fn full(n: u32, m: u32) -> Board {
        let mut board = Board::fresh(n, m).unwrap();
        for console in 0..m {
            board.begin_read(console).unwrap();
        }
        board
    }

    fn frame(console: u32, node: u32) -> Next {
        Next::Frame { console, node }
    }

    /// The state after the first pair was picked in the first turn.
    const FIRST_PICKED: Picker = Picker {
        place: 1,
        console: 0,
        node: 0,
    };

    /// What so many turns on a board send.
    fn sent(picker: &mut Picker, board: &Board, tile_waits: bool, turns: usize) -> Vec<Next> {
        (0..turns).map(|_| picker.turn(board, tile_waits).unwrap()).collect()
    }

    #[test]
    fn frames_go_in_their_order_and_a_tile_in_the_fourth_turn() {
        let mut picker = Picker::START;
        let three = |console| (0..3).map(move |node| frame(console, node));
        let mut frames: Vec<Next> = three(0).chain([Next::Tile]).chain(three(1)).collect();
        frames.extend([Next::Tile, frame(0, 0)]);
        assert_eq!(sent(&mut picker, &full(3, 2), true, 9), frames);
        assert_eq!(picker, FIRST_PICKED);
    }

    #[test]
    fn idle_turns_count_and_the_first_pair_is_still_tried_first() {
        let mut picker = Picker::default();
        assert_eq!(sent(&mut picker, &Board::fresh(3, 2).unwrap(), false, 3), [Next::Nothing; 3]);
        assert_eq!(sent(&mut picker, &full(3, 2), true, 2), [Next::Tile, frame(0, 0)]);
    }

    #[test]
    fn a_board_that_is_not_well_formed_leaves_the_picker() {
        let mut words = *full(3, 2).words();
        words[0] = 6;
        let given = Picker {
            place: 9,
            console: 8,
            node: 7,
        };
        let mut picker = given;
        assert_eq!(picker.turn(&Board::from_words(words), true), Err(Refusal(1)));
        assert_eq!(picker, given);
    }

    #[test]
    fn a_state_that_is_out_of_range_counts_as_the_start() {
        for (place, console, node) in [(4, 0, 0), (3, 2, 0), (3, 0, 3), (u32::MAX, u32::MAX, u32::MAX)] {
            let mut picker = Picker { place, console, node };
            assert_eq!(sent(&mut picker, &full(3, 2), true, 1), [frame(0, 0)]);
            assert_eq!(picker, FIRST_PICKED);
        }
    }

    #[test]
    fn short_memory_is_refused_and_nothing_is_written() {
        let words = *full(3, 2).words();
        let mut turn = [9; TURN_WORDS + 1];
        let (w, t) = (words.as_ptr(), turn.as_mut_ptr());
        assert_eq!(unsafe { board_turn(w, BOARD_WORDS - 1, t, TURN_WORDS, 1) }, 1);
        assert_eq!(unsafe { board_turn(w, BOARD_WORDS, t, TURN_WORDS - 1, 1) }, 2);
        assert_eq!(turn, [9; TURN_WORDS + 1]);
        assert_eq!(unsafe { board_turn(w, BOARD_WORDS, t, TURN_WORDS + 1, 1) }, 0);
        assert_eq!(turn, [1, 0, 0, 2, 0, 0, 0, 9]);
    }

    #[test]
    fn any_number_but_0_says_that_a_tile_waits() {
        let words = *Board::fresh(3, 2).unwrap().words();
        for (tile_waits, sent) in [(0, 0), (1, 1), (2, 1), (256, 1), (u32::MAX, 1)] {
            let mut turn = [0; TURN_WORDS];
            let (w, t) = (words.as_ptr(), turn.as_mut_ptr());
            assert_eq!(unsafe { board_turn(w, BOARD_WORDS, t, TURN_WORDS, tile_waits) }, 0);
            assert_eq!(turn, [1, 0, 0, sent, 0, 0, 0]);
        }
    }
}
