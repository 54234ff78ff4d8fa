//! The picker (Paper 9), written from the paper alone.
use crate::model::{Model, Step};

/// What the link sends.
#[derive(Clone, Copy, Debug, PartialEq, Eq)]
pub enum Next {
    Nothing,
    Tile,
    Frame(u32, u32),
}

/// The picker's place in the four, from 0, and the pair last picked.
#[derive(Clone, Copy, Debug, PartialEq, Eq)]
pub struct Picker {
    pub place: u32,
    pub last: (u32, u32),
}

impl Picker {
    /// It starts at the first turn with pair (0, 0) tried first, so that the last is the last of all.
    pub fn start(board: &Model) -> Picker {
        Picker {
            place: 0,
            last: (board.m - 1, board.n - 1),
        }
    }

    pub fn is_in_range(self, board: &Model) -> bool {
        self.place < 4 && pairs(board).any(|pair| pair == self.last)
    }

    /// A state out of range for this board's n and m counts as the start.
    pub fn counted(self, board: &Model) -> Picker {
        if self.is_in_range(board) {
            self
        } else {
            Picker::start(board)
        }
    }

    /// Board pairs are tried by console, then node, from after the pair last picked, wrapping.
    pub fn tried(self, board: &Model) -> Vec<(u32, u32)> {
        let (before, after): (Vec<_>, Vec<_>) = pairs(board).partition(|pair| *pair <= self.last);
        [after, before].concat()
    }

    /// The state after a turn that sent this, from a state in range. Idle turns are counted.
    pub fn after(self, next: Next) -> Picker {
        let last = match next {
            Next::Frame(c, k) => (c, k),
            Next::Tile | Next::Nothing => self.last,
        };
        Picker {
            place: (self.place + 1) % 4,
            last,
        }
    }

    /// What the link sends, or the refusal, and the state that is handed back.
    pub fn turn(self, board: &Model, tile_waits: bool) -> (Result<Next, u32>, Picker) {
        if !board.is_well_formed() {
            return (Err(1), self);
        }
        let state = self.counted(board);
        let found = state.tried(board).into_iter().find(|pair| can_go(board, *pair));
        let next = next(state.place == 3, found, tile_waits);
        (Ok(next), state.after(next))
    }
}

/// By console, then node.
pub fn pairs(board: &Model) -> impl Iterator<Item = (u32, u32)> {
    let (n, m) = (board.n, board.m);
    (0..m).flat_map(move |c| (0..n).map(move |k| (c, k)))
}

/// Whether the pair's frame can be delivered without refusal.
pub fn can_go(board: &Model, (c, k): (u32, u32)) -> bool {
    board.ask(Step::Deliver(c, k)).is_ok()
}

/// In the first three a board frame goes if there is one, else a tile if one waits; in the fourth the tile comes first. If
/// neither is there, the turn is idle.
pub fn next(is_fourth: bool, found: Option<(u32, u32)>, tile_waits: bool) -> Next {
    match found {
        Some((c, k)) if !(is_fourth && tile_waits) => Next::Frame(c, k),
        _ if tile_waits => Next::Tile,
        _ => Next::Nothing,
    }
}
