//! Where a board's parts stand in the library's words (crates/layout/specs/Layout.antt): n, m, the release and the
//! layout's version, then four words for a node (up, ts, owner, value), eight for a console (state, wanted, answered,
//! ts, owner, value, mark, its own life), four for a cell (frame, ts, owner, value). Standing.antt beside it says which
//! numbers can stand there.
use hatukeno::BOARD_WORDS;

pub type Words = [u32; BOARD_WORDS];

/// It is 1 or 2.
pub const RELEASE: usize = 2;
/// It is `hatukeno::LAYOUT`.
pub const VERSION: usize = 3;
/// Where the words of the nodes, the consoles and the cells begin, and how many each has.
pub const NODES: usize = 4;
pub const NODE: usize = 4;
pub const CONSOLES: usize = NODES + 5 * NODE;
pub const CONSOLE: usize = 8;
pub const CELLS: usize = CONSOLES + 8 * CONSOLE;
pub const CELL: usize = 4;
/// The owner of a tag is so many times its console, plus its life.
pub const LIVES: u32 = 65536;

pub fn node(k: u32) -> usize {
    NODES + NODE * k as usize
}

pub fn console(c: u32) -> usize {
    CONSOLES + CONSOLE * c as usize
}

/// The first word of a console's best tag.
pub fn best(c: u32) -> usize {
    console(c) + 3
}

/// The mark is 0 or 1.
pub fn mark(c: u32) -> usize {
    console(c) + 6
}

/// The console's own life is below LIVES.
pub fn life(c: u32) -> usize {
    console(c) + 7
}

pub fn cell(c: u32, k: u32) -> usize {
    CELLS + CELL * (c * 5 + k) as usize
}
