//! The steps but fresh, and the states of a console, each with its number in lines, lists and words.

#[derive(Clone, Copy, Debug, PartialEq, Eq)]
pub enum Step {
    BeginRead(u32),
    BeginWrite(u32, u32),
    Deliver(u32, u32),
    NodeDown(u32),
    ConsoleDown(u32),
    NodeUp(u32),
    Restart(u32),
}

impl Step {
    /// Its verb and its numbers, 0 for one that it has no use for.
    pub fn numbers(self) -> [u32; 3] {
        match self {
            Step::BeginRead(c) => [1, c, 0],
            Step::BeginWrite(c, v) => [2, c, v],
            Step::Deliver(c, k) => [3, c, k],
            Step::NodeDown(k) => [4, k, 0],
            Step::ConsoleDown(c) => [5, c, 0],
            Step::NodeUp(k) => [6, k, 0],
            Step::Restart(c) => [7, c, 0],
        }
    }
}

/// The step in a list for the library.
impl From<Step> for hatukeno::Step {
    fn from(step: Step) -> hatukeno::Step {
        match step {
            Step::BeginRead(console) => hatukeno::Step::BeginRead { console },
            Step::BeginWrite(console, value) => hatukeno::Step::BeginWrite { console, value },
            Step::Deliver(console, node) => hatukeno::Step::Deliver { console, node },
            Step::NodeDown(node) => hatukeno::Step::NodeDown { node },
            Step::ConsoleDown(console) => hatukeno::Step::ConsoleDown { console },
            Step::NodeUp(node) => hatukeno::Step::NodeUp { node },
            Step::Restart(console) => hatukeno::Step::Restart { console },
        }
    }
}

#[derive(Clone, Copy, Debug, PartialEq, Eq)]
pub enum Kind {
    Read,
    Write,
}

#[derive(Clone, Copy, Debug, PartialEq, Eq)]
pub enum State {
    Idle,
    Asking(Kind),
    Telling(Kind),
    Down,
}

impl State {
    pub fn word(self) -> u32 {
        match self {
            State::Idle => 0,
            State::Asking(Kind::Read) => 1,
            State::Asking(Kind::Write) => 2,
            State::Telling(Kind::Read) => 3,
            State::Telling(Kind::Write) => 4,
            State::Down => 5,
        }
    }

    /// None if no state has this number.
    pub fn of_word(word: u32) -> Option<State> {
        match word {
            0 => Some(State::Idle),
            1 => Some(State::Asking(Kind::Read)),
            2 => Some(State::Asking(Kind::Write)),
            3 => Some(State::Telling(Kind::Read)),
            4 => Some(State::Telling(Kind::Write)),
            5 => Some(State::Down),
            _ => None,
        }
    }
}
