//! The board for Rust: safe functions over the proved library, which `rt lib` in crates/hatukeno writes for x86-64.
//!
//! Console 1 of 2 writes 7 on three nodes; nodes 0 and 2 are a majority, so the write finishes without node 1:
//!
//! ```
//! use hatukeno::{Board, Compared, Outcome, Refusal, Tag};
//!
//! let mut board = Board::fresh(3, 2)?;
//! board.begin_write(1, 7)?;
//! for node in [0, 2, 0] {
//!     board.deliver(1, node)?; // to the node
//!     board.deliver(1, node)?; // back to the console
//! }
//! board.deliver(1, 2)?;
//! let tag = Tag { ts: 1, console: 1, life: 0 };
//! assert_eq!(board.deliver(1, 2)?.outcome, Outcome::Finished { tag, value: 7 });
//!
//! // Console 0 asks node 0, whose reply carries a higher tag than the (0, 0) that the console began with.
//! board.begin_read(0)?;
//! board.deliver(0, 0)?;
//! assert_eq!(board.deliver(0, 0)?.compared, Compared::Higher);
//!
//! // There is no console 2, and a refused step leaves the board as it was.
//! let before = board.clone();
//! assert_eq!(board.begin_read(2), Err(Refusal(4)));
//! assert_eq!(board, before);
//! # Ok::<(), Refusal>(())
//! ```
//!
//! A whole list of steps is one call. Console 0 reads what was written, by nodes 1 and 2:
//!
//! ```
//! # use hatukeno::{Answer, Board, Compared, Outcome, Step, Tag};
//! let deliver = |console, node| Step::Deliver { console, node };
//! let mut steps = vec![Step::Fresh { n: 3, m: 2 }, Step::BeginWrite { console: 1, value: 7 }];
//! steps.extend([0, 0, 2, 2, 0, 0, 2, 2].map(|node| deliver(1, node)));
//! steps.push(Step::BeginRead { console: 0 });
//! steps.extend([1, 1, 2, 2, 1, 1, 2, 2].map(|node| deliver(0, node)));
//!
//! let mut board = Board::from_words([0; hatukeno::BOARD_WORDS]);
//! let answers = board.run(&steps);
//! let outcome = Outcome::Finished { tag: Tag { ts: 1, console: 1, life: 0 }, value: 7 };
//! assert_eq!(answers.last(), Some(&Ok(Answer { outcome, compared: Compared::None })));
//! ```
//!
//! Under release 2 a read of a quiet board takes one round, since the replies of a majority all carry the same tag:
//!
//! ```
//! # use hatukeno::{Board, Outcome, Refusal, Release, Tag};
//! let mut board = Board::fresh_under(3, 2, Release::Two)?;
//! board.begin_read(0)?;
//! for node in [0, 0, 2] {
//!     board.deliver(0, node)?;
//! }
//! let tag = Tag { ts: 0, console: 0, life: 0 };
//! assert_eq!(board.deliver(0, 2)?.outcome, Outcome::Finished { tag, value: 0 });
//! # Ok::<(), Refusal>(())
//! ```
//!
//! A console that is down can be restarted. Its life is then one higher, and the tags that it writes carry it:
//!
//! ```
//! # use hatukeno::{Board, Outcome, Refusal, Tag};
//! let mut board = Board::fresh(1, 1)?;
//! board.console_down(0)?;
//! board.restart(0)?;
//! board.begin_write(0, 7)?;
//! for _ in 0..3 {
//!     board.deliver(0, 0)?;
//! }
//! let tag = Tag { ts: 1, console: 0, life: 1 };
//! assert_eq!(board.deliver(0, 0)?.outcome, Outcome::Finished { tag, value: 7 });
//!
//! // It is up.
//! assert_eq!(board.restart(0), Err(Refusal(15)));
//! # Ok::<(), Refusal>(())
//! ```
//!
//! A delivery can be seen before it is made. A read of three nodes has three frames in flight; the ask is handed on, and
//! its reply, once it is heard, is gone:
//!
//! ```
//! # use hatukeno::{Board, Outcome, Preview, Refusal};
//! let mut board = Board::fresh(3, 2)?;
//! board.begin_read(0)?;
//! assert_eq!(board.preview(0, 1), Preview { outcome: Ok(Outcome::Handed), in_flight: 3 });
//! board.deliver(0, 1)?;
//! assert_eq!(board.preview(0, 1), Preview { outcome: Ok(Outcome::Heard), in_flight: 2 });
//! assert_eq!(board.preview(1, 0), Preview { outcome: Err(Refusal(8)), in_flight: 3 });
//! # Ok::<(), Refusal>(())
//! ```
//!
//! Where map tiles share the link, a picker says what it sends next. Console 0 reads and console 1 writes 7 while a tile
//! waits at every turn; the tiles take one turn in four, and both consoles finish:
//!
//! ```
//! # use hatukeno::{Board, Next, Outcome, Picker, Refusal};
//! let mut board = Board::fresh(3, 2)?;
//! board.begin_read(0)?;
//! board.begin_write(1, 7)?;
//! let mut picker = Picker::START;
//! let (mut tiles, mut finished) = (0, vec![]);
//! for _ in 0..28 {
//!     match picker.turn(&board, true)? {
//!         Next::Nothing => unreachable!("a tile waits"),
//!         Next::Tile => tiles += 1,
//!         Next::Frame { console, node } => {
//!             if let Outcome::Finished { value, .. } = board.deliver(console, node)?.outcome {
//!                 finished.push((console, value));
//!             }
//!         }
//!     }
//! }
//! assert_eq!((tiles, finished), (7, vec![(0, 0), (1, 7)]));
//! # Ok::<(), Refusal>(())
//! ```
//!
//! A shift's record can be checked. A read that began after a write of 7 had ended returned the value 0 from before it:
//!
//! ```
//! # use hatukeno::{check_shift, Fault, Kind, Record, Refusal, Rule, Tag};
//! let tag = Tag { ts: 1, console: 1, life: 0 };
//! let write = Record { console: 1, kind: Kind::Write, begin: 1, end: 9, tag, value: 7 };
//! let read = Record { console: 0, kind: Kind::Read, begin: 10, end: 18, tag, value: 7 };
//! assert_eq!(check_shift(&[write, read])?, None);
//!
//! let old = Record { tag: Tag { ts: 0, console: 0, life: 0 }, value: 0, ..read };
//! let fault = Fault { record: 1, rule: Rule::TagTooLow, other: Some(0) };
//! assert_eq!(check_shift(&[write, old])?, Some(fault));
//! # Ok::<(), Refusal>(())
//! ```

mod picker;
mod shift;

pub use picker::{Next, Picker};
pub use shift::{check_shift, Fault, Kind, Record, Rule};

use std::error::Error;
use std::fmt::{self, Display, Formatter};

/// The words of a board (see [`Board::from_words`]).
pub const BOARD_WORDS: usize = 4 + 5 * 4 + 8 * 8 + 40 * 4;

/// The version of the layout of these words; it stands among them.
pub const LAYOUT: u32 = 2;

/// The words of an answer: the outcome's number, the refusal, the tag's ts and console, the value, the comparison's
/// number (in a preview the frames in flight), the tag's life.
const ANSWER_WORDS: usize = 7;

/// The words of a step in a list: its number and its two numbers.
const STEP_WORDS: usize = 3;

/// The number of the question that refused a step; its `Display` says what the answer to the question was.
#[derive(Clone, Copy, Debug, PartialEq, Eq)]
pub struct Refusal(pub u32);

impl Display for Refusal {
    fn fmt(&self, f: &mut Formatter) -> fmt::Result {
        let why = match self.0 {
            1 => "the board is not well formed",
            2 => "n is not from 1 to 5",
            3 => "m is not from 1 to 8",
            4 => "there is no such console",
            5 => "there is no such node",
            6 => "the console is down",
            7 => "the console is not idle",
            8 => "there is no frame between console and node",
            9 => "the node is down",
            10 => "there is no higher timestamp for the write",
            12 => "there is no such step",
            14 => "the node is up",
            15 => "the console is up",
            16 => "the console has no life left",
            17 => "there are more than 256 records",
            18 => "a record is not sound",
            _ => "for a reason of no known number",
        };
        write!(f, "refused with {}: {why}", self.0)
    }
}

impl Error for Refusal {}

/// The release that a board is made under and keeps. Release 2 differs in reads alone (see [`Board::deliver`]).
#[derive(Clone, Copy, Debug, PartialEq, Eq)]
pub enum Release {
    One,
    Two,
}

/// A timestamp, the number of the console that chose it, and the life, from 0 to 1,000, that the console then had. Tags
/// go by the timestamp, then by the console, then by the life.
#[derive(Clone, Copy, Debug, PartialEq, Eq, Hash)]
#[repr(C)]
pub struct Tag {
    pub ts: u32,
    pub console: u32,
    pub life: u32,
}

/// What an accepted step did.
#[derive(Clone, Copy, Debug, PartialEq, Eq)]
pub enum Outcome {
    Done,
    Handed,
    Heard,
    Turned,
    /// The last ack finishes an operation; under release 2 the last reply may finish a read (see [`Board::deliver`]).
    Finished {
        tag: Tag,
        value: u32,
    },
    /// The cell empties and nothing else changes: a reply or an ack that no console waits for, or any frame of a console that is
    /// down.
    Discarded,
}

/// How the tag of a reply that was taken in compares with the best the console had before, (0, 0) for the first reply of an
/// asking; `None` for a step that takes no reply in.
#[derive(Clone, Copy, Debug, PartialEq, Eq)]
pub enum Compared {
    None,
    Lower,
    Same,
    Higher,
}

/// What an accepted step answers. A read that a reply finishes, under release 2, says with its outcome how that reply compared.
#[derive(Clone, Copy, Debug, PartialEq, Eq)]
pub struct Answer {
    pub outcome: Outcome,
    pub compared: Compared,
}

/// What a delivery would do (see [`Board::preview`]).
#[derive(Clone, Copy, Debug, PartialEq, Eq)]
pub struct Preview {
    /// Its outcome, with the tag and the value of an operation that it would finish; or the question that would refuse
    /// it.
    pub outcome: Result<Outcome, Refusal>,
    /// The frames in flight after it: all cells that hold a frame then, whoever it is for. Under a refusal those that
    /// hold one now, but none under refusal 1.
    pub in_flight: u32,
}

/// A step of a list. A fresh makes a board under release 1, on a board of release 2 too.
#[derive(Clone, Copy, Debug, PartialEq, Eq)]
pub enum Step {
    Fresh { n: u32, m: u32 },
    BeginRead { console: u32 },
    BeginWrite { console: u32, value: u32 },
    Deliver { console: u32, node: u32 },
    NodeDown { node: u32 },
    ConsoleDown { console: u32 },
    NodeUp { node: u32 },
    Restart { console: u32 },
}

impl Step {
    fn words(self) -> [u32; STEP_WORDS] {
        match self {
            Step::Fresh { n, m } => [0, n, m],
            Step::BeginRead { console } => [1, console, 0],
            Step::BeginWrite { console, value } => [2, console, value],
            Step::Deliver { console, node } => [3, console, node],
            Step::NodeDown { node } => [4, node, 0],
            Step::ConsoleDown { console } => [5, console, 0],
            Step::NodeUp { node } => [6, node, 0],
            Step::Restart { console } => [7, console, 0],
        }
    }
}

/// A board. Each step changes it if it is accepted, and leaves it as it was if it is refused. Boards are equal if their words
/// are.
#[derive(Clone, Debug, PartialEq, Eq)]
pub struct Board {
    words: [u32; BOARD_WORDS],
}

// A lent slice is a pointer and a length. Each call returns 0, or 1 if `words` is too short, or 2 if `said` is, or 3 if the
// words of a list are not three for each step.
extern "C" {
    fn board_fresh(words: *mut u32, words_len: usize, said: *mut u32, said_len: usize, n: u32, m: u32) -> u32;
    fn board_fresh_release_2(words: *mut u32, words_len: usize, said: *mut u32, said_len: usize, n: u32, m: u32) -> u32;
    fn board_begin_read(words: *mut u32, words_len: usize, said: *mut u32, said_len: usize, console: u32) -> u32;
    fn board_begin_write(words: *mut u32, words_len: usize, said: *mut u32, said_len: usize, console: u32, value: u32) -> u32;
    fn board_deliver(words: *mut u32, words_len: usize, said: *mut u32, said_len: usize, console: u32, node: u32) -> u32;
    fn board_node_down(words: *mut u32, words_len: usize, said: *mut u32, said_len: usize, node: u32) -> u32;
    fn board_console_down(words: *mut u32, words_len: usize, said: *mut u32, said_len: usize, console: u32) -> u32;
    fn board_node_up(words: *mut u32, words_len: usize, said: *mut u32, said_len: usize, node: u32) -> u32;
    fn board_restart(words: *mut u32, words_len: usize, said: *mut u32, said_len: usize, console: u32) -> u32;
    fn board_preview(words: *const u32, words_len: usize, said: *mut u32, said_len: usize, console: u32, node: u32) -> u32;
    fn board_run(words: *mut u32, words_len: usize, steps: *const u32, steps_len: usize, said: *mut u32, said_len: usize) -> u32;
}

impl Board {
    /// The fresh board of n nodes (1 to 5) and m consoles (1 to 8), under release 1.
    pub fn fresh(n: u32, m: u32) -> Result<Board, Refusal> {
        Board::fresh_under(n, m, Release::One)
    }

    /// The fresh board of n nodes (1 to 5) and m consoles (1 to 8), under the release, which it keeps.
    pub fn fresh_under(n: u32, m: u32, release: Release) -> Result<Board, Refusal> {
        let make = match release {
            Release::One => board_fresh,
            Release::Two => board_fresh_release_2,
        };
        let mut board = Board { words: [0; BOARD_WORDS] };
        board.call(|w, wl, s, sl| unsafe { make(w, wl, s, sl, n, m) })?;
        Ok(board)
    }

    /// The console begins a read: it asks all nodes.
    pub fn begin_read(&mut self, console: u32) -> Result<Answer, Refusal> {
        self.call(|w, wl, s, sl| unsafe { board_begin_read(w, wl, s, sl, console) })
    }

    /// The console begins a write of the value: it asks all nodes.
    pub fn begin_write(&mut self, console: u32, value: u32) -> Result<Answer, Refusal> {
        self.call(|w, wl, s, sl| unsafe { board_begin_write(w, wl, s, sl, console, value) })
    }

    /// The frame between the console and the node is delivered. Under release 2 a read whose q replies (those of a majority) all
    /// carry the same tag finishes at that delivery, without telling; its other cells stay as they are. A frame of a console that is
    /// down is discarded, whether the node is up or down: the node takes no put of such a console.
    pub fn deliver(&mut self, console: u32, node: u32) -> Result<Answer, Refusal> {
        self.call(|w, wl, s, sl| unsafe { board_deliver(w, wl, s, sl, console, node) })
    }

    /// The node goes down: it keeps its tag and value, and frames for it wait, except those of a console that is down.
    pub fn node_down(&mut self, node: u32) -> Result<Answer, Refusal> {
        self.call(|w, wl, s, sl| unsafe { board_node_down(w, wl, s, sl, node) })
    }

    /// The console goes down, and its operation is gone. Its frames stay in their cells until it is restarted; one that
    /// is delivered before is discarded.
    pub fn console_down(&mut self, console: u32) -> Result<Answer, Refusal> {
        self.call(|w, wl, s, sl| unsafe { board_console_down(w, wl, s, sl, console) })
    }

    /// The node comes back with the tag and value that it held, and frames for it can be delivered again.
    pub fn node_up(&mut self, node: u32) -> Result<Answer, Refusal> {
        self.call(|w, wl, s, sl| unsafe { board_node_up(w, wl, s, sl, node) })
    }

    /// The console, which was down, is idle again, with its life one higher, and its cells are empty. It is refused
    /// with 15 if the console is up, and with 16 if its life is 1,000 already.
    pub fn restart(&mut self, console: u32) -> Result<Answer, Refusal> {
        self.call(|w, wl, s, sl| unsafe { board_restart(w, wl, s, sl, console) })
    }

    /// What delivering the frame between the console and the node would do: what it would answer, and how many frames
    /// would be in flight after it. The board stays as it is.
    pub fn preview(&self, console: u32, node: u32) -> Preview {
        let mut said = [0; ANSWER_WORDS];
        let (w, s) = (self.words.as_ptr(), said.as_mut_ptr());
        let short = unsafe { board_preview(w, BOARD_WORDS, s, ANSWER_WORDS, console, node) };
        assert_eq!(short, 0, "both arrays have the library's lengths");
        // Where an answer has the comparison.
        let in_flight = std::mem::take(&mut said[5]);
        Preview {
            outcome: answer(&said).map(|answer| answer.outcome),
            in_flight,
        }
    }

    /// Puts the steps to the board, one after the other, and gives what each answered. A refused step leaves the board as it
    /// was, a refused fresh too, and the list goes on.
    pub fn run(&mut self, steps: &[Step]) -> Vec<Result<Answer, Refusal>> {
        let list: Vec<u32> = steps.iter().flat_map(|step| step.words()).collect();
        let mut said = vec![0; steps.len() * ANSWER_WORDS];
        let (w, s) = (self.words.as_mut_ptr(), said.as_mut_ptr());
        let short = unsafe { board_run(w, BOARD_WORDS, list.as_ptr(), list.len(), s, said.len()) };
        assert_eq!(short, 0, "the lengths fit");
        said.chunks_exact(ANSWER_WORDS).map(answer).collect()
    }

    /// The board that these words are. Any words whatever may be given: if no board is written as they are, or it is
    /// not well formed, every step but a fresh refuses it with 1, and it stays as it is. So a flipped bit is refused
    /// unless it makes the words of another well-formed board.
    ///
    /// - words 0, 1 and 2: n, m and the release, 1 or 2
    /// - word 3: the version of this layout, [`LAYOUT`]
    /// - from 4 on, four for each of 5 nodes: up (1; 0 is down), ts, owner, value
    /// - from 24 on, eight for each of 8 consoles: state (0 idle, 1 asking to read, 2 asking to write, 3 telling to
    ///   read, 4 telling to write, 5 down), wanted value, answered set (bit k is node k), best ts, best owner, best
    ///   value, the mark 'all alike so far' (0 or 1; it is on from the first answer of an asking while every answer has
    ///   carried one tag), the console's own life
    /// - from 88 on, four for each of 40 cells, at console times 5 plus node: frame (0 nothing, 1 ask, 2 reply, 3 put,
    ///   4 ack), ts, owner, value; the last three are 0 but for a reply and a put
    ///
    /// The owner of a tag is its console times 65536 plus its life.
    ///
    /// Any other number in the place of a release, the version, an up, a state, a mark or a frame, a set above 255, a
    /// console's own life above 65535, and anything but 0 beside a frame without a tag make them no board's.
    pub fn from_words(words: [u32; BOARD_WORDS]) -> Board {
        Board { words }
    }

    pub fn words(&self) -> &[u32; BOARD_WORDS] {
        &self.words
    }

    fn call(&mut self, step: impl FnOnce(*mut u32, usize, *mut u32, usize) -> u32) -> Result<Answer, Refusal> {
        let mut said = [0; ANSWER_WORDS];
        let short = step(self.words.as_mut_ptr(), BOARD_WORDS, said.as_mut_ptr(), ANSWER_WORDS);
        assert_eq!(short, 0, "both arrays have the library's lengths");
        answer(&said)
    }
}

fn answer(said: &[u32]) -> Result<Answer, Refusal> {
    let outcome = match *said {
        [0, refusal, 0, 0, 0, 0, 0] => return Err(Refusal(refusal)),
        [1, 0, 0, 0, 0, 0, 0] => Outcome::Done,
        [2, 0, 0, 0, 0, 0, 0] => Outcome::Handed,
        [3, 0, 0, 0, 0, _, 0] => Outcome::Heard,
        [4, 0, 0, 0, 0, _, 0] => Outcome::Turned,
        [5, 0, ts, console, value, _, life] => Outcome::Finished {
            tag: Tag { ts, console, life },
            value,
        },
        [6, 0, 0, 0, 0, 0, 0] => Outcome::Discarded,
        _ => unreachable!("{said:?} is no answer"),
    };
    let compared = match said[5] {
        0 => Compared::None,
        1 => Compared::Lower,
        2 => Compared::Same,
        3 => Compared::Higher,
        _ => unreachable!("{said:?} is no answer"),
    };
    Ok(Answer { outcome, compared })
}

#[cfg(test)]
mod tests {
    use super::*;

    // Where the release, the layout's version and the first node, console and cell stand in the words, and the last two
    // words of a console.
    const RELEASE: usize = 2;
    const VERSION: usize = 3;
    const NODES: usize = 4;
    const CONSOLES: usize = 24;
    const CONSOLE: usize = 8;
    const MARK: usize = 6;
    const LIFE: usize = 7;
    const CELLS: usize = 88;

    /// The words of a board in version 1 of the layout, which has no lives.
    const VERSION_1_WORDS: usize = 239;

    const DONE: Answer = Answer {
        outcome: Outcome::Done,
        compared: Compared::None,
    };

    const FINISHED_EARLY: Answer = Answer {
        outcome: Outcome::Finished {
            tag: Tag {
                ts: 0,
                console: 0,
                life: 0,
            },
            value: 0,
        },
        compared: Compared::Same,
    };

    /// Finished with the tag of console 0's first write, of 7, in this life.
    fn finished_7(life: u32, compared: Compared) -> Answer {
        let (ts, console) = (1, 0);
        let tag = Tag { ts, console, life };
        Answer {
            outcome: Outcome::Finished { tag, value: 7 },
            compared,
        }
    }

    const DISCARDED: Answer = Answer {
        outcome: Outcome::Discarded,
        compared: Compared::None,
    };

    const TURNED: Answer = Answer {
        outcome: Outcome::Turned,
        compared: Compared::Same,
    };

    /// Delivers between the console and each of the nodes, one after the other, and gives the last answer.
    fn deliver_all(board: &mut Board, console: u32, nodes: &[u32]) -> Answer {
        let answers = nodes.iter().map(|&node| board.deliver(console, node).unwrap());
        answers.last().unwrap()
    }

    /// Console 0 of a fresh board reads by nodes 0 and 2: the answer to the second reply.
    fn quiet_read(board: &mut Board) -> Answer {
        board.begin_read(0).unwrap();
        deliver_all(board, 0, &[0, 0, 2, 2])
    }

    #[test]
    fn short_memory_is_refused_by_a_preview_too() {
        let words = [0; BOARD_WORDS];
        let mut said = [9; ANSWER_WORDS + 1];
        let (w, s) = (words.as_ptr(), said.as_mut_ptr());
        assert_eq!(unsafe { board_preview(w, BOARD_WORDS - 1, s, ANSWER_WORDS, 0, 0) }, 1);
        assert_eq!(unsafe { board_preview(w, BOARD_WORDS, s, ANSWER_WORDS - 1, 0, 0) }, 2);
        assert_eq!(said, [9; ANSWER_WORDS + 1]);
        assert_eq!(unsafe { board_preview(w, BOARD_WORDS, s, ANSWER_WORDS + 1, 0, 0) }, 0);
        assert_eq!(said, [0, 1, 0, 0, 0, 0, 0, 9]);
    }

    #[test]
    fn short_memory_is_refused_and_nothing_is_written() {
        let mut words = [9; BOARD_WORDS];
        let mut said = [9; ANSWER_WORDS];
        let w = words.as_mut_ptr();
        let s = said.as_mut_ptr();
        assert_eq!(unsafe { board_fresh(w, BOARD_WORDS - 1, s, ANSWER_WORDS, 3, 2) }, 1);
        assert_eq!(unsafe { board_fresh(w, BOARD_WORDS, s, ANSWER_WORDS - 1, 3, 2) }, 2);
        assert_eq!(unsafe { board_fresh_release_2(w, BOARD_WORDS - 1, s, ANSWER_WORDS, 3, 2) }, 1);
        assert_eq!(unsafe { board_fresh_release_2(w, BOARD_WORDS, s, ANSWER_WORDS - 1, 3, 2) }, 2);
        assert_eq!(unsafe { board_deliver(w, 0, s, 0, 0, 0) }, 1);
        assert_eq!(unsafe { board_restart(w, BOARD_WORDS - 1, s, ANSWER_WORDS, 0) }, 1);
        assert_eq!(unsafe { board_restart(w, BOARD_WORDS, s, ANSWER_WORDS - 1, 0) }, 2);
        assert_eq!(words, [9; BOARD_WORDS]);
        assert_eq!(said, [9; ANSWER_WORDS]);
    }

    #[test]
    fn memory_of_version_1_is_refused_by_every_call_and_nothing_is_written() {
        let mut words = [9; VERSION_1_WORDS];
        let mut said = [9; ANSWER_WORDS];
        let list = [0, 3, 2];
        let (w, wl, s, sl) = (words.as_mut_ptr(), VERSION_1_WORDS, said.as_mut_ptr(), ANSWER_WORDS);
        let returned = unsafe {
            [
                board_fresh(w, wl, s, sl, 3, 2),
                board_fresh_release_2(w, wl, s, sl, 3, 2),
                board_begin_read(w, wl, s, sl, 0),
                board_begin_write(w, wl, s, sl, 0, 7),
                board_deliver(w, wl, s, sl, 0, 0),
                board_node_down(w, wl, s, sl, 0),
                board_console_down(w, wl, s, sl, 0),
                board_node_up(w, wl, s, sl, 0),
                board_restart(w, wl, s, sl, 0),
                board_run(w, wl, list.as_ptr(), list.len(), s, sl),
            ]
        };
        assert_eq!(returned, [1; 10]);
        assert_eq!(words, [9; VERSION_1_WORDS]);
        assert_eq!(said, [9; ANSWER_WORDS]);
    }

    #[test]
    fn words_of_another_layout_are_refused_and_kept() {
        let fresh = *Board::fresh(3, 2).unwrap().words();
        assert_eq!(fresh[VERSION], LAYOUT);
        for version in [0, 1, 3, 2 + 256, 2 + 65536, u32::MAX] {
            let mut words = fresh;
            words[VERSION] = version;
            let mut board = Board::from_words(words);
            assert_eq!(board.begin_read(0), Err(Refusal(1)));
            assert_eq!(board.begin_write(0, 7), Err(Refusal(1)));
            assert_eq!(board.deliver(0, 0), Err(Refusal(1)));
            assert_eq!(board.node_down(0), Err(Refusal(1)));
            assert_eq!(board.console_down(0), Err(Refusal(1)));
            assert_eq!(board.node_up(0), Err(Refusal(1)));
            assert_eq!(board.restart(0), Err(Refusal(1)));
            assert_eq!(board.run(&[Step::Restart { console: 0 }]), [Err(Refusal(1))]);
            assert_eq!(board.words(), &words);
            assert_eq!(board.run(&[Step::Fresh { n: 3, m: 2 }]), [Ok(DONE)]);
            assert_eq!(board.words(), &fresh);
        }
    }

    #[test]
    fn a_refused_fresh_leaves_the_lent_board() {
        let mut words = [9; BOARD_WORDS];
        let mut said = [9; ANSWER_WORDS];
        let (w, s) = (words.as_mut_ptr(), said.as_mut_ptr());
        assert_eq!(unsafe { board_fresh(w, BOARD_WORDS, s, ANSWER_WORDS, 6, 2) }, 0);
        assert_eq!(words, [9; BOARD_WORDS]);
        assert_eq!(said, [0, 2, 0, 0, 0, 0, 0]);
        assert_eq!(Board::fresh(6, 2).unwrap_err().to_string(), "refused with 2: n is not from 1 to 5");
    }

    #[test]
    fn a_damaged_board_is_refused_and_kept() {
        let mut words = *Board::fresh(3, 2).unwrap().words();
        words[NODES + 1] = 4_000_000_001; // the ts of node 0
        let mut board = Board::from_words(words);
        assert_eq!(board.deliver(0, 0), Err(Refusal(1)));
        assert_eq!(board.node_down(0), Err(Refusal(1)));
        assert_eq!(board.node_up(0), Err(Refusal(1)));
        assert_eq!(board.words(), &words);
    }

    #[test]
    fn a_mark_that_is_on_at_an_idle_console_is_refused_and_kept() {
        let mut words = *Board::fresh(3, 2).unwrap().words();
        words[CONSOLES + MARK] = 1;
        let mut board = Board::from_words(words);
        assert_eq!(board.begin_read(1), Err(Refusal(1)));
        assert_eq!(board.words(), &words);
    }

    #[test]
    fn machines_go_down_once() {
        let mut board = Board::fresh(1, 1).unwrap();
        assert_eq!(board.node_down(0), Ok(DONE));
        assert_eq!(board.node_down(0), Err(Refusal(9)));
        assert_eq!(board.console_down(0), Ok(DONE));
        assert_eq!(board.console_down(0), Err(Refusal(6)));
        assert_eq!(board.begin_read(0), Err(Refusal(6)));
    }

    #[test]
    fn a_restarted_console_is_idle_with_a_life_more_and_its_cells_are_empty() {
        let fresh = Board::fresh(3, 2).unwrap();
        let mut board = fresh.clone();
        board.begin_write(1, 7).unwrap();
        deliver_all(&mut board, 1, &[0]);
        board.console_down(1).unwrap();
        assert_eq!(board.restart(1), Ok(DONE));
        let mut words = fresh.words;
        words[CONSOLES + CONSOLE + LIFE] = 1;
        assert_eq!(board.words, words);
        assert_eq!(board.deliver(1, 0), Err(Refusal(8)));
    }

    #[test]
    fn a_console_that_is_up_is_not_restarted() {
        let mut board = Board::fresh(3, 2).unwrap();
        assert_eq!(board.restart(0), Err(Refusal(15)));
        board.begin_read(0).unwrap();
        let before = board.clone();
        assert_eq!(board.restart(0), Err(Refusal(15)));
        assert_eq!(board.restart(2), Err(Refusal(4)));
        assert_eq!(board.run(&[Step::Restart { console: 0 }]), [Err(Refusal(15))]);
        assert_eq!(board, before);
        assert_eq!(Refusal(15).to_string(), "refused with 15: the console is up");
    }

    #[test]
    fn the_last_life_is_1000() {
        let mut words = *Board::fresh(1, 1).unwrap().words();
        words[CONSOLES + LIFE] = 999;
        let mut board = Board::from_words(words);
        let again = [Step::ConsoleDown { console: 0 }, Step::Restart { console: 0 }];
        assert_eq!(board.run(&again), [Ok(DONE), Ok(DONE)]);
        board.begin_write(0, 7).unwrap();
        assert_eq!(deliver_all(&mut board, 0, &[0, 0, 0, 0]), finished_7(1000, Compared::None));
        assert_eq!(board.words()[NODES + 2], 1000);
        // It is up: 15 is asked before 16.
        assert_eq!(board.restart(0), Err(Refusal(15)));
        assert_eq!(board.run(&again), [Ok(DONE), Err(Refusal(16))]);
        assert_eq!(Refusal(16).to_string(), "refused with 16: the console has no life left");
    }

    #[test]
    fn two_writes_of_one_console_have_tags_that_differ_in_the_life() {
        let mut board = Board::fresh(3, 2).unwrap();
        board.begin_write(0, 7).unwrap();
        // It turns, and its put lands at node 0 alone.
        deliver_all(&mut board, 0, &[0, 0, 2, 2, 0]);
        board.console_down(0).unwrap();
        board.restart(0).unwrap();
        board.begin_write(0, 8).unwrap();
        deliver_all(&mut board, 0, &[1, 1, 2, 2, 0]);
        // Node 0 held (1, 0) of life 0, and takes (1, 0) of life 1.
        assert_eq!(board.words()[NODES..NODES + 4], [1, 1, 1, 8]);
    }

    #[test]
    fn a_board_with_a_life_out_of_place_is_refused_and_kept() {
        let wrong = [
            (NODES + 2, 1),                     // a life of the tag with ts 0
            (NODES + 2, 65536),                 // a console of the tag with ts 0
            (CONSOLES + LIFE, 1001),            // above the last
            (CONSOLES + 2 * CONSOLE + LIFE, 1), // of a console beyond m
            (CONSOLES + 4, 1),                  // of an idle console's best
        ];
        for (place, number) in wrong {
            let mut words = *Board::fresh(3, 2).unwrap().words();
            words[place] = number;
            let mut board = Board::from_words(words);
            assert_eq!(board.begin_read(0), Err(Refusal(1)));
            assert_eq!(board.restart(0), Err(Refusal(1)));
            assert_eq!(board.words(), &words);
        }
        let owners = [
            (65536 + 1000, Ok(DONE)),
            (65536 + 1001, Err(Refusal(1))),
            (2 * 65536, Err(Refusal(1))), // there is no console 2
        ];
        for (owner, said) in owners {
            let mut words = *Board::fresh(3, 2).unwrap().words();
            (words[NODES + 1], words[NODES + 2]) = (1, owner);
            assert_eq!(Board::from_words(words).begin_read(0), said);
        }
    }

    /// What a delivery did on a copy, and the cells that hold a frame there.
    fn on_a_copy(board: &Board, console: u32, node: u32) -> Preview {
        let mut copy = board.clone();
        let outcome = copy.deliver(console, node).map(|answer| answer.outcome);
        let frames = copy.words[CELLS..].iter().step_by(4).filter(|&&frame| frame != 0).count();
        Preview {
            outcome,
            in_flight: frames as u32,
        }
    }

    /// After each of the steps, between each console and each node and the ones beside the last.
    fn previews_are_what_copies_do(mut board: Board, steps: &[Step]) {
        for step in steps {
            board.run(&[*step])[0].unwrap();
            let (n, m) = (board.words[0], board.words[1]);
            for (console, node) in (0..=m).flat_map(|c| (0..=n).map(move |k| (c, k))) {
                assert_eq!(board.preview(console, node), on_a_copy(&board, console, node));
            }
        }
    }

    /// The console's frame to each of the nodes, one after the other.
    fn deliveries(console: u32, nodes: &[u32]) -> impl Iterator<Item = Step> + '_ {
        nodes.iter().map(move |&node| Step::Deliver { console, node })
    }

    #[test]
    fn a_preview_is_what_delivering_on_a_copy_does() {
        let mut steps = vec![Step::BeginRead { console: 0 }, Step::BeginWrite { console: 1, value: 7 }];
        steps.extend(deliveries(1, &[0, 0, 2, 2, 0, 0, 2, 2, 1]));
        steps.extend([Step::NodeDown { node: 1 }, Step::ConsoleDown { console: 0 }]);
        previews_are_what_copies_do(Board::fresh(3, 2).unwrap(), &steps);

        let mut steps = vec![Step::ConsoleDown { console: 1 }, Step::Restart { console: 1 }];
        steps.push(Step::BeginWrite { console: 1, value: 70000 });
        steps.extend(deliveries(1, &[0, 0, 1, 1, 0, 0, 1, 1]));
        steps.push(Step::BeginRead { console: 2 });
        steps.extend(deliveries(2, &[0, 0, 1, 1]));
        previews_are_what_copies_do(Board::fresh_under(2, 3, Release::Two).unwrap(), &steps);
    }

    #[test]
    fn a_preview_counts_the_frames_after_the_delivery() {
        let mut board = Board::fresh(3, 2).unwrap();
        let foresee = |board: &Board, node, outcome, in_flight| {
            let before = board.clone();
            assert_eq!(board.preview(1, node), Preview { outcome, in_flight });
            assert_eq!(*board, before);
        };
        foresee(&board, 0, Err(Refusal(8)), 0);
        board.begin_write(1, 7).unwrap();
        board.begin_read(0).unwrap();
        foresee(&board, 0, Ok(Outcome::Handed), 6);
        foresee(&board, 3, Err(Refusal(5)), 6);
        deliver_all(&mut board, 1, &[0]);
        foresee(&board, 0, Ok(Outcome::Heard), 5);
        deliver_all(&mut board, 1, &[0, 2]);
        foresee(&board, 0, Err(Refusal(8)), 5);
        foresee(&board, 2, Ok(Outcome::Turned), 6);
        deliver_all(&mut board, 1, &[2, 0, 0, 2]);
        let tag = Tag {
            ts: 1,
            console: 1,
            life: 0,
        };
        foresee(&board, 2, Ok(Outcome::Finished { tag, value: 7 }), 4);
    }

    #[test]
    fn a_preview_of_a_damaged_board_counts_nothing() {
        let mut words = *Board::fresh(3, 2).unwrap().words();
        words[CELLS] = 1;
        assert_eq!(Board::from_words(words).preview(0, 0).in_flight, 1);
        // Two that are a board's words, though not a well-formed one's, and one that is none's.
        for (place, number) in [(CONSOLES + MARK, 1), (CONSOLES + LIFE, 1001), (VERSION, 1)] {
            let mut words = words;
            words[place] = number;
            let refused = Preview {
                outcome: Err(Refusal(1)),
                in_flight: 0,
            };
            assert_eq!(Board::from_words(words).preview(0, 0), refused);
        }
    }

    #[test]
    fn the_frames_of_a_down_console_are_withdrawn() {
        let mut board = Board::fresh(3, 2).unwrap();
        board.begin_read(0).unwrap();
        board.begin_write(1, 7).unwrap();
        assert_eq!(deliver_all(&mut board, 1, &[0, 0, 2, 2]), TURNED);
        board.node_down(2).unwrap();
        // Asks of console 0 and puts of console 1, to node 1 that is up and node 2 that is down.
        for console in [0, 1] {
            assert_eq!(board.deliver(console, 2), Err(Refusal(9)));
            board.console_down(console).unwrap();
            for node in [1, 2] {
                let mut words = board.words;
                let cell = CELLS + 4 * (5 * console + node) as usize;
                words[cell..cell + 4].fill(0);
                assert_eq!(board.deliver(console, node), Ok(DISCARDED));
                assert_eq!(board.words, words);
                assert_eq!(board.deliver(console, node), Err(Refusal(8)));
            }
        }
    }

    #[test]
    fn a_node_comes_back_with_what_it_held() {
        let mut board = Board::fresh(1, 1).unwrap();
        board.begin_write(0, 7).unwrap();
        for _ in 0..3 {
            board.deliver(0, 0).unwrap();
        }
        let before = board.clone();
        assert_eq!(board.node_up(0), Err(Refusal(14)));
        assert_eq!(board.node_up(1), Err(Refusal(5)));
        assert_eq!(board.node_down(0), Ok(DONE));
        assert_eq!(board.run(&[Step::NodeUp { node: 0 }]), [Ok(DONE)]);
        assert_eq!(board, before);
        assert_eq!(board.deliver(0, 0), Ok(finished_7(0, Compared::None)));
        assert_eq!(Refusal(14).to_string(), "refused with 14: the node is up");
    }

    #[test]
    fn a_reply_says_how_its_tag_compares_with_the_best() {
        let mut board = Board::fresh(5, 2).unwrap();
        board.begin_write(1, 7).unwrap();
        for node in [0, 0, 1, 1, 2, 2, 0, 0, 1, 1, 2, 2] {
            board.deliver(1, node).unwrap();
        }
        // Nodes 3 and 4 still hold the fresh board's tag (0, 0), which is also the best that console 0 begins with.
        assert_eq!(board.begin_read(0), Ok(DONE));
        let mark = CONSOLES + MARK;
        assert_eq!(board.words()[mark], 0);
        let replies = [
            (3, Outcome::Heard, Compared::Same, 1),
            (0, Outcome::Heard, Compared::Higher, 0),
            (4, Outcome::Turned, Compared::Lower, 0),
        ];
        for (node, outcome, compared, on) in replies {
            assert_eq!(board.deliver(0, node).unwrap().compared, Compared::None);
            assert_eq!(board.deliver(0, node), Ok(Answer { outcome, compared }));
            assert_eq!(board.words()[mark], on);
        }
        // An ack is no reply.
        board.deliver(0, 3).unwrap();
        let heard = Answer {
            outcome: Outcome::Heard,
            compared: Compared::None,
        };
        assert_eq!(board.deliver(0, 3), Ok(heard));
    }

    #[test]
    fn a_delivery_that_is_refused_says_none() {
        let mut words = *Board::fresh(1, 1).unwrap().words();
        words[NODES + 1] = 4_000_000_000;
        let mut board = Board::from_words(words);
        board.begin_write(0, 7).unwrap();
        board.deliver(0, 0).unwrap();
        let mut words = board.words;
        let mut said = [9; ANSWER_WORDS];
        let (w, s) = (words.as_mut_ptr(), said.as_mut_ptr());
        assert_eq!(unsafe { board_deliver(w, BOARD_WORDS, s, ANSWER_WORDS, 0, 0) }, 0);
        assert_eq!(said, [0, 10, 0, 0, 0, 0, 0]);
        assert_eq!(words, board.words);
    }

    #[test]
    fn a_quiet_read_finishes_with_its_replies_under_release_2() {
        let fresh = Board::fresh_under(3, 2, Release::Two).unwrap();
        let mut board = fresh.clone();
        assert_eq!(quiet_read(&mut board), FINISHED_EARLY);
        // The ask to node 1 is still there, and nothing else.
        let mut words = fresh.words;
        words[CELLS + 4] = 1;
        assert_eq!(board.words, words);
    }

    #[test]
    fn a_quiet_read_tells_under_release_1() {
        assert_eq!(quiet_read(&mut Board::fresh(3, 2).unwrap()), TURNED);
        assert_eq!(quiet_read(&mut Board::fresh_under(3, 2, Release::One).unwrap()), TURNED);
    }

    #[test]
    fn a_write_tells_under_release_2() {
        let mut board = Board::fresh_under(3, 2, Release::Two).unwrap();
        board.begin_write(0, 7).unwrap();
        assert_eq!(deliver_all(&mut board, 0, &[0, 0, 2, 2]), TURNED);
    }

    #[test]
    fn a_read_whose_replies_differ_tells_under_release_2() {
        let mut board = Board::fresh_under(3, 2, Release::Two).unwrap();
        board.begin_write(1, 7).unwrap();
        deliver_all(&mut board, 1, &[0, 0, 2, 2, 0, 0, 2, 2]);
        // Node 1 has not heard of the write.
        board.begin_read(0).unwrap();
        let turned = Answer {
            outcome: Outcome::Turned,
            compared: Compared::Lower,
        };
        assert_eq!(deliver_all(&mut board, 0, &[0, 0, 1, 1]), turned);
    }

    #[test]
    fn one_node_finishes_a_read_with_a_higher_tag_under_release_2() {
        let mut board = Board::fresh_under(1, 1, Release::Two).unwrap();
        board.begin_write(0, 7).unwrap();
        deliver_all(&mut board, 0, &[0, 0, 0, 0]);
        board.begin_read(0).unwrap();
        assert_eq!(deliver_all(&mut board, 0, &[0, 0]), finished_7(0, Compared::Higher));
    }

    #[test]
    fn a_refused_making_under_release_2_leaves_the_lent_board() {
        for (n, m, refusal) in [(6, 2, 2), (5, 9, 3)] {
            let mut words = [9; BOARD_WORDS];
            let mut said = [9; ANSWER_WORDS];
            let (w, s) = (words.as_mut_ptr(), said.as_mut_ptr());
            assert_eq!(unsafe { board_fresh_release_2(w, BOARD_WORDS, s, ANSWER_WORDS, n, m) }, 0);
            assert_eq!(words, [9; BOARD_WORDS]);
            assert_eq!(said, [0, refusal, 0, 0, 0, 0, 0]);
        }
    }

    #[test]
    fn words_that_no_board_is_written_as_are_refused_and_kept() {
        let wrong = [
            (RELEASE, 0),
            (RELEASE, 3),
            (VERSION, 1),
            (VERSION, 3),
            (NODES, 2),
            (CONSOLES, 6),
            (CONSOLES, 77),
            (CONSOLES + 2, 256),
            (CONSOLES + MARK, 2),
            (CONSOLES + LIFE, 65536),
            (CONSOLES + LIFE, u32::MAX),
            (CELLS, 5),
            (CELLS, 9),
            (CELLS + 1, 1),
            (CELLS + 2, 1),
            (CELLS + 3, 1),
        ];
        for (place, number) in wrong {
            let mut words = *Board::fresh_under(3, 2, Release::Two).unwrap().words();
            words[place] = number;
            let mut board = Board::from_words(words);
            assert_eq!(board.begin_read(0), Err(Refusal(1)));
            assert_eq!(board.console_down(1), Err(Refusal(1)));
            assert_eq!(board.run(&[Step::NodeDown { node: 0 }]), [Err(Refusal(1))]);
            assert_eq!(board.words(), &words);
            assert_eq!(board.run(&[Step::Fresh { n: 3, m: 2 }]), [Ok(DONE)]);
        }
    }

    #[test]
    fn a_fresh_of_a_list_makes_release_1() {
        let mut board = Board::fresh_under(3, 2, Release::Two).unwrap();
        assert_eq!(board.run(&[Step::Fresh { n: 3, m: 2 }]), [Ok(DONE)]);
        assert_eq!(board, Board::fresh(3, 2).unwrap());
        assert_eq!(quiet_read(&mut board), TURNED);
    }

    #[test]
    fn a_step_writes_its_board_and_nothing_beyond_it() {
        let mut words = [9; BOARD_WORDS + 1];
        let mut said = [9; ANSWER_WORDS + 1];
        let (w, s) = (words.as_mut_ptr(), said.as_mut_ptr());
        assert_eq!(unsafe { board_fresh(w, words.len(), s, said.len(), 3, 2) }, 0);
        assert_eq!(words[..BOARD_WORDS], Board::fresh(3, 2).unwrap().words()[..]);
        assert_eq!(words[BOARD_WORDS], 9);
        assert_eq!(said, [1, 0, 0, 0, 0, 0, 0, 9]);
    }

    #[test]
    fn a_refused_step_of_a_list_changes_nothing_and_the_list_goes_on() {
        let mut board = Board::fresh(3, 2).unwrap();
        let begun = [Step::BeginRead { console: 0 }, Step::NodeDown { node: 2 }];
        let refused = [
            Step::Fresh { n: 6, m: 2 },
            Step::Deliver { console: 1, node: 0 },
            Step::ConsoleDown { console: 2 },
        ];
        assert_eq!(board.run(&begun), [Ok(DONE), Ok(DONE)]);
        let before = board.clone();
        assert_eq!(board.run(&refused), [Err(Refusal(2)), Err(Refusal(8)), Err(Refusal(4))]);
        assert_eq!(board, before);
        assert_eq!(board.run(&[]), []);
        assert_eq!(board, before);
    }

    #[test]
    fn a_list_of_refused_steps_writes_nothing_of_a_damaged_board() {
        let mut board = Board::from_words([9; BOARD_WORDS]);
        assert_eq!(
            board.run(&[Step::NodeDown { node: 0 }, Step::Fresh { n: 0, m: 1 }]),
            [Err(Refusal(1)), Err(Refusal(2))]
        );
        assert_eq!(board.words(), &[9; BOARD_WORDS]);
    }

    #[test]
    fn a_list_whose_lengths_do_not_fit_is_refused_and_nothing_is_written() {
        let mut words = [9; BOARD_WORDS];
        let mut said = [9; 2 * ANSWER_WORDS];
        let list = [0, 3, 2, 1, 0, 0];
        let (w, l, s) = (words.as_mut_ptr(), list.as_ptr(), said.as_mut_ptr());
        let sl = said.len();
        assert_eq!(unsafe { board_run(w, BOARD_WORDS - 1, l, 6, s, sl) }, 1);
        assert_eq!(unsafe { board_run(w, BOARD_WORDS, l, 6, s, sl - 1) }, 2);
        assert_eq!(unsafe { board_run(w, BOARD_WORDS, l, 5, s, sl) }, 3);
        assert_eq!(unsafe { board_run(w, BOARD_WORDS, l, 4, s, sl) }, 3);
        assert_eq!(words, [9; BOARD_WORDS]);
        assert_eq!(said, [9; 2 * ANSWER_WORDS]);
    }

    #[test]
    fn a_step_that_there_is_not_is_refused_with_12() {
        let mut words = *Board::fresh(3, 2).unwrap().words();
        let before = words;
        let mut said = [9; 2 * ANSWER_WORDS + 1];
        let list = [8, 0, 0, u32::MAX, 0, 0];
        let (w, l, s) = (words.as_mut_ptr(), list.as_ptr(), said.as_mut_ptr());
        assert_eq!(unsafe { board_run(w, BOARD_WORDS, l, 6, s, said.len()) }, 0);
        assert_eq!(words, before);
        assert_eq!(said, [0, 12, 0, 0, 0, 0, 0, 0, 12, 0, 0, 0, 0, 0, 9]);
    }
}
