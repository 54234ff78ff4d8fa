//! What is timed beside each other: a board in one of its forms.
use crate::plain;
use common::{Step, Words};
use hatukeno::{Board, Refusal};

pub type Answer = Result<hatukeno::Answer, Refusal>;
pub type Plain = plain::Board<true>;
pub type Unasked = plain::Board<false>;

pub trait Side: Clone {
    /// What a step answers.
    type Said: PartialEq;

    fn made(n: u32, m: u32) -> Result<Self, Refusal>;
    fn of(words: &Words) -> Self;
    fn in_words(&self) -> Words;
    fn step(&mut self, step: Step) -> Self::Said;
}

/// Three of the forms have the same functions, but no trait of their own.
macro_rules! side {
    ($board:ty, $of:expr, $words:expr) => {
        impl Side for $board {
            type Said = Answer;

            fn made(n: u32, m: u32) -> Result<Self, Refusal> {
                <$board>::fresh(n, m)
            }

            fn of(words: &Words) -> Self {
                $of(words)
            }

            fn in_words(&self) -> Words {
                $words(self)
            }

            fn step(&mut self, step: Step) -> Answer {
                match step {
                    Step::BeginRead(c) => self.begin_read(c),
                    Step::BeginWrite(c, v) => self.begin_write(c, v),
                    Step::Deliver(c, k) => self.deliver(c, k),
                    Step::NodeDown(k) => self.node_down(k),
                    Step::ConsoleDown(c) => self.console_down(c),
                    Step::NodeUp(k) => self.node_up(k),
                    Step::Restart(c) => self.restart(c),
                }
            }
        }
    };
}

side!(Board, |w: &Words| Board::from_words(*w), |b: &Board| *b.words());
side!(Plain, Plain::from_words, Plain::words);
side!(Unasked, Unasked::from_words, Unasked::words);
