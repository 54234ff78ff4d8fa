//! Words that are lent as a board, whatever they are. If no board is written so, the model has none beside them: every
//! step is to be refused with 1, and the words to stay.
use crate::beside::{both, expect, listed, Agreed};
use crate::faults::Faulty;
use crate::model::{Answer, Model, Step};
use crate::previews;
use crate::turns;
use crate::words::Words;
use hatukeno::Board;

/// A board of the library in such words, and the model's, if there is one.
#[derive(Clone)]
pub struct Lent {
    board: Board,
    model: Option<Model>,
    faulty: Faulty,
}

/// What the words are.
#[derive(Clone, Copy, PartialEq, Eq)]
pub enum Standing {
    WellFormed,
    IllFormed,
    NoBoard,
}

impl Lent {
    pub fn of(words: Words, faulty: Faulty) -> Lent {
        Lent {
            board: Board::from_words(words),
            model: faulty.read(&words),
            faulty,
        }
    }

    pub fn words(&self) -> &Words {
        self.board.words()
    }

    pub fn standing(&self) -> Standing {
        match &self.model {
            Some(model) if self.faulty.is_well_formed(model) => Standing::WellFormed,
            Some(_) => Standing::IllFormed,
            None => Standing::NoBoard,
        }
    }

    /// Puts the step to both, and gives the answer.
    pub fn both(&mut self, step: Step) -> Agreed<Answer> {
        match &mut self.model {
            Some(model) => both(&mut self.board, model, step, self.faulty),
            None => {
                let (refused, words) = (Answer::plain(Err(1)), *self.board.words());
                previews::of_no_board(&self.board, step)?;
                turns::of_no_board(&self.board, step)?;
                expect(&mut self.board, step, refused, &words)?;
                Ok(refused)
            }
        }
    }

    /// Each step from here.
    pub fn each(&self, steps: &[Step]) -> Agreed {
        steps.iter().try_for_each(|step| self.clone().both(*step).map(|_| ()))
    }

    /// The steps one after the other, and as one list.
    pub fn in_turn(mut self, steps: &[Step]) -> Agreed {
        let first = self.board.clone();
        let answers: Vec<Answer> = steps.iter().map(|step| self.both(*step)).collect::<Agreed<_>>()?;
        let list: Vec<hatukeno::Step> = steps.iter().copied().map(Into::into).collect();
        listed(first, &list, &answers, &self.board)
    }
}
