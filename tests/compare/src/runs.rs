//! Runs by chance from fresh boards, and the fresh boards themselves.
use crate::beside::{both, differ, in_library, listed, made, Agreed};
use crate::faults::Faulty;
use crate::model::{Answer, Model, Outcome, Release, Step, RELEASES};
use crate::rules::{Counts, Run};
use crate::words::{self, Words};
use common::Chance;
use hatukeno::{Board, BOARD_WORDS};

/// The steps of a run.
pub const LENGTH: u32 = 500;

/// Words that no board is written as: up is 2.
const NO_BOARD: Words = [2; BOARD_WORDS];

/// A run that was put step by step: its answers, and the board that it left.
struct Ran {
    answers: Vec<Answer>,
    board: Board,
}

/// Puts the steps to a fresh board, one by one.
fn one_by_one(n: u32, m: u32, release: Release, steps: &[Step], faulty: Faulty, counts: &mut Counts) -> Agreed<Ran> {
    let (mut board, mut model) = made(n, m, release);
    let mut held = Run::fresh(faulty.rules(n));
    let mut answers = Vec::new();
    for step in steps {
        let before = board.clone();
        let answer = both(&mut board, &mut model, *step, faulty)?;
        held.take(*step, answer, &before, &board, counts)?;
        answers.push(answer);
    }
    Ok(Ran { answers, board })
}

/// A run from the model's board, one by one and as a list. Each step is shown with the model's board before it and the
/// answer.
pub fn from_board(
    mut model: Model,
    crashes: bool,
    chance: &mut Chance,
    faulty: Faulty,
    mut show: impl FnMut(&Model, Step, Answer),
) -> Agreed {
    let first = Board::from_words(words::write(&model));
    let mut board = first.clone();
    let (mut list, mut answers) = (Vec::new(), Vec::new());
    for _ in 0..LENGTH {
        let step = chance.step(model.n, model.m, crashes);
        let before = model.clone();
        let answer = both(&mut board, &mut model, step, faulty)?;
        show(&before, step, answer);
        answers.push(answer);
        list.push(step.into());
    }
    listed(first, &list, &answers, &board)
}

/// The same steps under each release, one by one and as a list with a refused fresh in its midst.
pub fn run(n: u32, m: u32, crashes: bool, chance: &mut Chance, faulty: Faulty, counts: &mut [Counts; 2]) -> Agreed {
    fresh(n, m)?;
    let steps: Vec<Step> = (0..LENGTH).map(|_| chance.step(n, m, crashes)).collect();
    let list: Vec<hatukeno::Step> = steps.iter().copied().map(Into::into).collect();
    let [one, two] = counts;
    let ran = [
        one_by_one(n, m, Release::One, &steps, faulty, one)?,
        one_by_one(n, m, Release::Two, &steps, faulty, two)?,
    ];
    let half = steps.len() / 2;
    for (release, Ran { answers, board }) in RELEASES.iter().zip(&ran) {
        let list = [&list[..half], &[hatukeno::Step::Fresh { n: 0, m }], &list[half..]].concat();
        let answers = [&answers[..half], &[Answer::plain(Err(2))], &answers[half..]].concat();
        listed(made(n, m, *release).0, &list, &answers, board)?;
    }
    listed_after_fresh(n, m, &list, &ran, faulty)
}

/// The same run as a list that begins with a fresh, on a board of release 2 and on words that are no board's.
fn listed_after_fresh(n: u32, m: u32, list: &[hatukeno::Step], ran: &[Ran; 2], faulty: Faulty) -> Agreed {
    let list = [&[hatukeno::Step::Fresh { n, m }], list].concat();
    let [_, second] = ran;
    for start in [*second.board.words(), NO_BOARD] {
        let fresh = faulty.fresh_in_list(faulty.read(&start).as_ref(), n, m).expect("an allowed size");
        let Ran { answers, board } = &ran[fresh.release as usize];
        let answers = [&[Answer::plain(Ok(Outcome::Done))], &answers[..]].concat();
        listed(Board::from_words(start), &list, &answers, board)?;
    }
    Ok(())
}

/// The fresh board, or its refusal, of both: with no release named, and under each.
pub fn fresh(n: u32, m: u32) -> Agreed {
    let under = |release| (Board::fresh_under(n, m, in_library(release)), Model::fresh_under(n, m, release));
    for (board, model) in [(Board::fresh(n, m), Model::fresh(n, m)), under(Release::One), under(Release::Two)] {
        let library = board.map(|b| *b.words()).map_err(|r| r.0);
        let expected = model.map(|b| words::write(&b));
        if library != expected {
            return differ(&[format!("a difference at fresh {n} {m}: {library:?}, {expected:?}")]);
        }
    }
    Ok(())
}

/// The fresh in a list, on a board of each release whose consoles have been restarted. If it is refused, it leaves the
/// board as it was.
pub fn fresh_in_list(n: u32, m: u32, faulty: Faulty) -> Agreed {
    for release in RELEASES {
        let (_, mut model) = made(3, 2, release);
        for (life, console) in (1..).zip(model.consoles.values_mut().take(2)) {
            console.life = life;
        }
        let board = Board::from_words(words::write(&model));
        let next = faulty.fresh_in_list(Some(&model), n, m);
        let outcome = next.as_ref().map(|_| Outcome::Done).map_err(|refusal| *refusal);
        let last = Board::from_words(words::write(&next.unwrap_or(model)));
        listed(board, &[hatukeno::Step::Fresh { n, m }], &[Answer::plain(outcome)], &last)?;
    }
    Ok(())
}

/// The fresh in a list on words that are no board's: every step is refused with 1 until a fresh makes a board of them.
pub fn fresh_on_no_board(n: u32, m: u32, faulty: Faulty) -> Agreed {
    let (words, step, refused) = (NO_BOARD, Step::NodeDown(0), Answer::plain(Err(1)));
    let list = [step.into(), hatukeno::Step::Fresh { n, m }, step.into()];
    let (answers, last) = match faulty.fresh_in_list(None, n, m) {
        Ok(made) => {
            let (answer, next) = faulty.step(&made, step);
            ([refused, Answer::plain(Ok(Outcome::Done)), answer], words::write(&next))
        }
        Err(refusal) => ([refused, Answer::plain(Err(refusal)), refused], words),
    };
    listed(Board::from_words(words), &list, &answers, &Board::from_words(last))
}
