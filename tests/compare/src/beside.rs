//! Puts steps to the library and to the model beside it.
use crate::faults::Faulty;
use crate::model::{Answer, Compared, Model, Outcome, Release, Step};
use crate::previews::foresee;
use crate::turns;
use crate::words::{self, Words};
use hatukeno::{Board, Refusal};
use std::fmt::Debug;

/// What the two differ by, or how a rule is broken, in whole lines.
pub struct Difference(pub String);

pub type Agreed<T = ()> = Result<T, Difference>;

/// Stops at a difference that these lines tell of.
pub fn differ<T>(lines: &[String]) -> Agreed<T> {
    Err(Difference(lines.join("\n")))
}

/// Stops at a difference in what the two gave of a board that was only read.
pub fn gave_otherwise(what: &str, board: &Board, library: impl Debug, model: impl Debug) -> Agreed {
    differ(&[
        format!("a difference at {what}"),
        format!("the board is {:?}", words::read(board.words())),
        format!("its words are {:?}", board.words()),
        format!("the library gave {library:?}"),
        format!("the model gave {model:?}"),
    ])
}

/// What the library answers.
pub type Said = Result<hatukeno::Answer, Refusal>;

/// The library's word for the release.
pub fn in_library(release: Release) -> hatukeno::Release {
    match release {
        Release::One => hatukeno::Release::One,
        Release::Two => hatukeno::Release::Two,
    }
}

/// The fresh board of both, of an allowed size.
pub fn made(n: u32, m: u32, release: Release) -> (Board, Model) {
    let board = Board::fresh_under(n, m, in_library(release)).expect("an allowed size");
    let model = Model::fresh_under(n, m, release).expect("an allowed size");
    (board, model)
}

pub fn put(board: &mut Board, step: Step) -> Said {
    match step {
        Step::BeginRead(c) => board.begin_read(c),
        Step::BeginWrite(c, v) => board.begin_write(c, v),
        Step::Deliver(c, k) => board.deliver(c, k),
        Step::NodeDown(k) => board.node_down(k),
        Step::ConsoleDown(c) => board.console_down(c),
        Step::NodeUp(k) => board.node_up(k),
        Step::Restart(c) => board.restart(c),
    }
}

pub fn same(a: hatukeno::Outcome, b: Outcome) -> bool {
    match (a, b) {
        (hatukeno::Outcome::Done, Outcome::Done)
        | (hatukeno::Outcome::Handed, Outcome::Handed)
        | (hatukeno::Outcome::Heard, Outcome::Heard)
        | (hatukeno::Outcome::Turned, Outcome::Turned)
        | (hatukeno::Outcome::Discarded, Outcome::Discarded) => true,
        (hatukeno::Outcome::Finished { tag, value }, Outcome::Finished(t, v)) => {
            (u64::from(tag.ts), u64::from(tag.console), u64::from(tag.life)) == t && value == v
        }
        _ => false,
    }
}

fn same_comparison(a: hatukeno::Compared, b: Compared) -> bool {
    matches!(
        (a, b),
        (hatukeno::Compared::None, Compared::None)
            | (hatukeno::Compared::Lower, Compared::Lower)
            | (hatukeno::Compared::Same, Compared::Same)
            | (hatukeno::Compared::Higher, Compared::Higher)
    )
}

/// A refusal of the library has no other words than its number; the crate sees to that.
fn alike(library: &Said, model: &Answer) -> bool {
    match (library, model.outcome) {
        (Ok(a), Ok(b)) => same(a.outcome, b) && same_comparison(a.compared, model.compared),
        (Err(a), Err(b)) => a.0 == b && model.compared == Compared::None,
        _ => false,
    }
}

/// Puts the step to both, after a preview and a turn of the link, and gives the model's answer.
pub fn both(board: &mut Board, model: &mut Model, step: Step, faulty: Faulty) -> Agreed<Answer> {
    let (expected, next) = faulty.step(model, step);
    foresee(board, model, step, (expected, &next), faulty)?;
    turns::before(board, model, step, faulty)?;
    let after = if expected.outcome.is_ok() {
        words::write(&next)
    } else {
        *board.words()
    };
    expect(board, step, expected, &after)?;
    *model = next;
    Ok(expected)
}

/// Puts the step to the library: the answer is to be this one, and these the words after it. A difference is told
/// whole.
pub fn expect(board: &mut Board, step: Step, expected: Answer, after: &Words) -> Agreed {
    let before = *board.words();
    let library = put(board, step);
    if !alike(&library, &expected) || board.words() != after {
        return differ(&[
            format!("a difference at {step:?}"),
            format!("the board was {:?}", words::read(&before)),
            format!("its words were {before:?}"),
            format!("the library answered {library:?}, its words are {:?}", board.words()),
            format!("the model answered {expected:?}, its board is {:?}", words::read(after)),
        ]);
    }
    Ok(())
}

/// Puts the list to a board: the answers must be the model's, and the last board the one that the steps left one by
/// one.
pub fn listed(mut board: Board, list: &[hatukeno::Step], answers: &[Answer], last: &Board) -> Agreed {
    let said = board.run(list);
    let agree = said.len() == answers.len() && said.iter().zip(answers).all(|(a, b)| alike(a, b));
    if !agree || board != *last {
        return differ(&[
            format!("a difference at the list {list:?}"),
            format!("the list answered {said:?}, its words are {:?}", board.words()),
            format!("the model answered {answers:?}, one by one the words are {:?}", last.words()),
        ]);
    }
    Ok(())
}
