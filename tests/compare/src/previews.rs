//! Previews beside the model, on every board before a step is put to it.
use crate::beside::{gave_otherwise, same, Agreed};
use crate::faults::Faulty;
use crate::model::{Answer, Model, Preview, Step};
use hatukeno::Board;

/// The pair that is looked at: the one that is delivered next, or any beside the step's console or node.
pub fn pair(step: Step) -> (u32, u32) {
    match step {
        Step::Deliver(c, k) => (c, k),
        Step::BeginRead(c) | Step::BeginWrite(c, _) | Step::ConsoleDown(c) | Step::Restart(c) => (c, c % 5),
        Step::NodeDown(k) | Step::NodeUp(k) => (k % 8, k),
    }
}

fn alike(library: hatukeno::Preview, model: Preview) -> bool {
    let is_same = match (library.outcome, model.outcome) {
        (Ok(a), Ok(b)) => same(a, b),
        (Err(a), Err(b)) => a.0 == b,
        _ => false,
    };
    is_same && library.in_flight == model.in_flight
}

fn expect(board: &Board, (c, k): (u32, u32), expected: Preview) -> Agreed {
    let library = board.preview(c, k);
    if !alike(library, expected) {
        return gave_otherwise(&format!("the preview of {c} {k}"), board, library, expected);
    }
    Ok(())
}

/// Before this step, which will answer so and leave this board.
pub fn foresee(board: &Board, model: &Model, step: Step, will: (Answer, &Model), faulty: Faulty) -> Agreed {
    let pair = pair(step);
    let expected = if let Step::Deliver(..) = step {
        faulty.preview(model, pair, will)
    } else {
        let (answer, copy) = faulty.step(model, Step::Deliver(pair.0, pair.1));
        faulty.preview(model, pair, (answer, &copy))
    };
    expect(board, pair, expected)
}

/// Of words that are no board's.
pub fn of_no_board(board: &Board, step: Step) -> Agreed {
    let refused = Preview {
        outcome: Err(1),
        in_flight: 0,
    };
    expect(board, pair(step), refused)
}
