//! Paper 3's rule for the mark, clause by clause: boards on which one console's mark is wrong and all else is as a run
//! left it, and beside each the same board with the mark put right.
use crate::beside::{differ, put, Agreed};
use crate::damaged::some_board;
use crate::faults::Faulty;
use crate::lent::Lent;
use crate::model::{Console, State, Step};
use crate::words::{self, mark, Words};
use common::Chance;
use hatukeno::{Board, Refusal};

/// On each size boards are drawn, fewer than STEPS into a run, until OF_EACH are tried for each place; at most DRAWN of
/// them, and if that does not do it is a difference.
const STEPS: u32 = 300;
const OF_EACH: u64 = 10;
const DRAWN: u32 = 100_000;

/// Where a mark stands: the paper's five clauses, and the case that they leave open.
#[derive(Clone, Copy)]
enum Place {
    Telling,
    Idle,
    Down,
    NoneAnswered,
    OneAnswered,
    /// Asking with two answers: on and off are both well formed.
    TwoOn,
    TwoOff,
}

/// In the order above, each with the mark that is tried.
const PLACES: [(Place, &str); 7] = [
    (Place::Telling, "on in telling"),
    (Place::Idle, "on in idle"),
    (Place::Down, "on in down"),
    (Place::NoneAnswered, "on with nothing answered"),
    (Place::OneAnswered, "off at one answer"),
    (Place::TwoOn, "on"),
    (Place::TwoOff, "off"),
];
/// The first of them are what a board can break.
const CLAUSES: usize = 5;

fn place(x: &Console) -> Place {
    match (x.state, x.answered.len()) {
        (State::Telling(_), _) => Place::Telling,
        (State::Idle, _) => Place::Idle,
        (State::Down, _) => Place::Down,
        (State::Asking(_), 0) => Place::NoneAnswered,
        (State::Asking(_), 1) => Place::OneAnswered,
        (State::Asking(_), _) if x.alike => Place::TwoOn,
        (State::Asking(_), _) => Place::TwoOff,
    }
}

/// Whether a board of n nodes can have a console there: fewer than a majority have answered.
fn is_there(place: Place, n: u32) -> bool {
    match place {
        Place::Telling | Place::Idle | Place::Down | Place::NoneAnswered => true,
        Place::OneAnswered => n / 2 + 1 > 1,
        Place::TwoOn | Place::TwoOff => n / 2 + 1 > 2,
    }
}

/// How many boards were tried for each place.
#[derive(Default)]
pub struct Marks {
    tried: [u64; PLACES.len()],
}

impl Marks {
    /// Draws boards of this size until there are enough for each place that there is on it.
    pub fn draw(&mut self, n: u32, m: u32, chance: &mut Chance, faulty: Faulty) -> Agreed {
        let mut here = Marks::default();
        for _ in 0..DRAWN {
            if here.has_all(n) {
                break;
            }
            let words = some_board(n, m, STEPS, chance);
            for c in 0..m {
                here.try_console(words, c, chance, faulty)?;
            }
        }
        if !here.has_all(n) {
            return differ(&[format!("n = {n}, m = {m}: too few boards for the mark, {:?}", here.tried)]);
        }
        for (sum, tried) in self.tried.iter_mut().zip(here.tried) {
            *sum += tried;
        }
        Ok(())
    }

    fn has_all(&self, n: u32) -> bool {
        let enough = |((place, _), tried): (&(Place, &str), &u64)| *tried >= OF_EACH || !is_there(*place, n);
        PLACES.iter().zip(&self.tried).all(enough)
    }

    /// Tries the board with this console's mark off, on, and a number that is no mark, unless there are enough such
    /// boards.
    fn try_console(&mut self, words: Words, c: u32, chance: &mut Chance, faulty: Faulty) -> Agreed {
        let Some(board) = words::read(&words) else {
            return differ(&[format!("a run left words that are no board's: {words:?}")]);
        };
        let here = place(&board.consoles[&c]);
        let tried = &mut self.tried[here as usize];
        if *tried == OF_EACH {
            return Ok(());
        }
        *tried += 1;
        let no_mark = [2, 255, 256, u32::MAX][chance.below(4) as usize];
        for (number, k) in [(0, chance.below(board.n)), (1, chance.below(board.n)), (no_mark, 0)] {
            let mut words = words;
            words[mark(c)] = number;
            let is_good = match here {
                Place::Telling | Place::Idle | Place::Down | Place::NoneAnswered => number == 0,
                Place::OneAnswered => number == 1,
                Place::TwoOn | Place::TwoOff => number == 0 || number == 1,
            };
            try_board(words, c, k, is_good, faulty)?;
        }
        Ok(())
    }

    pub fn print(&self) {
        let each: Vec<String> = PLACES
            .iter()
            .zip(self.tried)
            .map(|((_, name), tried)| format!("{name} {tried}"))
            .collect();
        let (wrong, right) = each.split_at(CLAUSES);
        println!(
            "boards with one mark wrong, or a number that is none, each refused with 1 by every step, and not with it put right\n  {}",
            wrong.join(", ")
        );
        println!(
            "boards with two answers of asking, not refused with 1 with either mark, drawn with it: {}",
            right.join(", ")
        );
    }

    /// Whether every clause was broken, and two answers had the mark on and off.
    pub fn shows_all(&self) -> bool {
        self.tried.iter().all(|tried| *tried > 0)
    }
}

/// Every kind of step on the board, each from there, and all of them as one list: refused with 1 if the board is not
/// good, and else not, and as the model answers.
fn try_board(words: Words, c: u32, k: u32, is_good: bool, faulty: Faulty) -> Agreed {
    let steps = [
        Step::BeginRead(c),
        Step::BeginWrite(c, 7),
        Step::Deliver(c, k),
        Step::NodeDown(k),
        Step::ConsoleDown(c),
        Step::NodeUp(k),
        Step::Restart(c),
    ];
    for step in steps {
        let said = put(&mut Board::from_words(words), step);
        if (said == Err(Refusal(1))) == is_good {
            return differ(&[
                format!("{step:?} answered {said:?} where console {c}'s mark is {}", words[mark(c)]),
                format!("the board is {:?}", words::read(&words)),
            ]);
        }
    }
    let lent = Lent::of(words, faulty);
    lent.each(&steps)?;
    lent.in_turn(&steps)
}
