//! Faults of Paper 9: which pairs the picker tries and in what order, what goes at which place, and which state it keeps.
use crate::model::{Frame, Model, Outcome, Step};
use crate::picker::{can_go, next, pairs, Next, Picker};

/// A turn that the model has taken, which a fault changes.
pub struct Turned<'a> {
    board: &'a Model,
    given: Picker,
    tile_waits: bool,
    next: Result<Next, u32>,
    left: Picker,
}

impl Turned<'_> {
    /// The turn with this fault.
    pub fn changed(board: &Model, given: Picker, tile_waits: bool, change: fn(&mut Turned)) -> (Result<Next, u32>, Picker) {
        let (next, left) = given.turn(board, tile_waits);
        let mut turned = Turned {
            board,
            given,
            tile_waits,
            next,
            left,
        };
        change(&mut turned);
        (turned.next, turned.left)
    }

    /// The state by which it is taken.
    fn state(&self) -> Picker {
        self.given.counted(self.board)
    }

    /// Taken anew in this state, if it is not refused.
    fn taken_in(&mut self, state: Picker) {
        if self.next.is_ok() {
            (self.next, self.left) = state.turn(self.board, self.tile_waits);
        }
    }

    /// Taken anew: these are tried, and those qualify of which this is so.
    fn tries(&mut self, tried: Vec<(u32, u32)>, qualifies: impl Fn(&Model, (u32, u32)) -> bool) {
        if self.next.is_ok() {
            let state = self.state();
            let found = tried.into_iter().find(|pair| qualifies(self.board, *pair));
            let next = next(state.place == 3, found, self.tile_waits);
            (self.next, self.left) = (Ok(next), state.after(next));
        }
    }

    fn qualifies(&mut self, qualifies: impl Fn(&Model, (u32, u32)) -> bool) {
        self.tries(self.state().tried(self.board), qualifies);
    }
}

/// What delivering the pair's frame would give.
fn outcome(board: &Model, (c, k): (u32, u32)) -> Result<Outcome, u32> {
    board.step(Step::Deliver(c, k)).0.outcome
}

/// An idle turn is not counted.
pub fn idle_uncounted(t: &mut Turned) {
    if t.next == Ok(Next::Nothing) {
        t.left = t.state();
    }
}

/// A turn that sends a tile is not counted.
pub fn tile_uncounted(t: &mut Turned) {
    if t.next == Ok(Next::Tile) {
        t.left.place = t.state().place;
    }
}

/// The place goes on only once a pair has been picked: until then it is a mark of its own.
pub fn start_sticks(t: &mut Turned) {
    let is_unused = t.given.last == Picker::start(t.board).last || !t.given.is_in_range(t.board);
    if is_unused && matches!(t.next, Ok(Next::Nothing)) {
        t.left = t.given;
    }
}

/// A tile forgets the pair last picked.
pub fn tile_forgets_pair(t: &mut Turned) {
    if t.next == Ok(Next::Tile) {
        t.left.last = Picker::start(t.board).last;
    }
}

/// So does an idle turn.
pub fn idle_forgets_pair(t: &mut Turned) {
    if t.next == Ok(Next::Nothing) {
        t.left.last = Picker::start(t.board).last;
    }
}

/// The tile comes first in the third turn.
pub fn tile_first_in_third(t: &mut Turned) {
    let state = t.state();
    if state.place == 2 && t.tile_waits && t.next.is_ok() {
        (t.next, t.left) = (Ok(Next::Tile), state.after(Next::Tile));
    }
}

/// The tile comes first in the first turn.
pub fn tile_first_in_first(t: &mut Turned) {
    let state = t.state();
    if state.place == 0 && t.tile_waits && t.next.is_ok() {
        (t.next, t.left) = (Ok(Next::Tile), state.after(Next::Tile));
    }
}

/// The frame comes first in the fourth turn too.
pub fn frame_first_in_fourth(t: &mut Turned) {
    let state = t.state();
    if state.place == 3 {
        t.taken_in(Picker { place: 2, ..state });
        t.left.place = 0;
    }
}

/// The fourth turn is the tiles' alone.
pub fn fourth_idle_without_tile(t: &mut Turned) {
    let state = t.state();
    if state.place == 3 && !t.tile_waits && t.next.is_ok() {
        (t.next, t.left) = (Ok(Next::Nothing), state.after(Next::Nothing));
    }
}

/// The first three are the board's alone.
pub fn no_tile_in_three(t: &mut Turned) {
    let state = t.state();
    if state.place < 3 && t.next == Ok(Next::Tile) {
        (t.next, t.left) = (Ok(Next::Nothing), state.after(Next::Nothing));
    }
}

/// Turns run in threes.
pub fn in_threes(t: &mut Turned) {
    if t.next.is_ok() && t.left.place == 3 {
        t.left.place = 0;
    }
}

/// Pairs are tried by node, then console.
pub fn node_first(t: &mut Turned) {
    let turned = |(c, k): (u32, u32)| (k, c);
    let last = turned(t.state().last);
    let mut all: Vec<_> = pairs(t.board).map(turned).collect();
    all.sort();
    let (before, after): (Vec<_>, Vec<_>) = all.into_iter().partition(|pair| *pair <= last);
    t.tries([after, before].concat().into_iter().map(turned).collect(), can_go);
}

/// They are tried from the one last picked.
pub fn from_the_last(t: &mut Turned) {
    let mut tried = t.state().tried(t.board);
    tried.rotate_right(1);
    t.tries(tried, can_go);
}

/// They are tried from (0, 0) at each turn.
pub fn from_the_first(t: &mut Turned) {
    t.tries(pairs(t.board).collect(), can_go);
}

/// They are not tried beyond the last console's last node.
pub fn no_wrap(t: &mut Turned) {
    let last = t.state().last;
    let is_last = last == Picker::start(t.board).last;
    t.tries(pairs(t.board).filter(|pair| is_last || *pair > last).collect(), can_go);
}

/// The one last picked is not tried again.
pub fn last_untried(t: &mut Turned) {
    let mut tried = t.state().tried(t.board);
    tried.pop();
    t.tries(tried, can_go);
}

/// After the last node of a console its own first node is tried.
pub fn console_wraps(t: &mut Turned) {
    let (c, k) = t.state().last;
    let mut tried = t.state().tried(t.board);
    if k + 1 == t.board.n {
        tried.retain(|pair| *pair != (c, 0));
        tried.insert(0, (c, 0));
    }
    t.tries(tried, can_go);
}

/// Any pair with a frame qualifies.
pub fn any_frame_goes(t: &mut Turned) {
    t.qualifies(|board, pair| board.cells.contains_key(&pair));
}

/// A reply that would be refused with 10 qualifies.
pub fn ten_goes(t: &mut Turned) {
    t.qualifies(|board, pair| can_go(board, pair) || outcome(board, pair) == Err(10));
}

/// A frame for a node that is down does not qualify, withdrawn or not.
pub fn withdrawn_stays_behind(t: &mut Turned) {
    t.qualifies(|board, (c, k)| can_go(board, (c, k)) && (board.nodes[&k].up || !board.cells[&(c, k)].goes_to_node()));
}

/// No frame of a node that is down qualifies.
pub fn answers_of_down_nodes_stay(t: &mut Turned) {
    t.qualifies(|board, (c, k)| can_go(board, (c, k)) && board.nodes[&k].up);
}

/// A frame that would be discarded does not qualify.
pub fn discarded_stays_behind(t: &mut Turned) {
    t.qualifies(|board, pair| can_go(board, pair) && outcome(board, pair) != Ok(Outcome::Discarded));
}

/// Asks go only if no other frame can.
pub fn asks_last(t: &mut Turned) {
    let (asks, others): (Vec<_>, Vec<_>) = t
        .state()
        .tried(t.board)
        .into_iter()
        .partition(|pair| matches!(t.board.cells.get(pair), Some(Frame::Ask)));
    t.tries([others, asks].concat(), can_go);
}

/// There is a place 4.
pub fn fifth_place(t: &mut Turned) {
    if t.given.place == 4 {
        t.taken_in(Picker { place: 3, ..t.given });
    }
}

/// A state with a pair out of range keeps its place.
pub fn place_kept_out_of_range(t: &mut Turned) {
    if t.given.place < 4 && !t.given.is_in_range(t.board) {
        let start = Picker::start(t.board);
        t.taken_in(Picker {
            place: t.given.place,
            ..start
        });
    }
}

/// A state with a place out of range keeps its pair.
pub fn pair_kept_out_of_range(t: &mut Turned) {
    if t.given.place >= 4 {
        t.taken_in(Picker { place: 0, ..t.given });
    }
}

/// The pair counts as in range wherever it is in range of some board.
pub fn range_of_any_board(t: &mut Turned) {
    let (c, k) = t.given.last;
    if t.given.place < 4 && c < 8 && k < 5 && !t.given.is_in_range(t.board) && t.next.is_ok() {
        let (before, after): (Vec<_>, Vec<_>) = pairs(t.board).partition(|pair| *pair <= (c, k));
        let found = [after, before].concat().into_iter().find(|pair| can_go(t.board, *pair));
        let next = next(t.given.place == 3, found, t.tile_waits);
        (t.next, t.left) = (Ok(next), t.given.after(next));
    }
}

/// A refused turn is counted.
pub fn refused_counted(t: &mut Turned) {
    if t.next.is_err() {
        t.left.place = (t.given.place + 1) % 4;
    }
}

/// A refused turn leaves the start.
pub fn refused_starts_anew(t: &mut Turned) {
    if t.next.is_err() && t.board.n > 0 && t.board.m > 0 {
        t.left = Picker::start(t.board);
    }
}

/// On a board that is not well formed a tile goes.
pub fn tile_under_1(t: &mut Turned) {
    if t.next.is_err() && t.tile_waits {
        t.next = Ok(Next::Tile);
    }
}
