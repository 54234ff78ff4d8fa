//! The rules of document 01 and Papers 2, 3, 4, 6 and 7 in plain Rust, written to be fast: one struct by value, changed
//! in place. Its numbers are those of the library's words, so that it can be any words, as what is lent to the library
//! can. With CHECKED every step first asks question 1, and so whether the words are a board's at all; without it none
//! does; all else is the same code.
use common::words::{Words, CELL, CELLS, CONSOLE, CONSOLES, LIVES, NODE, NODES, RELEASE, VERSION};
use hatukeno::{Answer, Compared, Outcome, Refusal, Release, Tag, BOARD_WORDS, LAYOUT};
use std::cmp::Ordering;

const MAX_NODES: usize = 5;
const MAX_CONSOLES: usize = 8;
const MAX_TS: u32 = 4_000_000_000;
const MAX_LIFE: u32 = 1000;
pub const ZERO: Tag = Tag {
    ts: 0,
    console: 0,
    life: 0,
};

/// The states of a console. One that asks will tell by the state two on.
const IDLE: u32 = 0;
const ASKS_TO_READ: u32 = 1;
const ASKS_TO_WRITE: u32 = 2;
const TELLS_TO_READ: u32 = 3;
const TELLS_TO_WRITE: u32 = 4;
const DOWN: u32 = 5;

/// What a cell can hold.
const NOTHING: u32 = 0;
const ASK: u32 = 1;
const REPLY: u32 = 2;
const PUT: u32 = 3;
const ACK: u32 = 4;

#[derive(Clone, Copy, PartialEq)]
struct Node {
    up: u32,
    tag: Tag,
    value: u32,
}

#[derive(Clone, Copy, PartialEq)]
struct Console {
    state: u32,
    wanted: u32,
    answered: u32,
    best: Tag,
    value: u32,
    alike: u32,
    life: u32,
}

#[derive(Clone, Copy, PartialEq)]
struct Cell {
    frame: u32,
    tag: Tag,
    value: u32,
}

#[derive(Clone, PartialEq)]
pub struct Board<const CHECKED: bool> {
    n: u32,
    m: u32,
    release: u32,
    version: u32,
    nodes: [Node; MAX_NODES],
    consoles: [Console; MAX_CONSOLES],
    cells: [Cell; MAX_CONSOLES * MAX_NODES],
}

const FRESH: Node = Node {
    up: 1,
    tag: ZERO,
    value: 0,
};

const fn resting(state: u32, life: u32) -> Console {
    Console {
        state,
        wanted: 0,
        answered: 0,
        best: ZERO,
        value: 0,
        alike: 0,
        life,
    }
}

/// A cell that holds nothing, or a frame without a tag.
const fn holding(frame: u32) -> Cell {
    Cell {
        frame,
        tag: ZERO,
        value: 0,
    }
}

/// The tag in these words.
pub fn tag_in(w: &[u32]) -> Tag {
    Tag {
        ts: w[0],
        console: w[1] / LIVES,
        life: w[1] % LIVES,
    }
}

fn is_greater(a: Tag, b: Tag) -> bool {
    (a.ts, a.console, a.life) > (b.ts, b.console, b.life)
}

fn compared(tag: Tag, best: Tag) -> Compared {
    match (tag.ts, tag.console, tag.life).cmp(&(best.ts, best.console, best.life)) {
        Ordering::Less => Compared::Lower,
        Ordering::Equal => Compared::Same,
        Ordering::Greater => Compared::Higher,
    }
}

/// The answer of a step that takes no reply in.
fn took_none(outcome: Outcome) -> Result<Answer, Refusal> {
    Ok(Answer {
        outcome,
        compared: Compared::None,
    })
}

/// Whether tag and value are all 0.
fn is_zero(t: Tag, value: u32) -> bool {
    t.ts | t.console | t.life | value == 0
}

/// The ts is from 1 to MAX_TS, the console below m and the life at most MAX_LIFE.
fn is_above_zero(m: u32, t: Tag) -> bool {
    (t.ts.wrapping_sub(1) < MAX_TS) & (t.console < m) & (t.life <= MAX_LIFE)
}

/// So it is, or all is 0.
fn is_tag_ok(m: u32, t: Tag, value: u32) -> bool {
    is_zero(t, value) | is_above_zero(m, t)
}

fn is_node_ok(m: u32, x: &Node) -> bool {
    (x.up <= 1) & is_tag_ok(m, x.tag, x.value)
}

fn is_nothing(x: &Cell) -> bool {
    (x.frame == NOTHING) & is_zero(x.tag, x.value)
}

/// Whether all are. It does not stop at the first that is not: nearly always all are, and a branch for each costs more.
fn all<T>(xs: &[T], is: impl Fn(&T) -> bool) -> bool {
    xs.iter().fold(true, |ok, x| ok & is(x))
}

/// Only beside a reply and a put can there be anything but 0.
fn is_cell_ok(m: u32, x: &Cell) -> bool {
    let has_tag = (x.frame == REPLY) | (x.frame == PUT);
    (x.frame <= ACK) & (is_zero(x.tag, x.value) | (has_tag & is_above_zero(m, x.tag)))
}

impl<const CHECKED: bool> Board<CHECKED> {
    pub fn fresh(n: u32, m: u32) -> Result<Self, Refusal> {
        Self::fresh_under(n, m, Release::One)
    }

    pub fn fresh_under(n: u32, m: u32, release: Release) -> Result<Self, Refusal> {
        if !(1..=MAX_NODES as u32).contains(&n) {
            return Err(Refusal(2));
        }
        if !(1..=MAX_CONSOLES as u32).contains(&m) {
            return Err(Refusal(3));
        }
        Ok(Board {
            n,
            m,
            release: match release {
                Release::One => 1,
                Release::Two => 2,
            },
            version: LAYOUT,
            nodes: [FRESH; MAX_NODES],
            consoles: [resting(IDLE, 0); MAX_CONSOLES],
            cells: [holding(NOTHING); MAX_CONSOLES * MAX_NODES],
        })
    }

    pub fn begin_read(&mut self, console: u32) -> Result<Answer, Refusal> {
        self.begin(console, ASKS_TO_READ, 0)
    }

    pub fn begin_write(&mut self, console: u32, value: u32) -> Result<Answer, Refusal> {
        self.begin(console, ASKS_TO_WRITE, value)
    }

    pub fn deliver(&mut self, console: u32, node: u32) -> Result<Answer, Refusal> {
        self.ask_question_1()?;
        if console >= self.m {
            return Err(Refusal(4));
        }
        if node >= self.n {
            return Err(Refusal(5));
        }
        let at = console as usize * MAX_NODES + node as usize;
        let Cell { frame, tag, value } = self.cells[at];
        match frame {
            NOTHING => Err(Refusal(8)),
            ASK | PUT if self.consoles[console as usize].state == DOWN => self.discard(at),
            ASK => {
                let Node { up, tag, value } = self.nodes[node as usize];
                if up == 0 {
                    return Err(Refusal(9));
                }
                let frame = REPLY;
                self.cells[at] = Cell { frame, tag, value };
                took_none(Outcome::Handed)
            }
            PUT => {
                let x = &mut self.nodes[node as usize];
                if x.up == 0 {
                    return Err(Refusal(9));
                }
                if is_greater(tag, x.tag) {
                    (x.tag, x.value) = (tag, value);
                }
                self.cells[at] = holding(ACK);
                took_none(Outcome::Handed)
            }
            REPLY => self.reply(console, node, at, tag, value),
            _ => self.ack(console, node, at),
        }
    }

    pub fn node_down(&mut self, node: u32) -> Result<Answer, Refusal> {
        self.set_up(node, 0, Refusal(9))
    }

    pub fn node_up(&mut self, node: u32) -> Result<Answer, Refusal> {
        self.set_up(node, 1, Refusal(14))
    }

    /// The node goes down or comes back; it is refused so if it is so already.
    fn set_up(&mut self, node: u32, up: u32, already: Refusal) -> Result<Answer, Refusal> {
        self.ask_question_1()?;
        if node >= self.n {
            return Err(Refusal(5));
        }
        let x = &mut self.nodes[node as usize];
        if x.up == up {
            return Err(already);
        }
        x.up = up;
        took_none(Outcome::Done)
    }

    /// Questions 1 and 4, and the console.
    fn asked_console(&mut self, console: u32) -> Result<&mut Console, Refusal> {
        self.ask_question_1()?;
        if console >= self.m {
            return Err(Refusal(4));
        }
        Ok(&mut self.consoles[console as usize])
    }

    pub fn console_down(&mut self, console: u32) -> Result<Answer, Refusal> {
        let x = self.asked_console(console)?;
        if x.state == DOWN {
            return Err(Refusal(6));
        }
        *x = resting(DOWN, x.life);
        took_none(Outcome::Done)
    }

    pub fn restart(&mut self, console: u32) -> Result<Answer, Refusal> {
        let x = self.asked_console(console)?;
        if x.state != DOWN {
            return Err(Refusal(15));
        }
        if x.life == MAX_LIFE {
            return Err(Refusal(16));
        }
        *x = resting(IDLE, x.life + 1);
        self.send(console, holding(NOTHING));
        took_none(Outcome::Done)
    }

    fn begin(&mut self, console: u32, asking: u32, wanted: u32) -> Result<Answer, Refusal> {
        let x = self.asked_console(console)?;
        match x.state {
            IDLE => {}
            DOWN => return Err(Refusal(6)),
            _ => return Err(Refusal(7)),
        }
        *x = resting(asking, x.life);
        x.wanted = wanted;
        self.send(console, holding(ASK));
        took_none(Outcome::Done)
    }

    fn reply(&mut self, console: u32, node: u32, at: usize, tag: Tag, value: u32) -> Result<Answer, Refusal> {
        let q = self.majority();
        let x = &mut self.consoles[console as usize];
        let is_asking = x.state == ASKS_TO_READ || x.state == ASKS_TO_WRITE;
        if !is_asking || x.answered >> node & 1 == 1 {
            return self.discard(at);
        }
        let answered = x.answered | 1 << node;
        let compared = compared(tag, x.best);
        let (best, kept) = if compared == Compared::Higher {
            (tag, value)
        } else {
            (x.best, x.value)
        };
        let alike = x.answered == 0 || (x.alike == 1 && compared == Compared::Same);
        if answered.count_ones() < q {
            (x.answered, x.alike, x.best, x.value) = (answered, alike.into(), best, kept);
            self.cells[at] = holding(NOTHING);
            let outcome = Outcome::Heard;
            return Ok(Answer { outcome, compared });
        }
        if alike && x.state == ASKS_TO_READ && self.release == 2 {
            *x = resting(IDLE, x.life);
            self.cells[at] = holding(NOTHING);
            let outcome = Outcome::Finished { tag: best, value: kept };
            return Ok(Answer { outcome, compared });
        }
        let (tag, value) = match x.state {
            ASKS_TO_READ => (best, kept),
            _ if best.ts >= MAX_TS => return Err(Refusal(10)),
            _ => {
                let (ts, life) = (best.ts + 1, x.life);
                (Tag { ts, console, life }, x.wanted)
            }
        };
        (x.state, x.answered, x.alike) = (x.state + 2, 0, 0);
        (x.best, x.value) = (tag, value);
        let frame = PUT;
        self.send(console, Cell { frame, tag, value });
        let outcome = Outcome::Turned;
        Ok(Answer { outcome, compared })
    }

    fn ack(&mut self, console: u32, node: u32, at: usize) -> Result<Answer, Refusal> {
        let q = self.majority();
        let x = &mut self.consoles[console as usize];
        let is_telling = x.state == TELLS_TO_READ || x.state == TELLS_TO_WRITE;
        if !is_telling || x.answered >> node & 1 == 1 {
            return self.discard(at);
        }
        x.answered |= 1 << node;
        self.cells[at] = holding(NOTHING);
        if x.answered.count_ones() < q {
            return took_none(Outcome::Heard);
        }
        let (tag, value) = (x.best, x.value);
        *x = resting(IDLE, x.life);
        took_none(Outcome::Finished { tag, value })
    }

    fn discard(&mut self, at: usize) -> Result<Answer, Refusal> {
        self.cells[at] = holding(NOTHING);
        took_none(Outcome::Discarded)
    }

    /// All n cells of the console hold this.
    fn send(&mut self, console: u32, x: Cell) {
        let from = console as usize * MAX_NODES;
        self.cells[from..from + self.n as usize].fill(x);
    }

    /// The cells that hold a frame.
    pub fn frames(&self) -> u32 {
        self.cells.iter().map(|x| u32::from(x.frame != NOTHING)).sum()
    }

    /// n and m.
    pub fn size(&self) -> (u32, u32) {
        (self.n, self.m)
    }

    /// Whether the frame between this console and this node, which the board has, can be delivered without refusal. Question 1
    /// is not asked.
    pub fn is_deliverable(&self, console: u32, node: u32) -> bool {
        let Cell { frame, tag, .. } = self.cells[console as usize * MAX_NODES + node as usize];
        let x = &self.consoles[console as usize];
        // An ask or a put; by a match, the jumps through a table cost more.
        if frame % 2 == 1 {
            return (self.nodes[node as usize].up == 1) | (x.state == DOWN);
        }
        if frame != REPLY || x.state != ASKS_TO_WRITE {
            return frame != NOTHING;
        }
        let turns = x.answered >> node & 1 == 0 && x.answered.count_ones() + 1 >= self.majority();
        !turns || (tag.ts < MAX_TS && x.best.ts < MAX_TS)
    }

    fn majority(&self) -> u32 {
        self.n / 2 + 1
    }

    pub fn ask_question_1(&self) -> Result<(), Refusal> {
        if CHECKED && !self.is_well_formed() {
            return Err(Refusal(1));
        }
        Ok(())
    }

    /// Whether these are a board's words, and it is well formed.
    fn is_well_formed(&self) -> bool {
        let (n, m) = (self.n as usize, self.m as usize);
        if !(1..=MAX_NODES).contains(&n) || !(1..=MAX_CONSOLES).contains(&m) {
            return false;
        }
        if !(1..=2).contains(&self.release) || self.version != LAYOUT {
            return false;
        }
        let (nodes, no_nodes) = self.nodes.split_at(n);
        let (consoles, no_consoles) = self.consoles.split_at(m);
        let (rows, no_rows) = self.cells.split_at(m * MAX_NODES);
        all(nodes, |x| is_node_ok(self.m, x))
            && all(no_nodes, |x| *x == FRESH)
            && all(consoles, |x| self.is_console_ok(x))
            && all(no_consoles, |x| *x == resting(IDLE, 0))
            && rows.chunks_exact(MAX_NODES).fold(true, |ok, row| {
                let (cells, no_cells) = row.split_at(n);
                ok & all(cells, |x| is_cell_ok(self.m, x)) & all(no_cells, is_nothing)
            })
            && all(no_rows, is_nothing)
    }

    fn is_console_ok(&self, x: &Console) -> bool {
        if x.life > MAX_LIFE {
            return false;
        }
        let count = x.answered.count_ones();
        let phase_ok = match x.state {
            IDLE | DOWN => return *x == resting(x.state, x.life),
            ASKS_TO_READ | ASKS_TO_WRITE => match count {
                0 => x.alike == 0 && x.best == ZERO && x.value == 0,
                1 => x.alike == 1,
                _ => x.alike <= 1,
            },
            TELLS_TO_READ | TELLS_TO_WRITE => x.alike == 0,
            _ => return false,
        };
        let is_write = x.state == ASKS_TO_WRITE || x.state == TELLS_TO_WRITE;
        phase_ok && is_tag_ok(self.m, x.best, x.value) && x.answered < 1 << self.n && count < self.majority() && (is_write || x.wanted == 0)
    }

    /// The board in the library's words.
    pub fn words(&self) -> Words {
        let owner = |tag: Tag| LIVES * tag.console + tag.life;
        let mut w = [0; BOARD_WORDS];
        (w[0], w[1], w[RELEASE], w[VERSION]) = (self.n, self.m, self.release, self.version);
        for (four, x) in w[NODES..CONSOLES].chunks_exact_mut(NODE).zip(&self.nodes) {
            four.copy_from_slice(&[x.up, x.tag.ts, owner(x.tag), x.value]);
        }
        for (eight, x) in w[CONSOLES..CELLS].chunks_exact_mut(CONSOLE).zip(&self.consoles) {
            eight.copy_from_slice(&[x.state, x.wanted, x.answered, x.best.ts, owner(x.best), x.value, x.alike, x.life]);
        }
        for (four, x) in w[CELLS..].chunks_exact_mut(CELL).zip(&self.cells) {
            four.copy_from_slice(&[x.frame, x.tag.ts, owner(x.tag), x.value]);
        }
        w
    }

    /// These words, whatever they are.
    pub fn from_words(w: &Words) -> Self {
        Board {
            n: w[0],
            m: w[1],
            release: w[RELEASE],
            version: w[VERSION],
            nodes: std::array::from_fn(|k| {
                let four = &w[NODES + NODE * k..];
                Node {
                    up: four[0],
                    tag: tag_in(&four[1..]),
                    value: four[3],
                }
            }),
            consoles: std::array::from_fn(|c| {
                let eight = &w[CONSOLES + CONSOLE * c..];
                Console {
                    state: eight[0],
                    wanted: eight[1],
                    answered: eight[2],
                    best: tag_in(&eight[3..]),
                    value: eight[5],
                    alike: eight[6],
                    life: eight[7],
                }
            }),
            cells: std::array::from_fn(|i| {
                let four = &w[CELLS + CELL * i..];
                Cell {
                    frame: four[0],
                    tag: tag_in(&four[1..]),
                    value: four[3],
                }
            }),
        }
    }
}
