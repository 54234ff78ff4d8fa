//! The board as document 01 and Papers 2, 3, 4, 6, 7 and 8 say it, in sets and maps: what it is, when it is well formed,
//! the questions put before each step, the steps, and what a preview gives. Nothing here is shared with the library.
pub use common::{Kind, State, Step};
use std::cmp::Ordering;
use std::collections::{BTreeMap, BTreeSet};

pub const MAX_TS: u64 = 4_000_000_000;

pub const MAX_LIFE: u64 = 1000;

/// A tag: ts, then console number, then life (Paper 7); so the order of tuples is the order of tags.
pub type Tag = (u64, u64, u64);

pub const ZERO: Tag = (0, 0, 0);

#[derive(Clone, Copy, Debug, PartialEq, Eq)]
pub enum Frame {
    Ask,
    Reply(Tag, u32),
    Put(Tag, u32),
    Ack,
}

impl Frame {
    /// Ask and put go to the node; reply and ack go to the console.
    pub fn goes_to_node(&self) -> bool {
        matches!(self, Frame::Ask | Frame::Put(..))
    }
}

#[derive(Clone, Debug, PartialEq, Eq)]
pub struct Node {
    pub up: bool,
    pub tag: Tag,
    pub value: u32,
}

impl Node {
    pub fn fresh() -> Node {
        Node {
            up: true,
            tag: ZERO,
            value: 0,
        }
    }

    /// If the put's tag is greater than the node's, the node takes tag and value; otherwise it keeps its own.
    pub fn take_put(&mut self, tag: Tag, value: u32) {
        if tag > self.tag {
            (self.tag, self.value) = (tag, value);
        }
    }
}

#[derive(Clone, Debug, PartialEq, Eq)]
pub struct Console {
    pub state: State,
    pub wanted: u32,
    pub answered: BTreeSet<u32>,
    pub best: Tag,
    pub value: u32,
    /// Paper 3's mark: all alike so far.
    pub alike: bool,
    /// Paper 7's life, 0 at first.
    pub life: u64,
}

impl Console {
    /// Nothing answered, best (0, 0) and 0, wanted value 0, mark off. The life is no part of an operation.
    pub fn at_rest(state: State, life: u64) -> Console {
        Console {
            state,
            wanted: 0,
            answered: BTreeSet::new(),
            best: ZERO,
            value: 0,
            alike: false,
            life,
        }
    }

    /// Asking, and no answer yet from this node.
    pub fn awaits_reply(&self, k: u32) -> bool {
        matches!(self.state, State::Asking(_)) && !self.answered.contains(&k)
    }

    /// Telling, and no answer yet from this node.
    fn awaits_ack(&self, k: u32) -> bool {
        matches!(self.state, State::Telling(_)) && !self.answered.contains(&k)
    }

    /// The node joins the answered set, and best becomes the greater of best and the reply; on equal tags best keeps
    /// its value. How the reply compared is how its tag stood to the old best. The mark is set by the first answer of
    /// asking and cleared by any differing tag.
    pub fn take_reply(&mut self, k: u32, tag: Tag, value: u32, compared: Compared) {
        self.alike = self.answered.is_empty() || (self.alike && compared == Compared::Same);
        self.answered.insert(k);
        if compared == Compared::Higher {
            (self.best, self.value) = (tag, value);
        }
    }
}

/// What a board is made under, and keeps (Paper 4).
#[derive(Clone, Copy, Debug, PartialEq, Eq)]
pub enum Release {
    One,
    Two,
}

pub const RELEASES: [Release; 2] = [Release::One, Release::Two];

/// Nodes 0 to 4 and consoles 0 to 7 are always there; a cell is there if it holds a frame.
#[derive(Clone, Debug, PartialEq, Eq)]
pub struct Model {
    pub n: u32,
    pub m: u32,
    pub release: Release,
    pub nodes: BTreeMap<u32, Node>,
    pub consoles: BTreeMap<u32, Console>,
    pub cells: BTreeMap<(u32, u32), Frame>,
}

#[derive(Clone, Copy, Debug, PartialEq, Eq)]
pub enum Outcome {
    Done,
    Handed,
    Heard,
    Turned,
    Finished(Tag, u32),
    Discarded,
}

/// How the tag of a reply that was taken in stood to the old best; none if no reply was.
#[derive(Clone, Copy, Debug, PartialEq, Eq)]
pub enum Compared {
    None,
    Lower,
    Same,
    Higher,
}

impl Compared {
    pub fn of<T: Ord>(tag: T, best: T) -> Compared {
        match tag.cmp(&best) {
            Ordering::Less => Compared::Lower,
            Ordering::Equal => Compared::Same,
            Ordering::Greater => Compared::Higher,
        }
    }
}

/// What a step answers: its outcome or its refusal, and how the reply compared.
#[derive(Clone, Copy, Debug, PartialEq, Eq)]
pub struct Answer {
    pub outcome: Result<Outcome, u32>,
    pub compared: Compared,
}

impl Answer {
    /// Of a step that takes no reply in.
    pub fn plain(outcome: Result<Outcome, u32>) -> Answer {
        Answer {
            outcome,
            compared: Compared::None,
        }
    }
}

/// A no to a question gives the refusal with its number.
fn question(number: u32, yes: bool) -> Result<(), u32> {
    if yes {
        Ok(())
    } else {
        Err(number)
    }
}

/// The board and when it is well formed.
impl Model {
    /// Under release 1, as a list of steps and a schedule make it.
    pub fn fresh(n: u32, m: u32) -> Result<Model, u32> {
        Model::fresh_under(n, m, Release::One)
    }

    /// All nodes are up with tag (0, 0) and value 0, all consoles idle, all cells empty.
    pub fn fresh_under(n: u32, m: u32, release: Release) -> Result<Model, u32> {
        question(2, (1..=5).contains(&n))?;
        question(3, (1..=8).contains(&m))?;
        Ok(Model {
            n,
            m,
            release,
            nodes: (0..5).map(|k| (k, Node::fresh())).collect(),
            consoles: (0..8).map(|c| (c, Console::at_rest(State::Idle, 0))).collect(),
            cells: BTreeMap::new(),
        })
    }

    /// q is n / 2 rounded down, plus 1.
    pub fn majority(&self) -> usize {
        (self.n / 2 + 1) as usize
    }

    pub fn is_well_formed(&self) -> bool {
        (1..=5).contains(&self.n)
            && (1..=8).contains(&self.m)
            && self.nodes.iter().all(|(k, x)| self.is_node_good(*k, x))
            && self.consoles.iter().all(|(c, x)| self.is_console_good(*c, x))
            && self.cells.iter().all(|((c, k), frame)| self.is_cell_good(*c, *k, frame))
    }

    fn is_tag_good(&self, tag: Tag, value: u32) -> bool {
        is_tag_good(self.m, tag, value)
    }

    /// Nodes beyond n are up with tag (0, 0) and value 0.
    fn is_node_good(&self, k: u32, x: &Node) -> bool {
        self.is_tag_good(x.tag, x.value) && (k < self.n || *x == Node::fresh())
    }

    /// Cells beyond n and m are empty.
    fn is_cell_good(&self, c: u32, k: u32, frame: &Frame) -> bool {
        let is_tag_good = match frame {
            Frame::Reply(tag, value) | Frame::Put(tag, value) => self.is_tag_good(*tag, *value),
            Frame::Ask | Frame::Ack => true,
        };
        is_tag_good && c < self.m && k < self.n
    }

    /// No console has a life above 1,000. Consoles beyond m are idle and have life 0.
    fn is_console_good(&self, c: u32, x: &Console) -> bool {
        let is_state_good = match x.state {
            State::Idle | State::Down => *x == Console::at_rest(x.state, x.life),
            State::Asking(kind) => self.is_waiting_good(kind, x) && is_asking_good(x),
            State::Telling(kind) => self.is_waiting_good(kind, x) && !x.alike,
        };
        let is_there = c < self.m || (x.state == State::Idle && x.life == 0);
        is_state_good && is_there && self.is_tag_good(x.best, x.value) && x.life <= MAX_LIFE
    }

    /// A waiting console's answered set names only nodes below n and has fewer than q members; a read's wanted value is
    /// 0.
    fn is_waiting_good(&self, kind: Kind, x: &Console) -> bool {
        x.answered.iter().all(|k| *k < self.n) && x.answered.len() < self.majority() && (kind == Kind::Write || x.wanted == 0)
    }
}

/// For m consoles: every tag has ts at most 4,000,000,000, a console number below m and a life at most 1,000; a tag with ts 0
/// has console 0, life 0 and value 0.
pub fn is_tag_good(m: u32, tag: Tag, value: u32) -> bool {
    let (ts, console, life) = tag;
    ts <= MAX_TS && console < u64::from(m) && life <= MAX_LIFE && (ts != 0 || (tag == ZERO && value == 0))
}

/// An asking console with nothing answered has best tag (0, 0) and value 0. The mark is off while nothing is answered,
/// on at exactly one answer of asking.
fn is_asking_good(x: &Console) -> bool {
    match x.answered.len() {
        0 => x.best == ZERO && x.value == 0 && !x.alike,
        1 => x.alike,
        _ => true,
    }
}

/// The questions put before each step.
impl Model {
    /// Asked in this order, as far as the step needs them. The first no gives the refusal with that number.
    pub fn ask(&self, step: Step) -> Result<(), u32> {
        question(1, self.is_well_formed())?;
        let has_console = |c| question(4, c < self.m);
        let has_node = |k| question(5, k < self.n);
        let is_console_up = |c| question(6, self.consoles[&c].state != State::Down);
        let is_console_idle = |c| question(7, self.consoles[&c].state == State::Idle);
        let is_node_up = |k| question(9, self.nodes[&k].up);
        let is_node_down = |k| question(14, !self.nodes[&k].up);
        let is_console_down = |c| question(15, self.consoles[&c].state == State::Down);
        let has_life_left = |c| question(16, self.consoles[&c].life < MAX_LIFE);
        match step {
            Step::BeginRead(c) | Step::BeginWrite(c, _) => {
                has_console(c)?;
                is_console_up(c)?;
                is_console_idle(c)
            }
            Step::Deliver(c, k) => {
                has_console(c)?;
                has_node(k)?;
                let frame = self.cells.get(&(c, k)).ok_or(8u32)?;
                if self.is_withdrawn(c, frame) {
                    return Ok(());
                }
                match frame {
                    Frame::Ask | Frame::Put(..) => is_node_up(k),
                    Frame::Reply(tag, value) => self.ask_last_ts(c, k, *tag, *value),
                    Frame::Ack => Ok(()),
                }
            }
            Step::NodeDown(k) => {
                has_node(k)?;
                is_node_up(k)
            }
            Step::ConsoleDown(c) => {
                has_console(c)?;
                is_console_up(c)
            }
            Step::NodeUp(k) => {
                has_node(k)?;
                is_node_down(k)
            }
            Step::Restart(c) => {
                has_console(c)?;
                is_console_down(c)?;
                has_life_left(c)
            }
        }
    }

    /// Paper 6: an ask or a put of a down console. It is decided after question 8 and before question 9.
    fn is_withdrawn(&self, c: u32, frame: &Frame) -> bool {
        frame.goes_to_node() && self.consoles[&c].state == State::Down
    }

    /// The console with this reply taken in, and how it compared; none if the reply is discarded.
    pub fn heard(&self, c: u32, k: u32, tag: Tag, value: u32) -> Option<(Console, Compared)> {
        let mut x = self.consoles[&c].clone();
        let compared = Compared::of(tag, x.best);
        x.awaits_reply(k).then(|| {
            x.take_reply(k, tag, value, compared);
            (x, compared)
        })
    }

    /// If this delivery turns a write, is best ts, with this reply taken in, below 4,000,000,000?
    fn ask_last_ts(&self, c: u32, k: u32, tag: Tag, value: u32) -> Result<(), u32> {
        let can_turn = self.heard(c, k, tag, value).is_none_or(|(x, _)| self.can_turn(&x));
        question(10, can_turn)
    }

    /// Whether a console with a reply taken in may go on: it turns no write, or has a ts left for it.
    pub fn can_turn(&self, x: &Console) -> bool {
        let turns_write = x.state == State::Asking(Kind::Write) && x.answered.len() >= self.majority();
        !turns_write || x.best.0 < MAX_TS
    }
}

/// The steps.
impl Model {
    /// The answer and the next board. If the step is refused, the board comes back unchanged.
    pub fn step(&self, step: Step) -> (Answer, Model) {
        let mut next = self.clone();
        let answer = match self.ask(step) {
            Ok(()) => next.take(step),
            Err(refusal) => Answer::plain(Err(refusal)),
        };
        (answer, next)
    }

    /// A step that no question refuses.
    fn take(&mut self, step: Step) -> Answer {
        let outcome = match step {
            Step::BeginRead(c) => self.begin(c, Kind::Read, 0),
            Step::BeginWrite(c, v) => self.begin(c, Kind::Write, v),
            Step::Deliver(c, k) => return self.deliver(c, k),
            Step::NodeDown(k) => self.set_node_up(k, false),
            Step::ConsoleDown(c) => self.console_down(c),
            Step::NodeUp(k) => self.set_node_up(k, true),
            Step::Restart(c) => self.restart(c),
        };
        Answer::plain(Ok(outcome))
    }

    /// The console becomes asking, with nothing answered and best (0, 0), 0. All n of its cells become ask, whatever
    /// they held.
    fn begin(&mut self, c: u32, kind: Kind, wanted: u32) -> Outcome {
        let asking = Console::at_rest(State::Asking(kind), self.consoles[&c].life);
        self.consoles.insert(c, Console { wanted, ..asking });
        self.send_all(c, Frame::Ask);
        Outcome::Done
    }

    /// Down or up again, the node keeps tag and value.
    fn set_node_up(&mut self, k: u32, up: bool) -> Outcome {
        self.nodes.get_mut(&k).expect("it is there").up = up;
        Outcome::Done
    }

    /// Its operation is gone, its cells are as they are, and it keeps its life.
    fn console_down(&mut self, c: u32) -> Outcome {
        let life = self.consoles[&c].life;
        self.consoles.insert(c, Console::at_rest(State::Down, life));
        Outcome::Done
    }

    /// Restart makes a down console idle with its life one higher and empties its cells.
    pub fn restart(&mut self, c: u32) -> Outcome {
        let life = self.consoles[&c].life;
        self.consoles.insert(c, Console::at_rest(State::Idle, life + 1));
        self.cells.retain(|(d, _), _| *d != c);
        Outcome::Done
    }

    pub fn send_all(&mut self, c: u32, frame: Frame) {
        for k in 0..self.n {
            self.cells.insert((c, k), frame);
        }
    }

    /// Takes the frame in that cell.
    fn deliver(&mut self, c: u32, k: u32) -> Answer {
        let frame = self.cells.remove(&(c, k)).expect("question 8 was asked");
        let outcome = match frame {
            _ if self.is_withdrawn(c, &frame) => Outcome::Discarded,
            Frame::Ask => self.hand_ask(c, k),
            Frame::Put(tag, value) => self.hand_put(c, k, tag, value),
            Frame::Reply(tag, value) => match self.heard(c, k, tag, value) {
                Some((x, compared)) => {
                    let outcome = Ok(self.hear_reply(c, x));
                    return Answer { outcome, compared };
                }
                None => Outcome::Discarded,
            },
            Frame::Ack => self.hear_ack(c, k),
        };
        Answer::plain(Ok(outcome))
    }

    /// The cell becomes reply with the node's tag and value.
    fn hand_ask(&mut self, c: u32, k: u32) -> Outcome {
        let node = &self.nodes[&k];
        self.cells.insert((c, k), Frame::Reply(node.tag, node.value));
        Outcome::Handed
    }

    /// The node keeps the greater tag, with its value. The cell becomes ack.
    fn hand_put(&mut self, c: u32, k: u32, tag: Tag, value: u32) -> Outcome {
        self.nodes.get_mut(&k).expect("question 5 was asked").take_put(tag, value);
        self.cells.insert((c, k), Frame::Ack);
        Outcome::Handed
    }

    /// The console with a reply taken in. With fewer than q answers the outcome is heard. At q answers a read finishes
    /// from release 2 on if all carry the same tag (Paper 4), and otherwise the console becomes telling.
    pub fn hear_reply(&mut self, c: u32, x: Console) -> Outcome {
        let is_quiet_read = x.state == State::Asking(Kind::Read) && x.alike;
        let answers = x.answered.len();
        self.consoles.insert(c, x);
        if answers < self.majority() {
            Outcome::Heard
        } else if self.release == Release::Two && is_quiet_read {
            self.finish(c)
        } else {
            self.turn(c)
        }
    }

    /// The console becomes telling: a read keeps best; a write takes the tag (best ts + 1, own number), with the
    /// current life, and the wanted value as its best. The answered set empties, the kind and wanted value stay, and
    /// all n cells become put with that tag and value.
    fn turn(&mut self, c: u32) -> Outcome {
        let x = self.consoles.get_mut(&c).expect("question 4 was asked");
        if x.state == State::Asking(Kind::Write) {
            (x.best, x.value) = ((x.best.0 + 1, u64::from(c), x.life), x.wanted);
            x.state = State::Telling(Kind::Write);
        } else {
            x.state = State::Telling(Kind::Read);
        }
        x.answered.clear();
        x.alike = false;
        let put = Frame::Put(x.best, x.value);
        self.send_all(c, put);
        Outcome::Turned
    }

    /// At a telling console that has no answer yet from this node it joins the set. Below q: heard.
    fn hear_ack(&mut self, c: u32, k: u32) -> Outcome {
        let q = self.majority();
        let x = self.consoles.get_mut(&c).expect("question 4 was asked");
        if !x.awaits_ack(k) {
            return Outcome::Discarded;
        }
        x.answered.insert(k);
        if x.answered.len() < q {
            Outcome::Heard
        } else {
            self.finish(c)
        }
    }

    /// The console becomes idle and its own fields clear, but for its life; finished with the best tag and value it
    /// had. Its other cells keep their frames.
    pub fn finish(&mut self, c: u32) -> Outcome {
        let idle = Console::at_rest(State::Idle, self.consoles[&c].life);
        let x = self.consoles.insert(c, idle).expect("question 4 was asked");
        Outcome::Finished(x.best, x.value)
    }
}

/// What a preview gives (Paper 8): the outcome with tag and value, or the refusal, and the frames in flight after it.
#[derive(Clone, Copy, Debug, PartialEq, Eq)]
pub struct Preview {
    pub outcome: Result<Outcome, u32>,
    pub in_flight: u32,
}

impl Preview {
    /// Of a delivery that answered so on a copy: the cells that hold a frame there, 0 under refusal 1.
    pub fn of(answer: Answer, copy: &Model) -> Preview {
        let outcome = answer.outcome;
        let in_flight = if outcome == Err(1) { 0 } else { copy.cells.len() as u32 };
        Preview { outcome, in_flight }
    }
}
