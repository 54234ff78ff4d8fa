//! Runs of which each answer is known: document 01's extras, and those that show what Papers 2, 3, 4, 6 and 7 say.
use crate::beside::{both, differ, made, Agreed};
use crate::faults::Faulty;
use crate::model::{Answer, Compared, Console, Frame, Model, Outcome, Release, Step, Tag, MAX_LIFE, MAX_TS, RELEASES, ZERO};
use crate::words;
use hatukeno::Board;

pub fn runs() -> Agreed {
    extras()?;
    node_back()?;
    disk_intact()?;
    replies_compared()?;
    none_compared()?;
    quiet_reads()?;
    not_early()?;
    other_cells()?;
    last_ts_read()?;
    asks_withdrawn()?;
    puts_withdrawn()?;
    restarts()?;
    lives_apart()?;
    lives_kept()?;
    last_life()?;
    lives_compared()
}

/// A board of the library and the model beside it.
struct Known {
    board: Board,
    model: Model,
}

impl Known {
    fn fresh(n: u32, m: u32) -> Known {
        Known::under(n, m, Release::One)
    }

    fn under(n: u32, m: u32, release: Release) -> Known {
        let (board, model) = made(n, m, release);
        Known { board, model }
    }

    /// No operation yet, and each of the n nodes holds this.
    fn holding(n: u32, m: u32, release: Release, tag: Tag, value: u32) -> Known {
        let (_, mut model) = made(n, m, release);
        for node in model.nodes.values_mut().take(n as usize) {
            (node.tag, node.value) = (tag, value);
        }
        Known::of(model)
    }

    /// This board, whether steps lead to it or not.
    fn of(model: Model) -> Known {
        Known {
            board: Board::from_words(words::write(&model)),
            model,
        }
    }

    /// The library's board is to be this one.
    fn expect_board(&self, expected: &Model, after: &str) -> Agreed {
        if *self.board.words() != words::write(expected) {
            let left = words::read(self.board.words());
            return differ(&[format!("after {after} the board is {left:?}")]);
        }
        Ok(())
    }

    /// Each of these steps is done.
    fn done(&mut self, steps: &[Step]) -> Agreed {
        steps.iter().try_for_each(|step| self.expect(*step, Ok(Outcome::Done)))
    }

    /// A step that takes no reply in.
    fn expect(&mut self, step: Step, outcome: Result<Outcome, u32>) -> Agreed {
        self.expect_answer(step, Answer::plain(outcome))
    }

    fn expect_answer(&mut self, step: Step, answer: Answer) -> Agreed {
        let got = both(&mut self.board, &mut self.model, step, Faulty::NOT)?;
        if got != answer {
            return differ(&[format!("{step:?} answered {got:?}, not {answer:?}")]);
        }
        Ok(())
    }

    /// The node replies at once and the console takes the reply in: what that says, and whether the mark is on after
    /// it.
    fn reply(&mut self, c: u32, k: u32, outcome: Outcome, compared: Compared, is_on: bool) -> Agreed {
        let outcome = Ok(outcome);
        self.expect(Step::Deliver(c, k), Ok(Outcome::Handed))?;
        self.expect_answer(Step::Deliver(c, k), Answer { outcome, compared })?;
        if words::read(self.board.words()).is_none_or(|board| board.consoles[&c].alike != is_on) {
            return differ(&[format!("the mark of console {c} is wrong after node {k}'s reply")]);
        }
        Ok(())
    }

    /// The node acks at once.
    fn ack(&mut self, c: u32, k: u32, outcome: Outcome) -> Agreed {
        self.expect(Step::Deliver(c, k), Ok(Outcome::Handed))?;
        self.expect(Step::Deliver(c, k), Ok(outcome))
    }

    /// An operation that this step begins goes through by two nodes, a majority, each answering at once; and how their
    /// replies compare.
    fn finish(&mut self, c: u32, begin: Step, [a, b]: [(u32, Compared); 2], finished: Outcome) -> Agreed {
        self.expect(begin, Ok(Outcome::Done))?;
        self.reply(c, a.0, Outcome::Heard, a.1, true)?;
        self.reply(c, b.0, Outcome::Turned, b.1, false)?;
        self.ack(c, a.0, Outcome::Heard)?;
        self.ack(c, b.0, finished)
    }

    /// After these steps console 0 asks, and nodes 0 and 1 of three are down. Once node 2 has answered, no frame can be
    /// delivered.
    fn wait(&mut self, steps: [Step; 3]) -> Agreed {
        for step in steps {
            self.expect(step, Ok(Outcome::Done))?;
        }
        self.reply(0, 2, Outcome::Heard, Compared::Same, true)?;
        self.expect(Step::Deliver(0, 0), Err(9))?;
        self.expect(Step::Deliver(0, 1), Err(9))?;
        self.expect(Step::Deliver(0, 2), Err(8))
    }
}

/// Both extras of document 01.
fn extras() -> Agreed {
    let mut board = Known::fresh(3, 2);
    let heard = [(0, Compared::Same), (2, Compared::Same)];
    board.finish(1, Step::BeginWrite(1, 7), heard, Outcome::Finished((1, 1, 0), 7))?;
    board.expect(Step::Deliver(1, 1), Ok(Outcome::Handed))?;
    board.expect(Step::Deliver(1, 1), Ok(Outcome::Discarded))?;

    let mut board = Known::fresh(3, 2);
    board.wait([Step::NodeDown(0), Step::NodeDown(1), Step::BeginRead(0)])
}

/// Paper 2. A console waits without a majority, and goes on once a node is back.
fn node_back() -> Agreed {
    let mut board = Known::fresh(3, 1);
    board.wait([Step::BeginRead(0), Step::NodeDown(0), Step::NodeDown(1)])?;
    board.expect(Step::NodeUp(1), Ok(Outcome::Done))?;
    board.expect(Step::NodeUp(1), Err(14))?;
    board.expect(Step::NodeUp(3), Err(5))?;
    board.expect(Step::NodeUp(u32::MAX), Err(5))?;
    board.reply(0, 1, Outcome::Turned, Compared::Same, false)
}

/// Paper 2. Of nodes 0 and 1 only node 0 took the write, and a read by these two hears it from there after its down and
/// up.
fn disk_intact() -> Agreed {
    let mut board = Known::fresh(3, 2);
    let written = Outcome::Finished((1, 1, 0), 7);
    board.finish(1, Step::BeginWrite(1, 7), [(0, Compared::Same), (2, Compared::Same)], written)?;
    board.expect(Step::NodeDown(0), Ok(Outcome::Done))?;
    board.expect(Step::NodeUp(0), Ok(Outcome::Done))?;
    board.finish(0, Step::BeginRead(0), [(0, Compared::Higher), (1, Compared::Lower)], written)
}

/// Paper 3. Of five nodes 0 and 1 hold a write, and consoles read by three of them in several orders.
fn replies_compared() -> Agreed {
    use Compared::{Higher, Lower, Same};
    use Outcome::{Heard, Turned};
    let mut model = Model::fresh(5, 5).expect("an allowed size");
    for k in [0, 1] {
        let node = model.nodes.get_mut(&k).expect("one of five");
        (node.tag, node.value) = ((1, 1, 0), 7);
    }
    let mut board = Known::of(model);
    let reads = [
        [(0, Higher, true), (1, Same, true), (2, Lower, false)],
        [(0, Higher, true), (2, Lower, false), (1, Same, false)],
        [(2, Same, true), (3, Same, true), (4, Same, false)],
        [(2, Same, true), (3, Same, true), (0, Higher, false)],
        [(2, Same, true), (0, Higher, false), (3, Lower, false)],
    ];
    for (c, replies) in (0..).zip(reads) {
        board.expect(Step::BeginRead(c), Ok(Outcome::Done))?;
        for ((k, compared, is_on), outcome) in replies.into_iter().zip([Heard, Heard, Turned]) {
            board.reply(c, k, outcome, compared, is_on)?;
        }
    }
    Ok(())
}

/// Paper 3. A delivery says none if question 10 refuses it, and if the reply is discarded.
fn none_compared() -> Agreed {
    let mut model = Model::fresh(1, 1).expect("an allowed size");
    model.nodes.get_mut(&0).expect("the node").tag = (MAX_TS, 0, 0);
    let mut board = Known::of(model);
    board.expect(Step::BeginWrite(0, 7), Ok(Outcome::Done))?;
    board.expect(Step::Deliver(0, 0), Ok(Outcome::Handed))?;
    board.expect(Step::Deliver(0, 0), Err(10))?;
    board.expect(Step::ConsoleDown(0), Ok(Outcome::Done))?;
    board.expect(Step::Deliver(0, 0), Ok(Outcome::Discarded))
}

/// Paper 4. With three nodes the second of two replies that are alike finishes a read under release 2, and turns it
/// under release 1; with one node the only reply does.
fn quiet_reads() -> Agreed {
    for (tag, value, first) in [(ZERO, 0, Compared::Same), ((1, 1, 0), 7, Compared::Higher)] {
        for (release, last) in RELEASES.into_iter().zip([Outcome::Turned, Outcome::Finished(tag, value)]) {
            let mut board = Known::holding(3, 2, release, tag, value);
            board.expect(Step::BeginRead(0), Ok(Outcome::Done))?;
            board.reply(0, 0, Outcome::Heard, first, true)?;
            board.reply(0, 2, last, Compared::Same, false)?;

            let mut board = Known::holding(1, 2, release, tag, value);
            board.expect(Step::BeginRead(0), Ok(Outcome::Done))?;
            board.reply(0, 0, last, first, false)?;
        }
    }
    Ok(())
}

/// Paper 4. Under release 2 a write tells although all replies are alike, and so does a read whose replies differ.
fn not_early() -> Agreed {
    use Compared::{Higher, Lower, Same};
    let mut board = Known::under(3, 2, Release::Two);
    let written = Outcome::Finished((1, 1, 0), 7);
    board.finish(1, Step::BeginWrite(1, 7), [(0, Same), (2, Same)], written)?;
    board.finish(0, Step::BeginRead(0), [(1, Same), (2, Higher)], written)?;
    let written = Outcome::Finished((2, 1, 0), 8);
    board.finish(1, Step::BeginWrite(1, 8), [(1, Higher), (2, Same)], written)?;
    board.finish(0, Step::BeginRead(0), [(2, Higher), (0, Lower)], written)?;

    let mut board = Known::under(1, 1, Release::Two);
    board.expect(Step::BeginWrite(0, 7), Ok(Outcome::Done))?;
    board.reply(0, 0, Outcome::Turned, Same, false)?;
    board.ack(0, 0, Outcome::Finished((1, 0, 0), 7))
}

/// Paper 4. Of five nodes 0, 1 and 2 finish a read early; the ask to node 3 and the reply of node 4 stay as they are,
/// and come to nothing.
fn other_cells() -> Agreed {
    let mut board = Known::holding(5, 2, Release::Two, (1, 1, 0), 7);
    board.expect(Step::BeginRead(0), Ok(Outcome::Done))?;
    board.expect(Step::Deliver(0, 4), Ok(Outcome::Handed))?;
    board.reply(0, 0, Outcome::Heard, Compared::Higher, true)?;
    board.reply(0, 1, Outcome::Heard, Compared::Same, true)?;
    board.reply(0, 2, Outcome::Finished((1, 1, 0), 7), Compared::Same, false)?;

    let mut expected = Known::holding(5, 2, Release::Two, (1, 1, 0), 7).model;
    expected.cells.insert((0, 3), Frame::Ask);
    expected.cells.insert((0, 4), Frame::Reply((1, 1, 0), 7));
    board.expect_board(&expected, "an early finish")?;
    board.expect(Step::Deliver(0, 3), Ok(Outcome::Handed))?;
    board.expect(Step::Deliver(0, 3), Ok(Outcome::Discarded))?;
    board.expect(Step::Deliver(0, 4), Ok(Outcome::Discarded))
}

/// Paper 4. Question 10 is not asked of a read that finishes early, and is of a write.
fn last_ts_read() -> Agreed {
    let mut board = Known::holding(1, 1, Release::Two, (MAX_TS, 0, 0), 7);
    board.expect(Step::BeginRead(0), Ok(Outcome::Done))?;
    board.reply(0, 0, Outcome::Finished((MAX_TS, 0, 0), 7), Compared::Higher, false)?;
    board.expect(Step::BeginWrite(0, 8), Ok(Outcome::Done))?;
    board.expect(Step::Deliver(0, 0), Ok(Outcome::Handed))?;
    board.expect(Step::Deliver(0, 0), Err(10))
}

/// Paper 6. Of the three asks of a console that goes down one was answered, whose reply is discarded as before; the
/// others are withdrawn, from node 1 that is up and from node 2 that is down.
fn asks_withdrawn() -> Agreed {
    let mut board = Known::fresh(3, 2);
    board.expect(Step::BeginRead(0), Ok(Outcome::Done))?;
    board.expect(Step::Deliver(0, 0), Ok(Outcome::Handed))?;
    board.expect(Step::NodeDown(2), Ok(Outcome::Done))?;
    board.expect(Step::Deliver(0, 2), Err(9))?;
    board.expect(Step::ConsoleDown(0), Ok(Outcome::Done))?;
    for k in 0..3 {
        board.expect(Step::Deliver(0, k), Ok(Outcome::Discarded))?;
        board.expect(Step::Deliver(0, k), Err(8))?;
    }
    Ok(())
}

/// Paper 6. A write has reached node 0 when its console goes down; its puts to nodes 1 and 2 are withdrawn one by one,
/// and change nothing else. So is that to node 1 where this node is down.
fn puts_withdrawn() -> Agreed {
    for node_down in [false, true] {
        let mut board = Known::fresh(3, 2);
        board.expect(Step::BeginWrite(1, 7), Ok(Outcome::Done))?;
        board.reply(1, 0, Outcome::Heard, Compared::Same, true)?;
        board.reply(1, 2, Outcome::Turned, Compared::Same, false)?;
        board.expect(Step::Deliver(1, 0), Ok(Outcome::Handed))?;
        board.expect(Step::ConsoleDown(1), Ok(Outcome::Done))?;
        if node_down {
            board.expect(Step::NodeDown(1), Ok(Outcome::Done))?;
        }
        let mut expected = board.model.clone();
        for k in [1, 2] {
            expected.cells.remove(&(1, k));
            board.expect(Step::Deliver(1, k), Ok(Outcome::Discarded))?;
            board.expect_board(&expected, "a withdrawn put")?;
        }
        board.expect(Step::Deliver(1, 0), Ok(Outcome::Discarded))?;
    }
    Ok(())
}

/// Paper 7. An idle console is not restarted, nor one that waits, nor one that is not there. One that is down becomes
/// idle with its life one higher, and its cells empty, one with a reply and two with asks, one of these to a node that
/// is down. The cells of the other console stay.
fn restarts() -> Agreed {
    let mut board = Known::fresh(3, 2);
    board.expect(Step::Restart(0), Err(15))?;
    board.expect(Step::Restart(2), Err(4))?;
    board.expect(Step::Restart(u32::MAX), Err(4))?;
    board.done(&[Step::BeginRead(0), Step::BeginWrite(1, 7)])?;
    board.expect(Step::Restart(0), Err(15))?;
    board.reply(1, 0, Outcome::Heard, Compared::Same, true)?;
    board.reply(1, 2, Outcome::Turned, Compared::Same, false)?;
    board.expect(Step::Restart(1), Err(15))?;
    board.expect(Step::Deliver(0, 0), Ok(Outcome::Handed))?;
    board.done(&[Step::NodeDown(2), Step::ConsoleDown(0)])?;
    let mut expected = board.model.clone();
    for k in 0..3 {
        expected.cells.remove(&(0, k));
    }
    for life in 1..=3 {
        board.done(&[Step::Restart(0)])?;
        let idle = Known::fresh(3, 2).model.consoles[&0].clone();
        expected.consoles.insert(0, Console { life, ..idle });
        board.expect_board(&expected, "a restart")?;
        board.expect(Step::Restart(0), Err(15))?;
        board.done(&[Step::ConsoleDown(0)])?;
    }
    board.expect(Step::BeginRead(0), Err(6))?;
    board.done(&[Step::Restart(0), Step::BeginRead(0)])
}

/// Paper 7. Of a write of 7 the put reached node 0 alone. Its console goes down, restarts and writes 8, having heard of
/// nothing: the tags of the two writes differ in the life alone. Node 0 takes the second, and a read by nodes 0 and 1
/// returns it.
fn lives_apart() -> Agreed {
    use Compared::{Higher, Same};
    let mut board = Known::fresh(3, 2);
    board.done(&[Step::BeginWrite(0, 7)])?;
    board.reply(0, 0, Outcome::Heard, Same, true)?;
    board.reply(0, 2, Outcome::Turned, Same, false)?;
    board.expect(Step::Deliver(0, 0), Ok(Outcome::Handed))?;
    board.done(&[Step::ConsoleDown(0), Step::Restart(0)])?;
    let written = Outcome::Finished((1, 0, 1), 8);
    board.finish(0, Step::BeginWrite(0, 8), [(1, Same), (2, Same)], written)?;
    let mut expected = board.model.clone();
    let node = expected.nodes.get_mut(&0).expect("one of three");
    if (node.tag, node.value) != ((1, 0, 0), 7) {
        return differ(&[format!("node 0 holds {node:?}, not the first write")]);
    }
    (node.tag, node.value) = ((1, 0, 1), 8);
    expected.cells.insert((0, 0), Frame::Ack);
    board.expect(Step::Deliver(0, 0), Ok(Outcome::Handed))?;
    board.expect_board(&expected, "the second put")?;
    board.finish(1, Step::BeginRead(1), [(0, Higher), (1, Same)], written)
}

/// Paper 7. A console keeps its life through a write, a read, an early finish and a console down; the read returns the
/// life of the tag, not its own.
fn lives_kept() -> Agreed {
    use Compared::{Higher, Same};
    let (_, mut model) = made(3, 2, Release::Two);
    for (c, life) in [(0, 5), (1, 9)] {
        model.consoles.get_mut(&c).expect("one of two").life = life;
    }
    let mut board = Known::of(model);
    board.finish(1, Step::BeginWrite(1, 7), [(0, Same), (2, Same)], Outcome::Finished((1, 1, 9), 7))?;
    board.finish(0, Step::BeginRead(0), [(1, Same), (2, Higher)], Outcome::Finished((1, 1, 9), 7))?;
    board.done(&[Step::BeginRead(0)])?;
    board.reply(0, 1, Outcome::Heard, Higher, true)?;
    board.reply(0, 2, Outcome::Finished((1, 1, 9), 7), Same, false)?;
    board.done(&[Step::ConsoleDown(0), Step::BeginRead(1), Step::ConsoleDown(1)])?;
    for (c, life) in [(0, 5), (1, 9)] {
        if board.board.words()[words::life(c)] != life {
            return differ(&[format!("console {c} has not kept its life, {life}")]);
        }
    }
    board.done(&[Step::Restart(0)])?;
    board.finish(0, Step::BeginWrite(0, 8), [(1, Higher), (2, Same)], Outcome::Finished((2, 0, 6), 8))
}

/// Paper 7. Of two consoles one restarts from life 999 to the last and no more; the other, with the last life, is up,
/// which is asked first.
fn last_life() -> Agreed {
    let mut model = Model::fresh(1, 2).expect("an allowed size");
    for (c, life) in [(0, MAX_LIFE - 1), (1, MAX_LIFE)] {
        model.consoles.get_mut(&c).expect("one of two").life = life;
    }
    let mut board = Known::of(model);
    board.expect(Step::Restart(1), Err(15))?;
    board.done(&[Step::ConsoleDown(0), Step::Restart(0), Step::BeginWrite(0, 7)])?;
    board.reply(0, 0, Outcome::Turned, Compared::Same, false)?;
    board.ack(0, 0, Outcome::Finished((1, 0, MAX_LIFE), 7))?;
    board.done(&[Step::ConsoleDown(0), Step::ConsoleDown(1)])?;
    board.expect(Step::Restart(0), Err(16))?;
    board.expect(Step::Restart(1), Err(16))?;
    board.expect(Step::Restart(2), Err(4))
}

/// Paper 7. Replies whose tags differ in the life alone are lower or higher, and clear the mark: under release 2 a read
/// by such two does not finish early. The console is compared before the life.
fn lives_compared() -> Agreed {
    use Compared::{Higher, Lower};
    let nodes = [((1, 0, 2), 7), ((1, 0, 3), 8), ((1, 1, 0), 9)];
    for (release, [first, second], compared) in [
        (Release::One, [0, 1], Higher),
        (Release::Two, [0, 1], Higher),
        (Release::Two, [1, 0], Lower),
        (Release::Two, [1, 2], Higher),
        (Release::Two, [2, 1], Lower),
    ] {
        let (_, mut model) = made(3, 2, release);
        for (node, (tag, value)) in model.nodes.values_mut().zip(nodes) {
            (node.tag, node.value) = (tag, value);
        }
        let best = nodes[first as usize].max(nodes[second as usize]);
        let mut board = Known::of(model);
        let finished = Outcome::Finished(best.0, best.1);
        board.finish(0, Step::BeginRead(0), [(first, Higher), (second, compared)], finished)?;
    }
    Ok(())
}
