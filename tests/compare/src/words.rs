//! The model's board in the library's words, and back.
use crate::model::{Console, Frame, Model, Node, Release, State, Tag};
pub use common::words::*;
use hatukeno::{BOARD_WORDS, LAYOUT};
use std::collections::BTreeSet;

/// The tag in these words, its ts and its owner.
pub fn tag(w: &[u32]) -> Tag {
    (u64::from(w[0]), u64::from(w[1] / LIVES), u64::from(w[1] % LIVES))
}

/// 0 is no and 1 is yes.
fn flag(w: u32) -> Option<bool> {
    match w {
        0 => Some(false),
        1 => Some(true),
        _ => None,
    }
}

/// A number for each set of nodes 0 to 7.
fn set(w: u32) -> Option<BTreeSet<u32>> {
    let members = |w: u8| (0..8).filter(|k| w / 2u8.pow(*k) % 2 == 1).collect();
    u8::try_from(w).ok().map(members)
}

fn release(w: u32) -> Option<Release> {
    match w {
        1 => Some(Release::One),
        2 => Some(Release::Two),
        _ => None,
    }
}

fn node_in(w: &[u32]) -> Option<Node> {
    Some(Node {
        up: flag(w[0])?,
        tag: tag(&w[1..]),
        value: w[3],
    })
}

fn console_in(w: &[u32]) -> Option<Console> {
    Some(Console {
        state: State::of_word(w[0])?,
        wanted: w[1],
        answered: set(w[2])?,
        best: tag(&w[3..]),
        value: w[5],
        alike: flag(w[6])?,
        life: (w[7] < LIVES).then_some(u64::from(w[7]))?,
    })
}

/// What the cell holds, nothing or a frame, if it can be written so.
fn cell_in(w: &[u32]) -> Option<Option<Frame>> {
    match w {
        [0, 0, 0, 0] => Some(None),
        [1, 0, 0, 0] => Some(Some(Frame::Ask)),
        [2, tagged @ ..] => Some(Some(Frame::Reply(tag(tagged), tagged[2]))),
        [3, tagged @ ..] => Some(Some(Frame::Put(tag(tagged), tagged[2]))),
        [4, 0, 0, 0] => Some(Some(Frame::Ack)),
        _ => None,
    }
}

/// The board that is written so, whether it is well formed or not; none if no board is. It follows the comment of
/// bindings/c/board.h.
pub fn read(w: &Words) -> Option<Model> {
    if w[VERSION] != LAYOUT {
        return None;
    }
    let nodes: Option<Vec<Node>> = w[NODES..CONSOLES].chunks(NODE).map(node_in).collect();
    let consoles: Option<Vec<Console>> = w[CONSOLES..CELLS].chunks(CONSOLE).map(console_in).collect();
    let cells: Option<Vec<Option<Frame>>> = w[CELLS..].chunks(CELL).map(cell_in).collect();
    let in_cells = (0..).zip(cells?).filter_map(|(i, frame)| Some(((i / 5, i % 5), frame?)));
    Some(Model {
        n: w[0],
        m: w[1],
        release: release(w[RELEASE])?,
        nodes: (0..).zip(nodes?).collect(),
        consoles: (0..).zip(consoles?).collect(),
        cells: in_cells.collect(),
    })
}

pub fn write(b: &Model) -> Words {
    let ts = |t: Tag| u32::try_from(t.0).expect("a ts has 32 bits");
    let half = |number: u64| u32::from(u16::try_from(number).expect("console numbers and lives have 16 bits in words"));
    let owner = |t: Tag| LIVES * half(t.1) + half(t.2);
    let mut w = [0; BOARD_WORDS];
    w[0] = b.n;
    w[1] = b.m;
    w[RELEASE] = match b.release {
        Release::One => 1,
        Release::Two => 2,
    };
    w[VERSION] = LAYOUT;
    for (k, x) in &b.nodes {
        let p = node(*k);
        w[p..p + NODE].copy_from_slice(&[u32::from(x.up), ts(x.tag), owner(x.tag), x.value]);
    }
    for (c, x) in &b.consoles {
        let answered = x.answered.iter().map(|k| 2u32.pow(*k)).sum();
        let (p, state, alike, life) = (console(*c), x.state.word(), u32::from(x.alike), half(x.life));
        w[p..p + CONSOLE].copy_from_slice(&[state, x.wanted, answered, ts(x.best), owner(x.best), x.value, alike, life]);
    }
    for ((c, k), f) in &b.cells {
        let p = cell(*c, *k);
        let four = match f {
            Frame::Ask => [1, 0, 0, 0],
            Frame::Reply(t, v) => [2, ts(*t), owner(*t), *v],
            Frame::Put(t, v) => [3, ts(*t), owner(*t), *v],
            Frame::Ack => [4, 0, 0, 0],
        };
        w[p..p + CELL].copy_from_slice(&four);
    }
    w
}
