//! Faults in which words are a board's, and which board's: words that no board is written as are taken for one's, and
//! one's for none.
use crate::words::{Words, CELL, CELLS, CONSOLE, CONSOLES, LIVES, NODE, NODES, RELEASE, VERSION};
use hatukeno::LAYOUT;

/// Every number from 2 on is release 2.
pub fn three_is_two(w: &mut Words) {
    w[RELEASE] = w[RELEASE].min(2);
}

/// A release that there is not is release 1.
pub fn release_else_one(w: &mut Words) {
    if w[RELEASE] != 2 {
        w[RELEASE] = 1;
    }
}

/// The version of the layout is not looked at.
pub fn version_unread(w: &mut Words) {
    w[VERSION] = LAYOUT;
}

/// Of a version the lowest eight bits are read.
pub fn version_cut(w: &mut Words) {
    w[VERSION] %= 256;
}

/// A node is up at every number but 0.
pub fn up_else_on(w: &mut Words) {
    for node in w[NODES..CONSOLES].chunks_mut(NODE) {
        node[0] = node[0].min(1);
    }
}

fn in_consoles(w: &mut Words, change: fn(&mut [u32])) {
    w[CONSOLES..CELLS].chunks_mut(CONSOLE).for_each(change);
}

/// A console is down from 5 on.
pub fn state_else_down(w: &mut Words) {
    in_consoles(w, |console| console[0] = console[0].min(5));
}

/// Of the answered set the lowest eight bits are read.
pub fn set_cut(w: &mut Words) {
    in_consoles(w, |console| console[2] %= 256);
}

/// The mark is on at every number but 0.
pub fn mark_else_on(w: &mut Words) {
    in_consoles(w, |console| console[6] = console[6].min(1));
}

/// Of a console's own life the lowest sixteen bits are read.
pub fn life_cut(w: &mut Words) {
    in_consoles(w, |console| console[7] %= LIVES);
}

/// A console's own life above the last is read as the last.
pub fn life_capped(w: &mut Words) {
    in_consoles(w, |console| console[7] = console[7].min(1000));
}

/// The life of a tag that a node holds is not read.
pub fn node_life_unread(w: &mut Words) {
    for node in w[NODES..CONSOLES].chunks_mut(NODE) {
        node[2] -= node[2] % LIVES;
    }
}

/// The life of a best tag is not read.
pub fn best_life_unread(w: &mut Words) {
    in_consoles(w, |console| console[4] -= console[4] % LIVES);
}

fn in_cells(w: &mut Words, change: impl Fn(&mut [u32])) {
    w[CELLS..].chunks_mut(CELL).for_each(change);
}

/// A cell holds an ack from 4 on.
pub fn frame_else_ack(w: &mut Words) {
    in_cells(w, |cell| cell[0] = cell[0].min(4));
}

/// What is beside this frame is passed over.
fn unread_beside(frame: u32, w: &mut Words) {
    in_cells(w, |cell| {
        if cell[0] == frame {
            cell[1..].fill(0);
        }
    });
}

pub fn beside_nothing_unread(w: &mut Words) {
    unread_beside(0, w);
}

pub fn beside_ask_unread(w: &mut Words) {
    unread_beside(1, w);
}

pub fn beside_ack_unread(w: &mut Words) {
    unread_beside(4, w);
}

/// The life of a reply's or a put's tag is not read.
pub fn frame_life_unread(w: &mut Words) {
    in_cells(w, |cell| {
        if let [2 | 3, ..] = cell {
            cell[2] -= cell[2] % LIVES;
        }
    });
}

/// Beside a reply and a put, too, all has to be 0.
pub fn tagged_all_zero(w: &mut Words) {
    const NO_FRAME: u32 = 5;
    in_cells(w, |cell| {
        if matches!(cell, [2 | 3, beside @ ..] if beside != [0; 3]) {
            cell[0] = NO_FRAME;
        }
    });
}
