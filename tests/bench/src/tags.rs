//! What comparing tags takes of a delivery: by number, as the library does, and by order, as it did before Paper 5.
//! Both stand here in plain Rust.
use crate::clock;
use crate::drawing::is_dead;
use crate::plain::tag_in;
use common::words::{self, Words};
use common::{State, Step};
use hatukeno::Tag;
use std::cmp::Ordering;
use std::hint::black_box;

/// How often the tags are gone through, so that the clock is not what is measured.
const TIMES: usize = 100;

/// A way to compare tags: whether a put's is greater than its node's, and how a reply's compares with best.
pub struct Way {
    is_greater: fn(Tag, Tag) -> bool,
    compared: fn(Tag, Tag) -> Ordering,
}

pub const BY_NUMBER: Way = Way {
    is_greater: is_greater_by_number,
    compared: compared_by_number,
};

pub const BY_ORDER: Way = Way {
    is_greater: is_greater_by_order,
    compared: compared_by_order,
};

fn number(t: Tag) -> u64 {
    (u64::from(t.ts) * 8 + u64::from(t.console)) * 65536 + u64::from(t.life)
}

#[inline(never)]
fn is_greater_by_number(a: Tag, b: Tag) -> bool {
    number(a) > number(b)
}

#[inline(never)]
fn compared_by_number(a: Tag, b: Tag) -> Ordering {
    number(a).cmp(&number(b))
}

#[inline(never)]
fn is_greater_by_order(a: Tag, b: Tag) -> bool {
    if a.ts > b.ts {
        return true;
    }
    if a.ts != b.ts {
        return false;
    }
    if a.console != b.console {
        return a.console > b.console;
    }
    a.life > b.life
}

#[inline(never)]
fn compared_by_order(a: Tag, b: Tag) -> Ordering {
    if is_greater_by_order(a, b) {
        return Ordering::Greater;
    }
    if is_greater_by_order(b, a) {
        return Ordering::Less;
    }
    Ordering::Equal
}

/// Two tags that a delivery compares, and whether it does so for a reply.
pub struct Pair {
    tag: Tag,
    with: Tag,
    is_reply: bool,
}

/// The tags that an accepted step compares: those of a put that is handed on and of its node, or those of a reply that
/// is taken in and of best.
pub fn pair(w: &Words, step: Step) -> Option<Pair> {
    let Step::Deliver(c, k) = step else { return None };
    let tag = |at: usize| tag_in(&w[at..]);
    let (cell, console) = (words::cell(c, k), words::console(c));
    let is_asking = matches!(State::of_word(w[console]), Some(State::Asking(_)));
    let has_answered = w[console + 2] >> k & 1 == 1;
    match w[cell] {
        2 if is_asking && !has_answered => Some(Pair {
            tag: tag(cell + 1),
            with: tag(words::best(c)),
            is_reply: true,
        }),
        3 if !is_dead(w, c) => Some(Pair {
            tag: tag(cell + 1),
            with: tag(words::node(k) + 1),
            is_reply: false,
        }),
        _ => None,
    }
}

/// Nanoseconds to compare all these tags once, with a call for each comparison.
pub fn time(pairs: &[Pair], way: &Way) -> f64 {
    let way = black_box(way);
    let time = clock::nanoseconds(|| {
        for _ in 0..TIMES {
            for Pair { tag, with, is_reply } in black_box(pairs) {
                if *is_reply {
                    black_box((way.compared)(*tag, *with));
                } else {
                    black_box((way.is_greater)(*tag, *with));
                }
            }
        }
    });
    time / TIMES as f64
}
