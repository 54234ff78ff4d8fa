//! Steps by chance that are likely to be accepted.
use common::words::{cell, console, node};
use common::{Chance, Step, Words};

pub fn is_up(w: &Words, k: u32) -> bool {
    w[node(k)] != 0
}

/// Whether the console is down.
pub fn is_dead(w: &Words, c: u32) -> bool {
    w[console(c)] == 5
}

/// Mostly a number below n, now and then n itself.
fn number(n: u32, chance: &mut Chance) -> u32 {
    if chance.one_in(100) {
        n
    } else {
        chance.below(n)
    }
}

/// A step on this board.
pub fn likely_step(w: &Words, chance: &mut Chance) -> Step {
    let (n, m) = (w[0], w[1]);
    let down = (0..n).filter(|k| !is_up(w, *k));
    let dead = (0..m).filter(|c| is_dead(w, *c));
    match chance.below(1000) {
        0..=2 => return Step::NodeDown(number(n, chance)),
        3..=5 => return Step::ConsoleDown(number(m, chance)),
        6..=19 => return Step::Deliver(number(m, chance), number(n, chance)),
        20..=39 => return Step::BeginRead(number(m, chance)),
        40 => return Step::NodeUp(number(n, chance)),
        41..=49 => {
            if let Some(k) = chance.drawn(down.clone()) {
                return Step::NodeUp(k);
            }
        }
        50 => return Step::Restart(number(m, chance)),
        51..=59 => {
            if let Some(c) = chance.drawn(dead.clone()) {
                return Step::Restart(c);
            }
        }
        _ => {}
    }
    let idle = (0..m).filter(|c| w[console(*c)] == 0);
    if chance.below(16 * m) < idle.clone().count() as u32 {
        return begin(chance.drawn(idle).unwrap_or(0), chance);
    }
    if let Some((c, k)) = chance.drawn(pairs().filter(|(c, k)| goes(w, *c, *k))) {
        return Step::Deliver(c, k);
    }
    match (chance.drawn(down), chance.drawn(dead)) {
        (Some(k), _) => Step::NodeUp(k),
        (None, Some(c)) => Step::Restart(c),
        (None, None) => Step::BeginWrite(number(m, chance), chance.next() as u32),
    }
}

fn begin(c: u32, chance: &mut Chance) -> Step {
    if chance.one_in(2) {
        Step::BeginRead(c)
    } else {
        Step::BeginWrite(c, chance.next() as u32)
    }
}

fn pairs() -> impl Iterator<Item = (u32, u32)> + Clone {
    (0..40).map(|i| (i / 5, i % 5))
}

/// Whether the cell's frame is taken. A reply or an ack always is, and so is every frame of a console that is down;
/// another ask or put only by a node that is up.
fn goes(w: &Words, c: u32, k: u32) -> bool {
    match w[cell(c, k)] {
        0 => false,
        1 | 3 => is_dead(w, c) || is_up(w, k),
        _ => true,
    }
}
