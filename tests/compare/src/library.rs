//! The library beside the model.
use crate::beside::Agreed;
use crate::faults::Faulty;
use crate::known;
use crate::late::WRAPS_AT;
use crate::model::{MAX_TS, RELEASES};
use crate::runs::{self, LENGTH};
use crate::seen::{sizes, Seen};
use common::Chance;

/// So many steps of runs, and so many damaged boards.
#[derive(Clone, Copy)]
pub struct Amount {
    pub steps: u64,
    pub damaged: u64,
}

pub fn compare(amount: Amount, seed: u64, faulty: Faulty) -> Agreed<Seen> {
    for (n, m) in [(0, 0), (0, 9), (5, 8), (6, 1), (5, 9), (5, 0), (u32::MAX, 1), (1, u32::MAX)] {
        runs::fresh(n, m)?;
        runs::fresh_in_list(n, m, faulty)?;
        runs::fresh_on_no_board(n, m, faulty)?;
    }
    // A fault is to be found by the runs by chance.
    if !faulty.is_faulty() {
        known::runs()?;
    }
    let mut chance = Chance(seed);
    let mut seen = Seen {
        counts: vec![Default::default(); 40],
        ..Default::default()
    };
    run(amount.steps, &mut chance, faulty, &mut seen)?;
    run_where_numbers_wrap(seed, faulty, &mut seen)?;
    for (n, m) in sizes() {
        for release in RELEASES {
            seen.late.run(n, m, release, MAX_TS as u32, &mut chance, faulty)?;
            seen.reboots.run(n, m, release, &mut chance, faulty)?;
            seen.lives.run(n, m, release, &mut chance, faulty)?;
        }
        seen.marks.draw(n, m, &mut chance, faulty)?;
        seen.releases.draw(n, m, &mut chance, faulty)?;
        seen.damaged.sweep(n, m, &mut chance, faulty)?;
        seen.reads.run(n, m, &mut chance, faulty)?;
    }
    flip_and_share(seed, faulty, &mut seen)?;
    while seen.damaged.ill < amount.damaged {
        seen.damaged.draw(&mut chance, faulty)?;
    }
    Ok(seen)
}

fn run(steps: u64, chance: &mut Chance, faulty: Faulty, seen: &mut Seen) -> Agreed {
    let mut crashes = true;
    while seen.steps < steps {
        for ((n, m), of_size) in sizes().zip(&mut seen.counts) {
            runs::run(n, m, crashes, chance, faulty, of_size)?;
            seen.steps += 2 * u64::from(LENGTH);
        }
        crashes = !crashes;
    }
    Ok(())
}

/// Drawn apart, so that what is drawn after these runs is the same as without them.
fn run_where_numbers_wrap(seed: u64, faulty: Faulty, seen: &mut Seen) -> Agreed {
    let mut apart = Chance(!seed);
    for (n, m) in sizes() {
        for release in RELEASES {
            let wraps = (1 + apart.below(7)) * WRAPS_AT;
            seen.late.run(n, m, release, wraps + 1, &mut apart, faulty)?;
        }
    }
    Ok(())
}

/// Drawn apart too, each of the two for itself.
fn flip_and_share(seed: u64, faulty: Faulty, seen: &mut Seen) -> Agreed {
    let [mut flips, mut turns] = [Chance(!seed), Chance(!seed)];
    for (n, m) in sizes() {
        for release in RELEASES {
            seen.flips.run(n, m, release, &mut flips, faulty)?;
            seen.turns.run(n, m, release, &mut turns, faulty)?;
        }
    }
    Ok(())
}
