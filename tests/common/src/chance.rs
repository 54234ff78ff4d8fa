//! What runs, boards and schedules are drawn by.
use crate::Step;

/// Numbers by chance, the same ones for the same seed (splitmix64).
pub struct Chance(pub u64);

impl Chance {
    pub fn next(&mut self) -> u64 {
        self.0 = self.0.wrapping_add(0x9e37_79b9_7f4a_7c15);
        let mut z = self.0;
        z = (z ^ (z >> 30)).wrapping_mul(0xbf58_476d_1ce4_e5b9);
        z = (z ^ (z >> 27)).wrapping_mul(0x94d0_49bb_1331_11eb);
        z ^ (z >> 31)
    }

    pub fn below(&mut self, n: u32) -> u32 {
        (self.next() % u64::from(n)) as u32
    }

    pub fn one_in(&mut self, n: u32) -> bool {
        self.below(n) == 0
    }

    /// Mostly a number below n, now and then n itself or one far beyond.
    pub fn number(&mut self, n: u32) -> u32 {
        match self.below(100) {
            0 => n,
            1 => self.next() as u32,
            _ => self.below(n.clamp(1, 8)),
        }
    }

    pub fn value(&mut self) -> u32 {
        if self.one_in(2) {
            self.below(4)
        } else {
            self.next() as u32
        }
    }

    /// Mostly deliveries. With crashes a node or a console is up some three quarters of the time, by three node ups
    /// drawn for each node down and three restarts for each console down, whether it is up or not. So a run of any
    /// length may have crashes throughout; without them more operations finish.
    pub fn step(&mut self, n: u32, m: u32, crashes: bool) -> Step {
        match if crashes { self.below(1072) } else { 80 + self.below(992) } {
            0..=9 => Step::NodeDown(self.number(n)),
            10..=39 => Step::NodeUp(self.number(n)),
            40..=49 => Step::ConsoleDown(self.number(m)),
            50..=79 => Step::Restart(self.number(m)),
            80..=172 => Step::BeginRead(self.number(m)),
            173..=272 => Step::BeginWrite(self.number(m), self.value()),
            _ => Step::Deliver(self.number(m), self.number(n)),
        }
    }

    /// One of these, if there is any.
    pub fn drawn<T>(&mut self, all: impl Iterator<Item = T> + Clone) -> Option<T> {
        let count = all.clone().count() as u32;
        if count == 0 {
            return None;
        }
        all.clone().nth(self.below(count) as usize)
    }
}
