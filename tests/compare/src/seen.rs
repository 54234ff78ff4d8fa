//! All that is seen of the library beside the model, and whether it shows all that is to be compared.
use crate::beside::{differ, Agreed};
use crate::damaged::Damaged;
use crate::flips::Flips;
use crate::late::Late;
use crate::lives::Lives;
use crate::marks::Marks;
use crate::reads::Reads;
use crate::reboots::Reboots;
use crate::releases::Releases;
use crate::rules::Counts;
use crate::turns::Turns;

/// The sizes in the order in which they are counted and printed.
pub fn sizes() -> impl Iterator<Item = (u32, u32)> {
    (0..40).map(|i| (1 + i / 8, 1 + i % 8))
}

/// What is seen in runs.
pub trait Shows {
    fn print(&self, seed: u64);

    /// Whether all was seen that is to be compared.
    fn hold(&self) -> Agreed {
        Ok(())
    }
}

#[derive(Default)]
pub struct Seen {
    pub steps: u64,
    /// For each size, under each release.
    pub counts: Vec<[Counts; 2]>,
    pub late: Late,
    pub reboots: Reboots,
    pub lives: Lives,
    pub marks: Marks,
    pub releases: Releases,
    pub damaged: Damaged,
    pub flips: Flips,
    pub reads: Reads,
    pub turns: Turns,
}

impl Shows for Seen {
    fn print(&self, seed: u64) {
        let Damaged { ill, by_one, well } = self.damaged;
        self.print_sizes();
        println!(
            "seed {seed}: {} steps on 40 sizes under both releases agree, one by one and as lists",
            self.steps
        );
        println!(
            "and 8 steps on each of {ill} damaged boards, {by_one} of them by one word\n  and of {well} that were well formed all the same"
        );
        println!(
            "and runs beside the last timestamp, {} of their deliveries refused with 10\n  {} early finishes with the last timestamp",
            self.late.refused, self.late.early
        );
        println!(
            "and runs beside the timestamps at which ts × 8 would wrap to 0 in 32 bits\n  {} puts and {} replies of which would then go otherwise",
            self.late.puts_wrapped, self.late.replies_wrapped
        );
        self.reboots.print();
        self.lives.print();
        self.marks.print();
        self.releases.print();
        self.flips.print();
        self.print_steps();
        self.reads.print();
        self.turns.print();
    }

    fn hold(&self) -> Agreed {
        let Late { refused, early, .. } = self.late;
        let wrapped = [self.late.puts_wrapped, self.late.replies_wrapped];
        let missing = if self.steps > 0 && self.node_ups().contains(&0) {
            "node ups"
        } else if self.steps > 0 && self.replies().contains(&0) {
            "replies"
        } else if self.steps > 0 && self.withdrawn().contains(&0) {
            "withdrawn frames"
        } else if self.steps > 0 && self.restarts().contains(&0) {
            "restarts"
        } else if !self.reboots.shows_all() {
            "tags that differ in the life alone"
        } else if !self.lives.shows_all() {
            "the last life"
        } else if !self.marks.shows_all() {
            "the mark"
        } else if !self.flips.shows_all() {
            "flipped bits"
        } else if !self.turns.shows_all() {
            "turns of the link"
        } else if [refused, early].contains(&0) {
            "the last timestamp"
        } else if wrapped.contains(&0) {
            "tags whose number does not fit 32 bits"
        } else {
            return self.reads.hold();
        };
        differ(&[format!("the runs do not show {missing} in every way that is to be compared")])
    }
}

impl Seen {
    /// A row for each size.
    fn print_sizes(&self) {
        println!("accepted deliveries of a finished operation, the same steps under both releases");
        println!("        release 1             release 2");
        println!(" n  m  finished  most  mean  finished  most  mean  2(n + q)");
        for ((n, m), of_size) in sizes().zip(&self.counts) {
            let [one, two] = of_size.each_ref().map(|counts| {
                let finished = counts.finished;
                format!("{:9} {:5} {:5.2}", finished.operations, finished.most, finished.mean())
            });
            println!("{n:2} {m:2} {one} {two} {:9}", 2 * (n + n / 2 + 1));
        }
    }

    fn print_steps(&self) {
        let [waited_for, not_waited_for, again, twice] = self.node_ups();
        println!(
            "{} node ups were accepted, {waited_for} of them with frames waiting for the node\n  {again} times a console with no frame to deliver had one again",
            waited_for + not_waited_for
        );
        println!("{twice} node downs and node ups were refused because the node was so already");
        let [lower, same, higher, set, kept, cleared, turned, ended] = self.replies();
        println!(
            "{lower} replies taken in were lower, {same} the same, {higher} higher\n  {set} set the mark, {kept} kept it, {cleared} cleared it by a differing tag, {turned} by the turn, {ended} by an early finish"
        );
        let [asks, puts, from_down, _, landing] = self.withdrawn();
        println!(
            "{asks} asks and {puts} puts of down consoles were withdrawn, {from_down} of them from a node that was down\n  {landing} of the puts would have landed, at a node that was up"
        );
        let [emptied, not_emptied, idle, waiting] = self.restarts();
        println!(
            "{} restarts were accepted, {emptied} of them with frames in the console's cells\n  {} were refused with 15, {idle} of an idle console and {waiting} of a waiting one",
            emptied + not_emptied,
            idle + waiting
        );
    }

    /// These counts of all sizes and both releases together.
    fn sums<const N: usize>(&self, each: [fn(&Counts) -> u64; N]) -> [u64; N] {
        each.map(|of| self.counts.iter().flatten().map(of).sum())
    }

    /// Nodes that came back with frames waiting for them and with none, and so that a console went on; and node downs
    /// and node ups twice in a row.
    fn node_ups(&self) -> [u64; 4] {
        self.sums([|t| t.waited_for, |t| t.node_ups - t.waited_for, |t| t.again, |t| t.twice])
    }

    /// Every way in which replies compare, and all that a reply can do to the mark.
    fn replies(&self) -> [u64; 8] {
        self.sums([
            |t| t.lower,
            |t| t.same,
            |t| t.higher,
            |t| t.set,
            |t| t.kept,
            |t| t.cleared,
            |t| t.turned,
            |t| t.ended,
        ])
    }

    /// Asks and puts that were withdrawn, from nodes that were down and from nodes that were up, and puts that would
    /// have landed.
    fn withdrawn(&self) -> [u64; 5] {
        self.sums([
            |t| t.asks_withdrawn,
            |t| t.puts_withdrawn,
            |t| t.withdrawn_from_down,
            |t| t.asks_withdrawn + t.puts_withdrawn - t.withdrawn_from_down,
            |t| t.kept_from_landing,
        ])
    }

    /// Restarts that emptied cells and that did not, and restarts of idle and of waiting consoles.
    fn restarts(&self) -> [u64; 4] {
        self.sums([
            |t| t.emptied,
            |t| t.restarts - t.emptied,
            |t| t.idle_restarts,
            |t| t.waiting_restarts,
        ])
    }
}
