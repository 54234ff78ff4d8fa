//! Schedules for the comparison: some at every edge of the rules for lines, and any number by chance, of good lines and
//! damaged ones.
use crate::odd::{byte, changed, field, one_of, ENDS, FAR_NUMBERS, ODD_FIELDS};
use common::{Chance, Step};

/// Whole lines that are not three such fields, or have no known verb.
const ODD_LINES: [&str; 26] = [
    "",
    ",",
    ",,",
    ",,,",
    "\"",
    "\"\"",
    "\"\",\"\",\"\"",
    "0",
    "0,1",
    "0,1,1,",
    ",0,1,1",
    "0,,1",
    "0,1,1,1",
    "\"0,1,1\"",
    "\"0,1\",1",
    "0,\"1,1\"",
    "0;1;1",
    "6,0",
    "6,x,0",
    "7,0",
    "7,x,0",
    "8,0,0",
    "8,x,0",
    "8,0",
    "4294967295,0,\"",
    "12,,",
];

/// Whole lines that have three fields, or nearly: sizes, quotes, a field with no use, node ups, restarts.
const EDGE_LINES: [&str; 14] = [
    "0,0,1",
    "0,6,9",
    "0,5,9",
    "0,1,4294967297",
    "\"1\",\"0\",\"0\"",
    "1,0,x",
    "\r1,0,0",
    "1,0,\r0",
    "6,0,0",
    "6,0,x",
    "6,2,0",
    "7,0,0",
    "7,0,x",
    "7,3,0",
];

/// Lines put while node 1 of 2 is down: the first four bring it back, the others are refused.
const BACK_LINES: [&str; 17] = [
    "6,1,0",
    "6,1,4294967295",
    "\"6\",\"1\",\"0\"",
    "006,01,00",
    "6,1,x",
    "6,1,",
    "6,1",
    "6,1,0,0",
    "6,1,4294967296",
    "6,0,0",
    "6,2,0",
    "6,4,0",
    "6,5,0",
    "6,4294967295,0",
    "6,4294967297,0",
    "4294967302,1,0",
    "8,1,0",
];

/// Lines put while console 1 of 3 is down: the first four restart it, the others are refused.
const RESTART_LINES: [&str; 15] = [
    "7,1,0",
    "7,1,4294967295",
    "\"7\",\"1\",\"0\"",
    "007,01,00",
    "7,1,x",
    "7,1,",
    "7,1",
    "7,1,0,0",
    "7,1,4294967296",
    "7,0,0",
    "7,3,0",
    "7,8,0",
    "7,4294967297,0",
    "4294967303,1,0",
    "8,1,0",
];

/// A read of console 0, good if it is no longer than a line may be: it has this many bytes by the zeros in its second
/// field.
fn stretched(length: usize) -> Vec<u8> {
    format!("1,{},0", "0".repeat(length.max(5) - 4)).into_bytes()
}

/// Each edge as a schedule of its own, between lines that show what it did to the board.
pub fn edges() -> Vec<Vec<u8>> {
    let mut schedules = vec![Vec::new()];
    let mut between = |line: &[u8], end: &[u8]| {
        schedules.push([line, end].concat());
        schedules.push([b"0,2,3\n", line, end, b"3,0,1\n5,2,0\n"].concat());
    };
    for end in ENDS {
        for length in 62..=67 {
            between(&stretched(length), end);
        }
        for line in ODD_LINES.iter().chain(&EDGE_LINES) {
            between(line.as_bytes(), end);
        }
    }
    // A length kept in 8 or 16 bits would seem short, and a reader's own piece may be any of these.
    for length in [
        127, 128, 129, 255, 256, 261, 320, 4095, 4096, 4097, 8192, 65535, 65536, 65541, 65600, 70001, 131_080,
    ] {
        between(&stretched(length), b"\n");
        between(&vec![b'x'; length], b"\r\n");
    }
    // A reader's piece of 4096 bytes ends at each byte of these lines.
    for length in 4070..=4096 {
        schedules.push([&vec![b'x'; length], &b"\n0,3,2\r\n2,1,7\r\r\n3,1,0\r\n"[..]].concat());
    }
    schedules.extend(returns());
    schedules.extend(restarts());
    schedules
}

/// Node 1 of 2 is down and a frame waits for it; the lines after the odd one show whether it is up again. In the last
/// schedule a node keeps what was written, over its down and up.
fn returns() -> Vec<Vec<u8>> {
    let mut schedules: Vec<Vec<u8>> = BACK_LINES
        .iter()
        .map(|line| format!("0,2,3\n1,0,0\n4,1,0\n3,0,1\n{line}\n3,0,1\n6,1,0\n6,1,0\n3,0,1\n"))
        .map(String::into_bytes)
        .collect();
    let by_node_0 = "3,0,0\n".repeat(4);
    schedules.push(format!("0,1,1\n2,0,7\n{by_node_0}4,0,0\n6,0,0\n1,0,0\n{by_node_0}").into_bytes());
    schedules
}

/// Console 1 of 3 is down and its frames are in their cells; the lines after the odd one show whether it is up again
/// and they are gone, and the life of what it writes. In the next schedule two writes have tags that differ in the life
/// alone, and a read returns the second. In the last one a console comes to the last life, and writes with it.
fn restarts() -> Vec<Vec<u8>> {
    let by_node_0 = |c: u32| format!("3,{c},0\n").repeat(4);
    let write = format!("2,1,7\n{}", by_node_0(1));
    let mut schedules: Vec<Vec<u8>> = RESTART_LINES
        .iter()
        .map(|line| format!("0,1,3\n1,1,0\n5,1,0\n{line}\n3,1,0\n7,1,0\n7,1,0\n3,1,0\n{write}"))
        .map(String::into_bytes)
        .collect();
    let landed = "2,0,7\n3,0,0\n3,0,0\n3,0,2\n3,0,2\n3,0,0\n";
    let again = "2,0,8\n3,0,1\n3,0,1\n3,0,2\n3,0,2\n3,0,0\n3,0,0\n3,0,1\n3,0,1\n";
    let read = "1,1,0\n3,1,0\n3,1,0\n3,1,2\n3,1,2\n3,1,0\n3,1,0\n3,1,2\n3,1,2\n";
    schedules.push(format!("0,3,2\n{landed}5,0,0\n7,0,0\n{again}{read}").into_bytes());
    let all_lives = "5,1,0\n7,1,0\n".repeat(1000);
    let read = format!("1,0,0\n{}", by_node_0(0));
    schedules.push(format!("0,1,2\n{all_lives}{write}7,1,0\n5,1,0\n7,1,0\n{read}0,1,2\n5,1,0\n7,1,0\n{write}").into_bytes());
    schedules
}

/// A schedule that is being drawn: the size of its board, if the lines so far are taken, and how its lines end.
pub struct Drawing<'a> {
    pub chance: &'a mut Chance,
    /// Of so many lines one is damaged.
    pub damaged: u32,
    n: u32,
    m: u32,
    crashes: bool,
    ends: u32,
}

impl Drawing<'_> {
    /// Before any verb 0 there are one node and one console.
    pub fn new(chance: &mut Chance, damaged: u32) -> Drawing<'_> {
        let (crashes, ends) = (chance.one_in(2), chance.below(3));
        Drawing {
            chance,
            damaged,
            n: 1,
            m: 1,
            crashes,
            ends,
        }
    }

    /// A schedule of so many lines, or one or two more; most begin with a fresh, and some end in the midst of a line's
    /// end.
    pub fn schedule(&mut self, lines: u64) -> Vec<u8> {
        let mut schedule = Vec::new();
        for i in 0..lines {
            let line = if i == 0 && !self.chance.one_in(4) {
                self.fresh()
            } else {
                self.line()
            };
            schedule.extend(line);
            if i + 1 < lines {
                schedule.extend(self.end());
            }
        }
        schedule.extend(self.drawn(&ENDS));
        schedule
    }

    fn line(&mut self) -> Vec<u8> {
        if self.chance.one_in(self.damaged) {
            return self.damaged_line();
        }
        if self.chance.one_in(500) {
            return self.fresh();
        }
        let numbers = self.step();
        self.written(numbers)
    }

    /// Mostly of an allowed size.
    fn fresh(&mut self) -> Vec<u8> {
        let (n, m) = (1 + self.chance.below(5), 1 + self.chance.below(8));
        let numbers = match self.chance.below(10) {
            0 => [0, 6 * self.chance.below(2), m],
            1 => [0, n, 9 * self.chance.below(2)],
            _ => {
                (self.n, self.m) = (n, m);
                self.crashes = self.chance.one_in(2);
                [0, n, m]
            }
        };
        self.written(numbers)
    }

    /// Verb and numbers of a step that may be taken; a number that it has no use for is any.
    fn step(&mut self) -> [u32; 3] {
        let step = self.chance.step(self.n, self.m, self.crashes);
        let [verb, first, second] = step.numbers();
        match step {
            Step::BeginWrite(..) | Step::Deliver(..) => [verb, first, second],
            _ => [verb, first, self.chance.value()],
        }
    }

    /// The line of these numbers: now and then with quotes, now and then with leading zeros.
    fn written(&mut self, numbers: [u32; 3]) -> Vec<u8> {
        let fields = numbers.map(|number| field(number.into(), 12, 20, self.chance));
        fields.join(",").into_bytes()
    }

    /// LF, CR LF or either, the same through the whole schedule but for some odd ones where lines are damaged.
    fn end(&mut self) -> &'static [u8] {
        if self.chance.one_in(8 * self.damaged) {
            return self.drawn(&ENDS);
        }
        match self.ends {
            0 => ENDS[0],
            1 => ENDS[1],
            _ => self.drawn(&ENDS[..2]),
        }
    }

    /// A good line with something wrong, or at an edge, or no line at all.
    fn damaged_line(&mut self) -> Vec<u8> {
        let numbers = self.step();
        let mut fields = numbers.map(|number| number.to_string());
        let place = self.chance.below(3) as usize;
        match self.chance.below(16) {
            0..=2 => fields[place] = self.drawn(&ODD_FIELDS).to_string(),
            3 => fields[place] = self.drawn(&FAR_NUMBERS).to_string(),
            // Beyond 32 bits, and the good number if only the low 32 bits were kept.
            4 => fields[place] = (u64::from(numbers[place]) + (u64::from(1 + self.chance.below(5)) << 32)).to_string(),
            5 => fields[0] = (8 + self.chance.below(4)).to_string(),
            6 => {
                fields[0] = self.drawn(&["6", "7", "8", "9", "10", "255", "256", "4294967295"]).to_string();
                fields[1 + place % 2] = self.drawn(&ODD_FIELDS).to_string();
            }
            7 => return self.drawn(&ODD_LINES).as_bytes().to_vec(),
            8 => fields[place] = format!("{}{}", "9".repeat(place), self.drawn(&FAR_NUMBERS)),
            9 | 10 => {
                let length = 60 + self.index(8);
                return self.of_length(length);
            }
            11 => return self.long_line(),
            12 => return (0..self.chance.below(80)).map(|_| byte(self.chance)).collect(),
            _ => return changed(fields.join(",").into_bytes(), self.chance),
        }
        fields.join(",").into_bytes()
    }

    /// A line of this many bytes: good but for the length, in quotes or not, or not good at all.
    fn of_length(&mut self, length: usize) -> Vec<u8> {
        let numbers = self.step();
        let place = self.index(3);
        let digits = |i: usize, zeros: usize| format!("{}{}", "0".repeat(zeros), numbers[i]);
        let quotes = self.drawn(&["", "\"", "\"", "'"]);
        let line = |zeros: usize| {
            let fields = [0, 1, 2].map(|i| if i == place { digits(i, zeros) } else { digits(i, 0) });
            fields.map(|field| format!("{quotes}{field}{quotes}")).join(",")
        };
        line(length.saturating_sub(line(0).len())).into_bytes()
    }

    /// A line of thousands of bytes, now and then of more than 70,000; its length may be near a whole number of 256s.
    fn long_line(&mut self) -> Vec<u8> {
        let length = match self.chance.below(40) {
            0 => 70_000 + self.index(60_000),
            1..=9 => 256 * (1 + self.index(16)) + self.index(60),
            _ => 68 + self.index(6000),
        };
        match self.chance.below(3) {
            0 => vec![byte(self.chance); length],
            1 => b"0,1,1,".iter().copied().cycle().take(length).collect(),
            _ => self.of_length(length),
        }
    }

    fn index(&mut self, n: u32) -> usize {
        self.chance.below(n) as usize
    }

    fn drawn<T: Copy>(&mut self, all: &[T]) -> T {
        one_of(all, self.chance)
    }
}
