//! How fields and ends of lines are written, and what those of damaged lines may be, in schedules and in records of shifts.
use common::Chance;

/// What a damaged line may have for a field.
pub const ODD_FIELDS: [&str; 40] = [
    "",
    "\"\"",
    "\"",
    "\"\"\"",
    "\"\"\"\"",
    "\"1",
    "1\"",
    "\"\"1\"\"",
    "\"\"1\"",
    "\"1\"\"",
    "1\"1",
    "\"1\"1",
    "1\"1\"",
    "\"1\"\"1\"",
    " 1",
    "1 ",
    " ",
    "\" 1\"",
    "\"1 \"",
    " \"1\"",
    "\"1\" ",
    "\t1",
    "+1",
    "-1",
    "-0",
    "0x1",
    "1.0",
    "1e0",
    "1_0",
    "'1'",
    "a",
    "/",
    ":",
    "\0",
    "1\0",
    "\u{663}",
    "\u{ff11}",
    "\u{b2}",
    "\u{a0}1",
    "\u{feff}1",
];

/// Numbers beside the edges of 32 and 64 bits and far beyond.
pub const FAR_NUMBERS: [&str; 12] = [
    "4294967294",
    "4294967295",
    "4294967296",
    "4294967297",
    "4294967299",
    "8589934592",
    "9999999999",
    "18446744073709551615",
    "18446744073709551616",
    "18446744073709551617",
    "340282366920938463463374607431768211456",
    "99999999999999999999999999999999999999999999",
];

/// Ends of lines, and what is no end: nothing, a CR alone, and an LF with its CR at the wrong side.
pub const ENDS: [&[u8]; 6] = [b"\n", b"\r\n", b"\r\r\n", b"", b"\r", b"\n\r"];

/// One of these, of which there are some.
pub fn one_of<T: Copy>(all: &[T], chance: &mut Chance) -> T {
    all[chance.below(all.len() as u32) as usize]
}

/// A number in digits: one in so many in quotes, one in so many with zeros before it.
pub fn field(number: u64, quoted: u32, padded: u32, chance: &mut Chance) -> String {
    let zeros = if chance.one_in(padded) { chance.below(12) } else { 0 };
    let digits = format!("{}{number}", "0".repeat(zeros as usize));
    if chance.one_in(quoted) {
        format!("\"{digits}\"")
    } else {
        digits
    }
}

/// Any byte but LF, those that lines are made of more often.
pub fn byte(chance: &mut Chance) -> u8 {
    match chance.below(256) as u8 {
        b'\n' => b'\r',
        any if chance.one_in(2) => any,
        any => b"0123456789,,,,\"\" \r"[any as usize % 18],
    }
}

/// The line with one byte gone, doubled, another or put in.
pub fn changed(mut line: Vec<u8>, chance: &mut Chance) -> Vec<u8> {
    let at = chance.below(line.len() as u32) as usize;
    match chance.below(4) {
        0 => drop(line.remove(at)),
        1 => line.insert(at, line[at]),
        2 => line[at] = byte(chance),
        _ => line.insert(at, byte(chance)),
    }
    line
}
