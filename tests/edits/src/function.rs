//! The function of a Rattle file, laid out by rt fmt, whose body has a text.

use std::ops::RangeInclusive;

#[derive(Clone, PartialEq)]
pub struct Function {
    pub name: String,
    /// Its lines, its attributes among them, counted from 1.
    pub lines: RangeInclusive<usize>,
}

impl Function {
    /// None: the text stands there not once, or in no function's body.
    pub fn around(text: &str, file: &str) -> Option<Function> {
        let (before, after) = file.split_once(text)?;
        if after.contains(text) {
            return None;
        }
        let lines: Vec<&str> = file.lines().collect();
        let at = before.matches('\n').count();
        let (first, name) = (0..at).rev().find_map(|line| Some((line, name_in(lines[line])?)))?;
        let indent = &lines[first][..lines[first].len() - lines[first].trim_start().len()];
        let is_at = |line: usize, brace: &str| lines[line].strip_prefix(indent) == Some(brace);
        let opens = (first..at).find(|line| is_at(*line, "{") || lines[*line].starts_with(indent) && lines[*line].ends_with(" {"))?;
        let last = (opens..lines.len()).find(|line| is_at(*line, "}"))?;
        let ends = at + text.matches('\n').count();
        let goes_on = |line: &str| !line.trim().is_empty() && !line.ends_with(['{', '}']);
        let starts = (0..first).rev().find(|line| !goes_on(lines[*line])).map_or(0, |it| it + 1);
        (opens < at && ends < last).then(|| Function {
            name: name.to_owned(),
            lines: starts + 1..=last + 1,
        })
    }
}

/// The name of the function whose first line this is.
fn name_in(line: &str) -> Option<&str> {
    let (before, after) = line.trim_start().split_once("fn ")?;
    let is_marked = |word: &str| matches!(word, "pub" | "pub(crate)" | "const" | "unsafe" | "extern" | "\"C\"");
    let end = after.find(['(', '<'])?;
    before.split_whitespace().all(is_marked).then_some(&after[..end])
}

#[cfg(test)]
mod tests {
    use super::*;

    const FILE: &str = "\
// Of nodes.

// Doubles.
#[tactic(auto)]
pub fn double(x: u32) -> u32
    ensures { result ≡ twice x }
{
    x + x
}

impl Node {
    fn is_up(self) -> bool {
        self.up
    }
}
";

    fn around(text: &str) -> Option<(String, RangeInclusive<usize>)> {
        Function::around(text, FILE).map(|it| (it.name, it.lines))
    }

    #[test]
    fn a_text_in_a_body_has_its_function() {
        assert_eq!(around("x + x"), Some(("double".to_owned(), 3..=9)));
        assert_eq!(around("self.up"), Some(("is_up".to_owned(), 12..=14)));
    }

    #[test]
    fn a_text_elsewhere_has_none() {
        assert_eq!(around("twice x"), None);
        assert_eq!(around("Of nodes"), None);
        assert_eq!(around("double(x: u32)"), None);
        assert_eq!(around("impl Node"), None);
        assert_eq!(around("up"), None);
        assert_eq!(around("down"), None);
    }
}
