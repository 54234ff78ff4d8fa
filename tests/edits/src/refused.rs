//! What a check that refused a crate said.

use crate::edit::Edit;
use crate::function::Function;

/// What a check says of a goal in a function's code.
const OF_GOALS: [&str; 2] = ["it is not proved that", "`search` found no proof"];
/// What it says of a proof that names what an edit took away, and of what rests on it: little of the contract.
const OF_NAMES: [&str; 4] = ["has no field", "is not in scope", "has no `", "was not admitted"];
/// What it says where it could not tell.
const OF_LIMITS: [&str; 3] = ["ran out of", "the memory limit", "the step limit"];

/// Whether it came to a verdict, and read all texts but proofs: of a text that is not read, what rests on it is refused.
pub fn is_verdict(said: &str) -> bool {
    let is_unread = |it: Line| !it.path.starts_with("proofs/") && it.told.starts_with(" error");
    said.lines().any(|it| it == "logic=not-proved") && !said.lines().filter_map(Line::of).any(is_unread)
}

/// The first line that says of the edit that it is wrong: of a goal in the code, or of an error in a proof. Of an edit
/// that changes the body of one function it speaks of that function.
pub fn refusal<'a>(said: &'a str, edit: &Edit, function: Option<&Function>) -> Option<&'a str> {
    said.lines().find(|line| is_of(line, edit, function))
}

fn is_of(line: &str, edit: &Edit, function: Option<&Function>) -> bool {
    let Some(Line { path, at, told }) = Line::of(line) else {
        return false;
    };
    let has = |words: &[&str]| words.iter().any(|it| told.contains(it));
    let is_goal = path.starts_with("src/") && has(&OF_GOALS);
    let is_error = path.starts_with("proofs/") && told.starts_with(" error") && !has(&OF_NAMES) && !has(&OF_LIMITS);
    let is_its_own = match function {
        None => is_goal || !edit.changes_file(path),
        Some(it) if is_error => path.rsplit('/').nth(1) == Some(&it.name),
        Some(it) => edit.changes_file(path) && it.lines.contains(&at),
    };
    (is_goal || is_error) && is_its_own
}

/// A line 'PATH:LINE:COLUMN: WORDS', perhaps after 'note: '.
struct Line<'a> {
    path: &'a str,
    at: usize,
    told: &'a str,
}

impl<'a> Line<'a> {
    fn of(line: &'a str) -> Option<Line<'a>> {
        let line = line.strip_prefix("note: ").unwrap_or(line);
        let line = line.strip_prefix("./").unwrap_or(line);
        let [path, at, _, told] = line.splitn(4, ':').collect::<Vec<_>>()[..] else {
            return None;
        };
        let at = at.parse().ok()?;
        Some(Line { path, at, told })
    }
}

#[cfg(test)]
mod tests {
    use super::*;

    const GOAL: &str = "note: src/nodes.rt:18:1: it is not proved that what the function ensures holds when it returns (`returns`)";
    const ERROR: &str = "./proofs/nodes/take_put/Answers.antt:7:9: error: `returns`: `omega`: the goal does not follow";
    const LIMIT: &str = "./proofs/nodes/take_put/Answers.antt:7:9: error: `returns`: antt ran out of the steps that it may take";
    const NAME: &str = "./proofs/nodes/take_put/Answers.antt:7:9: error: `returns`: `when` was not admitted";

    fn of_take_put(file: &str, line: &str) -> bool {
        let edit = Edit::of_one(file);
        let take_put = Function {
            name: "take_put".to_owned(),
            lines: 17..=29,
        };
        refusal(line, &edit, Some(&take_put)).is_some()
    }

    #[test]
    fn a_function_is_refused_for_itself() {
        assert!(of_take_put("src/nodes.rt", GOAL));
        assert!(of_take_put("src/nodes.rt", ERROR));
        assert!(!of_take_put("src/hearing.rt", GOAL));
        assert!(!of_take_put("src/nodes.rt", &GOAL.replace(":18:", ":30:")));
        assert!(!of_take_put("src/nodes.rt", &ERROR.replace("take_put", "set_up")));
        assert!(!of_take_put("src/nodes.rt", &ERROR.replace("take_put/", "take_put/inner/")));
        assert!(!of_take_put("src/nodes.rt", NAME));
        assert!(!of_take_put("src/nodes.rt", LIMIT));
    }

    #[test]
    fn an_edit_alone_is_refused_by_any_goal_or_proof() {
        let is_refused = |line: &str| refusal(line, &Edit::of_one("specs/Changes.antt"), None).is_some();
        assert!(is_refused(GOAL));
        assert!(is_refused(ERROR));
        assert!(!is_refused(NAME));
        assert!(!is_refused(LIMIT));
        assert!(!is_refused("fn decisions::nodes::take_put: proved"));
    }

    #[test]
    fn a_text_that_is_not_read_is_no_verdict() {
        assert!(is_verdict("fn decisions::nodes::take_put: not proved\nlogic=not-proved"));
        assert!(!is_verdict("logic=proved functions=39"));
        assert!(!is_verdict(
            "./specs/Changes.antt:3:9: error: `acked`: `k` is not in scope\nlogic=not-proved"
        ));
    }
}
