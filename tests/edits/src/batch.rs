//! Edits of one crate that are tried in one check: one alone, or several that each change the body of one function, of
//! which no two have the same name.

use crate::edit::Edit;
use crate::function::Function;
use crate::refused::{is_verdict, refusal};
use std::io;
use std::path::Path;

pub struct Batch<'a> {
    pub crate_name: &'a str,
    tries: Vec<Try<'a>>,
}

struct Try<'a> {
    edit: &'a Edit,
    /// The function whose body it changes; None: it changes something else too.
    function: Option<Function>,
}

/// Batches of all the edits, those of one edit first.
pub fn batches<'a>(crates: &Path, edits: &'a [Edit]) -> io::Result<Vec<Batch<'a>>> {
    let mut batches: Vec<Batch> = Vec::new();
    for edit in edits {
        let function = edit.function(crates)?;
        let tried = Try { edit, function };
        match batches.iter_mut().find(|it| it.has_room_for(&tried)) {
            Some(batch) => batch.tries.push(tried),
            None => batches.push(Batch {
                crate_name: &edit.crate_name,
                tries: vec![tried],
            }),
        }
    }
    batches.sort_by_key(|it| it.tries.len());
    Ok(batches)
}

impl Batch<'_> {
    fn has_room_for(&self, tried: &Try) -> bool {
        let Some(function) = &tried.function else {
            return false;
        };
        let is_other = |it: &Try| it.function.as_ref().is_some_and(|it| it.name != function.name);
        self.crate_name == tried.edit.crate_name && self.tries.iter().all(is_other)
    }

    /// Puts the edits into their crate, which lies in the folder, and forgets those that do not fit.
    pub fn put_into(&mut self, folder: &Path) -> io::Result<()> {
        let mut fit = Vec::new();
        for tried in self.tries.drain(..) {
            if tried.edit.put_into(folder)? {
                fit.push(tried);
            }
        }
        self.tries = fit;
        Ok(())
    }

    /// Prints of each edit that the check refused a line of what it said.
    pub fn print_refused(&self, said: &str) {
        if !is_verdict(said) {
            return;
        }
        for tried in &self.tries {
            if let Some(why) = refusal(said, tried.edit, tried.function.as_ref()) {
                println!("must-fail {}/{}: refused, as it must be: {why}", self.crate_name, tried.edit.name);
            }
        }
    }
}
