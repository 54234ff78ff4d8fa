//! An edit as rt reads it: after a line 'file: PATH' pairs of lines 'old: TEXT' and 'new: TEXT'.

use crate::function::Function;
use std::collections::BTreeMap;
use std::path::Path;
use std::{fs, io};

pub struct Edit {
    /// The edit's folder is named after the crate that it changes.
    pub crate_name: String,
    pub name: String,
    changes: Vec<Change>,
}

struct Change {
    file: String,
    old: String,
    new: String,
}

impl Edit {
    pub fn read(path: &Path) -> io::Result<Edit> {
        let (mut changes, mut file, mut old) = (Vec::new(), "", "");
        let text = fs::read_to_string(path)?;
        for line in text.lines() {
            if let Some(it) = line.strip_prefix("file: ") {
                file = it.trim();
            } else if let Some(it) = line.strip_prefix("old: ") {
                old = it;
            } else if let Some(it) = line.strip_prefix("new:") {
                changes.push(Change {
                    file: file.to_owned(),
                    old: old.to_owned(),
                    new: it.strip_prefix(' ').unwrap_or(it).to_owned(),
                });
            }
        }
        Ok(Edit {
            crate_name: named(path.parent()),
            name: named(Some(path)),
            changes,
        })
    }

    /// Puts it into its crate, which lies in the folder. False, and nothing is done: a text to change stands there not once.
    pub fn put_into(&self, folder: &Path) -> io::Result<bool> {
        let mut texts = BTreeMap::new();
        for Change { file, old, new } in &self.changes {
            let path = folder.join(file);
            let text = match texts.remove(&path) {
                Some(it) => it,
                None => fs::read_to_string(&path)?,
            };
            if text.matches(old.as_str()).count() != 1 {
                return Ok(false);
            }
            texts.insert(path, text.replace(old, new));
        }
        for (path, text) in texts {
            fs::write(path, text)?;
        }
        Ok(true)
    }

    pub fn changes_file(&self, path: &str) -> bool {
        self.changes.iter().any(|it| it.file == path)
    }

    /// The function to whose body all that it changes belongs, if there is one. The crates lie in the folder.
    pub fn function(&self, crates: &Path) -> io::Result<Option<Function>> {
        let file = self.changes.first().map_or("", |it| &it.file);
        if !file.starts_with("src/") || self.changes.iter().any(|it| it.file != file) {
            return Ok(None);
        }
        let text = fs::read_to_string(crates.join(&self.crate_name).join(file))?;
        let mut functions = self.changes.iter().map(|it| Function::around(&it.old, &text));
        let first = functions.next().flatten();
        let is_one = functions.all(|it| it == first);
        Ok(first.filter(|_| is_one))
    }
}

#[cfg(test)]
impl Edit {
    pub fn of_one(file: &str) -> Edit {
        let change = Change {
            file: file.to_owned(),
            old: "old".to_owned(),
            new: "new".to_owned(),
        };
        Edit {
            crate_name: "decisions".to_owned(),
            name: "one.edit".to_owned(),
            changes: vec![change],
        }
    }
}

fn named(path: Option<&Path>) -> String {
    let name = path.and_then(Path::file_name).unwrap_or_default();
    name.to_string_lossy().into_owned()
}
