//! Tries must-fail edits, those that each change the body of one function many in one check of their crate: a proof sees
//! of other functions their contracts alone, so of two wrong bodies each is refused for itself.
//! edits FOLDER EDIT.. prints a line for each edit that is seen refused. It is run at the top of the repository, whose
//! crates are proved, and works in copies in the folder. Of an edit of which nothing is printed nothing is known: rt
//! must-fail has to try it.

mod batch;
mod edit;
mod function;
mod refused;

use batch::{batches, Batch};
use edit::Edit;
use std::path::{Path, PathBuf};
use std::process::Command;
use std::sync::Mutex;
use std::{env, fs, io, thread};

/// Each worker keeps a core and up to two gigabytes busy.
const MOST_WORKERS: usize = 4;
/// The status of a check that refused something; 3 is that of one that could not tell.
const REFUSED: i32 = 1;

fn main() -> io::Result<()> {
    let mut arguments = env::args_os().skip(1).map(PathBuf::from);
    let folder = arguments.next().ok_or_else(|| io::Error::other("edits FOLDER EDIT.."))?;
    let edits = arguments.map(|path| Edit::read(&path)).collect::<io::Result<Vec<_>>>()?;
    let waiting = Mutex::new(batches(Path::new("crates"), &edits)?);
    let next = || waiting.lock().expect("no worker has panicked").pop();
    let workers = thread::available_parallelism()?.get().min(MOST_WORKERS);
    thread::scope(|scope| {
        let started: Vec<_> = (0..workers)
            .map(|number| folder.join(number.to_string()))
            .map(|own| scope.spawn(move || work(&own, next)))
            .collect();
        started.into_iter().try_for_each(|it| it.join().expect("no worker panics"))
    })
}

/// Tries batch after batch in a copy of its own, where each begins with the crates as they are.
fn work<'a>(own: &Path, next: impl Fn() -> Option<Batch<'a>>) -> io::Result<()> {
    fs::create_dir(own)?;
    fs::copy("crates.txt", own.join("crates.txt"))?;
    copy(Path::new("crates"), &own.join("crates"))?;
    while let Some(mut batch) = next() {
        let name = batch.crate_name;
        let room = own.join("crates").join(name);
        batch.put_into(&room)?;
        let checked = Command::new("rt").args(["check", "--jobs", "1"]).current_dir(&room).output()?;
        if checked.status.code() == Some(REFUSED) {
            batch.print_refused(&String::from_utf8_lossy(&checked.stdout));
        }
        fs::remove_dir_all(&room)?;
        copy(&Path::new("crates").join(name), &room)?;
    }
    fs::remove_dir_all(own)
}

/// Copies a folder. What a check keeps of proofs is linked: a check replaces such a file, and changes none.
fn copy(from: &Path, to: &Path) -> io::Result<()> {
    fs::create_dir(to)?;
    for entry in fs::read_dir(from)? {
        let entry = entry?;
        let (from, to) = (entry.path(), to.join(entry.file_name()));
        if entry.file_type()?.is_dir() {
            copy(&from, &to)?;
        } else if !(is_kept(&from) && fs::hard_link(&from, &to).is_ok()) {
            fs::copy(&from, &to)?;
        }
    }
    Ok(())
}

fn is_kept(file: &Path) -> bool {
    file.extension().is_some_and(|it| it == "oantt")
}
