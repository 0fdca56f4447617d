//! Writing to standard output and standard error without a panic where nobody reads.

use crate::image::{Complaint, Reason};
use crate::{options, setup};
use std::cell::RefCell;
use std::fs::Metadata;
use std::io::{self, Write};
use std::os::unix::fs::MetadataExt;

/// Writes to standard output; false where that is not possible (a closed pipe, a full disk).
pub fn out(text: &str) -> bool {
    let mut stdout = io::stdout().lock();
    stdout.write_all(text.as_bytes()).and_then(|()| stdout.flush()).is_ok()
}

thread_local! {
    static SAID: RefCell<String> = const { RefCell::new(String::new()) };
}

/// What was written to standard error so far: for `--json`, which says it once more.
pub fn said() -> String {
    SAID.with_borrow(String::clone)
}

/// Writes to standard error.
pub fn err(text: &str) {
    SAID.with_borrow_mut(|said| said.push_str(text));
    let _ = io::stderr().lock().write_all(text.as_bytes());
}

/// Exit statuses that all verbs share.
pub const USAGE: u8 = 64;
pub const BAD_INPUT: u8 = 65;
pub const NO_INPUT: u8 = 66;
pub const CANNOT_WRITE: u8 = 74;

/// Tells what is wrong with a file, a line each, and gives the exit status. All of it has one reason.
pub fn complain(complaints: &[Complaint]) -> u8 {
    for complaint in complaints {
        err(&format!("{complaint}\n"));
    }
    match complaints.first().map(|complaint| complaint.reason) {
        Some(Reason::Unread) => NO_INPUT,
        Some(Reason::Refused(refusal)) => setup::refusal_status(refusal),
        Some(Reason::Content) | None => BAD_INPUT,
    }
}

/// Tells what may be wrong with a file that can be used all the same, a line each.
pub fn warn(warnings: &[Complaint]) {
    for warning in warnings {
        err(&format!("{}\n", warning.as_warning()));
    }
}

/// Writes a file that is made from others, and gives the exit status. What it is made from is not written over.
pub fn write(sources: &[&str], target: &str, bytes: &[u8]) -> u8 {
    let shown = options::shown(target);
    if target.is_empty() {
        err("-o needs the name of a file, and an empty one is given\n");
        return USAGE;
    }
    if sources.iter().any(|source| is_same_file(source, target)) {
        err(&format!("{shown}: this is the file that is read; it is left as it is: give -o another name\n"));
        return USAGE;
    }
    match std::fs::write(target, bytes) {
        Ok(()) => 0,
        Err(error) => {
            err(&format!("{shown}: cannot be written: {}\n", reason(&error)));
            CANNOT_WRITE
        }
    }
}

/// Whether two names lead to one file, also through links.
fn is_same_file(one: &str, other: &str) -> bool {
    let identity = |path| {
        let found = std::fs::metadata(path).ok().filter(Metadata::is_file)?;
        Some((found.dev(), found.ino()))
    };
    identity(one).is_some_and(|one| identity(other) == Some(one))
}

/// Why a file cannot be read or written, without the system's number for it.
pub fn reason(error: &io::Error) -> String {
    let text = error.to_string();
    text.split(" (os error").next().unwrap_or(&text).to_string()
}
