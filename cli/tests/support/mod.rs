//! What the tests of run, debug, map and picture share: calls of the program, stored texts, random numbers.
#![allow(dead_code, unused_imports)]

use std::path::{Path, PathBuf};
use std::process::{Command, Output, Stdio};

#[path = "../common/examples.rs"]
mod examples;
pub mod images;

pub use examples::EXAMPLES;

pub fn here() -> PathBuf {
    PathBuf::from(env!("CARGO_MANIFEST_DIR"))
}

/// A file of the repository, as an argument.
pub fn file(path: &str) -> String {
    here().join("..").join(path).display().to_string()
}

pub fn example(name: &str) -> String {
    file(&format!("examples/{name}.mi"))
}

/// A call of `desk` with nothing on its standard input.
pub fn desk(arguments: &[&str]) -> Output {
    command(arguments).output().expect("desk runs")
}

/// The same from the repository's folder, for outputs that have the names of files.
pub fn desk_at_root(arguments: &[&str]) -> Output {
    command(arguments).current_dir(here().join("..")).output().expect("desk runs")
}

fn command(arguments: &[&str]) -> Command {
    let mut command = Command::new(env!("CARGO_BIN_EXE_desk"));
    command.args(arguments).stdin(Stdio::null());
    command
}

pub fn text(bytes: &[u8]) -> String {
    String::from_utf8(bytes.to_vec()).expect("desk writes UTF-8")
}

/// What a call writes to standard output, and its status; nothing may be on standard error.
pub fn said(arguments: &[&str]) -> (String, i32) {
    let output = desk(arguments);
    assert_eq!(text(&output.stderr), "", "{arguments:?}");
    (text(&output.stdout), output.status.code().expect("a status"))
}

/// The sentence on standard error, and the status; nothing may be on standard output.
pub fn refused(arguments: &[&str]) -> (String, i32) {
    let output = desk(arguments);
    assert_eq!(text(&output.stdout), "", "{arguments:?}");
    (text(&output.stderr), output.status.code().expect("a status"))
}

/// Compares with a stored text below tests/; with DESK_BLESS set it is stored anew.
pub fn golden(name: &str, found: &str) {
    let path = here().join("tests").join(name);
    if std::env::var_os("DESK_BLESS").is_some() {
        std::fs::create_dir_all(path.parent().expect("a folder")).expect("the folder");
        std::fs::write(&path, found).expect("the text is stored");
    }
    let stored = std::fs::read_to_string(&path).unwrap_or_else(|error| panic!("{}: {error}", path.display()));
    if let Some((line, (a, b))) = stored.lines().zip(found.lines()).enumerate().find(|(_, (a, b))| a != b) {
        panic!("{name}, line {}:\nstored: {a}\nfound:  {b}", line + 1);
    }
    assert_eq!(stored, found, "{name}");
}

/// Writes bytes to a file of this test's own.
pub fn written(name: &str, bytes: &[u8]) -> String {
    let path = Path::new(env!("CARGO_TARGET_TMPDIR")).join(name);
    std::fs::write(&path, bytes).expect("the file is written");
    path.display().to_string()
}

/// Random numbers (splitmix64), the same at every run.
pub struct Random(pub u64);

impl Random {
    pub fn next(&mut self) -> u64 {
        self.0 = self.0.wrapping_add(0x9E37_79B9_7F4A_7C15);
        let mut z = self.0;
        z = (z ^ (z >> 30)).wrapping_mul(0xBF58_476D_1CE4_E5B9);
        z = (z ^ (z >> 27)).wrapping_mul(0x94D0_49BB_1331_11EB);
        z ^ (z >> 31)
    }

    pub fn below(&mut self, bound: u64) -> u64 {
        self.next() % bound.max(1)
    }

    pub fn pick<'a, T>(&mut self, items: &'a [T]) -> &'a T {
        &items[self.below(items.len() as u64) as usize]
    }
}
