//! Commented hexadecimal is read as tools/bytes reads it, with the same sentences.

mod common;

use common::repository;
use desk::{hex, image};
use std::path::PathBuf;
use std::process::Command;

/// The sources of a folder.
fn sources(folder: &str) -> Vec<PathBuf> {
    let entries = std::fs::read_dir(repository().join(folder)).expect("the folder");
    let paths = entries.filter_map(|entry| Some(entry.ok()?.path()));
    paths.filter(|path| path.extension().is_some_and(|ending| ending == "hex")).collect()
}

#[test]
fn the_bytes_are_those_of_tools_bytes() {
    let sources = sources("tests/trace");
    assert!(sources.len() > 5);
    for path in sources {
        let output = Command::new(repository().join("tools/bytes")).arg(&path).output().expect("tools/bytes");
        let found = hex::bytes("source", &std::fs::read(&path).expect("the source"));
        assert!(found == Ok(output.stdout), "{}", path.display());
        assert!(image::load(&path).is_ok());
    }
}

#[test]
fn malformed_sources_have_the_same_sentence() {
    let sources = sources("tests/trace/malformed");
    assert!(sources.len() > 5);
    for path in sources {
        let complaints = image::load(&path).expect_err("a malformed source");
        let stored = std::fs::read_to_string(path.with_extension("txt")).expect("the stored message");
        let first = &complaints[0];
        let place = format!("line {}: {}", first.line, first.sentence);
        assert!(stored.contains(&place), "{place}\n{stored}");
        assert!(first.column > 0);
    }
}
