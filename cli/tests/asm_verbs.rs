//! `desk asm` and `desk list` at the command line: what they write, and the exit status of all that can go wrong.

mod common;

use common::{repository, EXAMPLES};
use std::path::PathBuf;
use std::process::{Command, Output};

fn desk(arguments: &[&str]) -> Output {
    let mut command = Command::new(env!("CARGO_BIN_EXE_desk"));
    command.current_dir(repository()).args(arguments).output().expect("desk")
}

/// A file of this test's own, in the folder for temporary files.
fn scratch(name: &str) -> PathBuf {
    std::env::temp_dir().join(format!("desk-asm-verbs-{}-{name}", std::process::id()))
}

fn path(path: &std::path::Path) -> &str {
    path.to_str().expect("a name")
}

#[test]
fn an_example_goes_round() {
    for example in EXAMPLES {
        let (bytes, listing, again) = (
            scratch(&format!("{example}.bin")),
            scratch(&format!("{example}.mi")),
            scratch(&format!("{example}.again")),
        );
        let source = format!("examples/{example}.mi");
        let steps: [&[&str]; 3] = [
            &["asm", &source, "-o", path(&bytes)],
            &["list", path(&bytes), "--output", path(&listing)],
            &["asm", "-o", path(&again), path(&listing)],
        ];
        for arguments in steps {
            let output = desk(arguments);
            assert_eq!(
                (output.status.code(), output.stdout.len(), output.stderr.len()),
                (Some(0), 0, 0),
                "{arguments:?}"
            );
        }
        let mut first = std::fs::read(&bytes).expect("the bytes");
        first.resize(first.len().next_multiple_of(512), 0);
        assert!(first == std::fs::read(&again).expect("the bytes"), "{example}");
        for file in [bytes, listing, again] {
            let _ = std::fs::remove_file(file);
        }
    }
}

#[test]
fn hexadecimal_is_assembled_too() {
    let (source, bytes) = (scratch("source.hex"), scratch("hexadecimal.bin"));
    std::fs::write(&source, "0000: 3*01 # three\n@10 FF").expect("a file");
    assert_eq!(desk(&["asm", path(&source), "-o", path(&bytes)]).status.code(), Some(0));
    let found = std::fs::read(&bytes).expect("the bytes");
    assert_eq!((found.len(), &found[..4], found[16]), (17, &[1, 1, 1, 0][..], 0xFF));
    let _ = (std::fs::remove_file(source), std::fs::remove_file(bytes));
}

#[test]
fn a_listing_goes_to_standard_output() {
    let output = desk(&["list", "examples/sum.mi"]);
    let text = String::from_utf8(output.stdout).expect("text");
    assert_eq!(output.status.code(), Some(0));
    assert!(text.contains("0214  41  08 10 00000000  02 00 00000000 | loop: ADD H !R1+,R0"), "{text}");
}

#[test]
fn places_of_a_file_of_bytes_are_given() {
    let bytes = scratch("places.bin");
    let mut memory = vec![0; 0x600];
    memory[0x300] = 0x7A;
    memory[0x408..0x410].copy_from_slice(&[0, 0, 3, 0, 0x80, 0, 0, 0]);
    std::fs::write(&bytes, memory).expect("a file");
    let output = desk(&["list", path(&bytes), "--start", "300h", "--system", "400h", "--control", "500h"]);
    let _ = std::fs::remove_file(&bytes);
    let text = String::from_utf8(output.stdout).expect("text");
    assert!(text.contains("| L300: RET"), "{text}");
    assert!(text.contains("ON SYSTEM CALL TO L300"), "{text}");
    assert!(text.contains("START L300"), "{text}");
}

/// Whatever it is called by, the file that is read is not written over.
#[test]
fn the_input_is_never_written_over() {
    let (source, link, hard) = (scratch("own.mi"), scratch("link.mi"), scratch("hard.mi"));
    let text = "        SEG 200h\n        HALT\n";
    std::fs::write(&source, text).expect("a file");
    std::os::unix::fs::symlink(&source, &link).expect("a link");
    std::fs::hard_link(&source, &hard).expect("a link");
    let folder = source.parent().expect("a folder");
    let other = folder.join(".").join(source.file_name().expect("a name"));
    for target in [&source, &link, &hard, &other] {
        for verb in ["asm", "list", "picture"] {
            let output = desk(&[verb, path(&source), "-o", path(target)]);
            let said = String::from_utf8_lossy(&output.stderr).into_owned();
            assert_eq!(output.status.code(), Some(64), "{verb} {}: {said}", target.display());
            assert!(said.contains("this is the file that is read"), "{said}");
            assert_eq!(std::fs::read_to_string(&source).expect("the source"), text);
        }
    }
    for file in [source, link, hard] {
        let _ = std::fs::remove_file(file);
    }
}

/// What a name without a known ending may be, an empty file, a start among zeros.
#[test]
fn files_that_are_hardly_meant_so() {
    let (text, bytes, empty, none) = (scratch("source.txt"), scratch("text.bin"), scratch("empty"), scratch("none.mi"));
    std::fs::write(&text, "        HALT\n").expect("a file");
    std::fs::write(&bytes, "        HALT\n").expect("a file");
    std::fs::write(&empty, "").expect("a file");
    std::fs::write(&none, "").expect("a file");
    let cases: [(&[&str], i32, &str); 6] = [
        (
            &["run", path(&text)],
            65,
            "this is text, and its name is that of a file of bytes: the name of a source ends in .mi",
        ),
        (&["list", path(&bytes)], 0, "text.bin: warning: this is text, and is taken as bytes"),
        (&["run", path(&empty)], 65, "empty: is empty"),
        (&["run", path(&none)], 65, "none.mi: is empty"),
        (&["list", "examples/sum.mi", "--start", "300h"], 0, "warning: at the start, 300h, are only zeros"),
        (&["list", "examples/sum.mi", "--start", "400h"], 0, "warning: the start, 400h, is past the memory"),
    ];
    for (arguments, status, sentence) in cases {
        let output = desk(arguments);
        let said = String::from_utf8_lossy(&output.stderr).into_owned();
        assert_eq!(output.status.code(), Some(status), "{arguments:?}: {said}");
        assert!(said.contains(sentence), "{arguments:?}: {said}");
    }
    for file in [text, bytes, empty, none] {
        let _ = std::fs::remove_file(file);
    }
}

#[test]
fn a_plain_listing_has_no_columns() {
    let text = String::from_utf8(desk(&["list", "examples/sum.mi", "--plain"]).stdout).expect("text");
    assert!(text.contains("\nloop: ADD H !R1+,R0"), "{text}");
    assert!(!text.contains('|'), "{text}");
}

/// The exit status, and a part of the sentence.
#[test]
fn what_goes_wrong_has_a_sentence_and_a_status() {
    let (bad, text) = (scratch("bad.mi"), scratch("text.mi"));
    std::fs::write(&bad, "  JUMP nowhere\n  MOVE W R1\n").expect("a file");
    std::fs::write(&text, b"HALT\n\xFF\xFE\n").expect("a file");
    let cases: [(&[&str], i32, &str); 12] = [
        (&["asm"], 64, "SOURCE"),
        (&["asm", "examples/sum.mi"], 64, "-o FILE"),
        (&["asm", "a", "b", "-o", "c"], 64, "too many"),
        (&["asm", "no/such.mi", "-o", "c"], 66, "no/such.mi: cannot be read"),
        (&["asm", "examples/sum.mi", "-o", "no/such/folder"], 74, "no/such/folder: cannot be written"),
        (&["asm", path(&bad), "-o", "c"], 65, "bad.mi:1:8: there is no name 'nowhere'"),
        (&["asm", path(&text), "-o", "c"], 65, "text.mi:2: this line is no text"),
        (&["asm", "no/such.mi", "-o", "c"], 66, "No such file or directory\n"),
        (&["asm", "examples/sum.mi", "-o", ""], 64, "-o needs the name of a file"),
        (&["asm", "examples/sum.mi", "--output="], 64, "--output needs a value, FILE"),
        (&["list", "no/such.bin"], 66, "no/such.bin: cannot be read"),
        (&["list", path(&bad)], 65, "bad.mi:2:3: MOVE W has 2 operands, found 1"),
    ];
    for (arguments, status, sentence) in cases {
        let output = desk(arguments);
        let said = String::from_utf8_lossy(&output.stderr).into_owned();
        assert_eq!(output.status.code(), Some(status), "{arguments:?}: {said}");
        assert!(said.contains(sentence), "{arguments:?}: {said}");
        assert!(output.stdout.is_empty(), "{arguments:?}");
    }
    let _ = (std::fs::remove_file(bad), std::fs::remove_file(text));
    assert!(!repository().join("c").exists());
}
