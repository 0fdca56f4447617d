//! examples/parts.load: what tools/bytes makes of parts.hex, taken by every verb that takes a FILE.

mod support;

use desk::image;
use std::process::Command;
use support::{desk_at_root, file, golden, refused, said, text};

const PARTS: &str = "examples/parts.load";

fn shown(arguments: &[&str]) -> String {
    let output = desk_at_root(arguments);
    assert_eq!((text(&output.stderr).as_str(), output.status.code()), ("", Some(0)), "{arguments:?}");
    text(&output.stdout)
}

#[test]
fn the_list_is_what_tools_bytes_makes_of_its_source() {
    let output = Command::new(file("tools/bytes")).arg(file("examples/parts.hex")).output().expect("tools/bytes");
    assert!(output.stdout == std::fs::read(file(PARTS)).expect("the list"));
    assert_eq!(output.status.code(), Some(0));
}

/// `desk asm` writes the bytes of commented hexadecimal as they are, and `desk load` reads it as it is.
#[test]
fn its_source_gives_the_same_list() {
    let made = format!("{}/parts_again.load", env!("CARGO_TARGET_TMPDIR"));
    assert_eq!(said(&["asm", &file("examples/parts.hex"), "-o", &made]), (String::new(), 0));
    assert!(std::fs::read(&made).expect("the list") == std::fs::read(file(PARTS)).expect("the list"));
    let behind_title = |name: &str| shown(&["load", name]).split_once('\n').expect("a title").1.to_string();
    assert_eq!(behind_title("examples/parts.hex"), behind_title(PARTS));
}

#[test]
fn outputs_are_as_stored() {
    golden("golden/load/parts_run.txt", &shown(&["run", PARTS]));
    golden("golden/load/parts_load.txt", &shown(&["load", PARTS]));
    golden("golden/load/parts_list.txt", &shown(&["list", PARTS]));
    golden("golden/load/parts_map.txt", &shown(&["map", PARTS]));
}

#[test]
fn the_other_verbs_take_it() {
    assert!(shown(&["picture", PARTS]).starts_with("<svg"));
    let script = support::written("parts.txt", b"until 257h\nregisters\n");
    assert!(shown(&["debug", PARTS, "--script", &script]).contains("R0  00000025"));
    let (out, status) = said(&["run", &file(PARTS), "--memory", "1000h", "--dump", "FF8h,16"]);
    assert!(status == 0 && out.contains("the memory ends at 1000h"), "{out}");
    let (out, status) = said(&["run", &file(PARTS), "--until", "257h"]);
    assert!(status == 125 && out.contains("R0  00000025"), "{out}");
}

/// What it loads is an image like any other: the file of its bytes runs to the same end.
#[test]
fn an_image_of_it_ends_alike() {
    let memory = image::load(file(PARTS).as_ref()).expect("the image").memory;
    let bytes = support::written("parts.bin", &memory);
    assert_eq!(said(&["run", &bytes, "--trace"]), said(&["run", &file(PARTS), "--trace"]));
}

/// The script `trace` takes no list, and says so before it builds anything.
#[test]
fn trace_names_desk_run() {
    let output = Command::new(file("trace")).arg(file(PARTS)).output().expect("trace");
    let said = text(&output.stderr);
    assert_eq!((output.status.code(), output.stdout.len()), (Some(2), 0), "{said}");
    assert!(said.contains("trace takes no load lists") && said.contains("./desk run "), "{said}");
}

/// Files that are no lists, and names that lead nowhere.
#[test]
fn files_that_are_not_usable() {
    let (sentence, status) = refused(&["load", "there/is/no/such.load"]);
    assert_eq!((sentence.as_str(), status), ("there/is/no/such.load: cannot be read: No such file or directory\n", 66));
    assert_eq!(refused(&["load", "-"]).1, refused(&["run", "-"]).1);
    assert_eq!(refused(&["run", "no/such.load"]).1, 66);
    let (sentence, status) = refused(&["load", &file("examples/sum.mi")]);
    assert!(status == 65 && sentence.contains("`desk asm SOURCE -o FILE.load` makes a load list of one"), "{sentence}");
    let (sentence, status) = refused(&["asm", &file(PARTS), "-o", "c"]);
    assert!(status == 65 && sentence.contains("is a load list, and no source"), "{sentence}");
    let (sentence, status) = refused(&["load"]);
    assert_eq!((sentence.as_str(), status), ("desk load: it needs FILE; `desk help load` tells more\n", 64));
    let (sentence, status) = refused(&["load", &file(PARTS), "--memory", "99999999"]);
    assert!(status == 64 && sentence.contains("--memory can be at most 16777216"), "{sentence}");
}
