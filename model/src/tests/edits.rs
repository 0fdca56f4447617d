//! Edits for wrong copies: their form, and when one doesn't apply.

use crate::faults::edits::{faults, parse, Edit, Fault, Sources};

const TWO: &str = "# Remark\n\nOne: does wrong\nfile: src/map.rs\nold:  b\nnew:\nold: a:\nnew: c\n";

fn sources() -> Sources {
    Sources::from([("map".to_string(), "a: b\nd\nd\n".to_string())])
}

fn fault(file: &str, old: &str, new: &str) -> Fault {
    let edit = Edit { file: file.to_string(), old: old.to_string(), new: new.to_string() };
    Fault { name: "One".to_string(), text: "does wrong".to_string(), edits: vec![edit] }
}

#[test]
fn edits_are_read() {
    let faults = parse(TWO).unwrap();
    let mut wanted = fault("src/map.rs", " b", "");
    wanted.edits.extend(fault("src/map.rs", "a:", "c").edits);
    assert_eq!(faults, [wanted]);
    assert_eq!(faults[0].apply(&sources()).unwrap()["map"], "c\nd\nd\n");
}

#[test]
fn what_is_no_edit_is_refused() {
    for text in [
        "old: a\nnew: b\n",
        "One: x\nold: a\nnew: b\n",
        "One: x\nfile: f\nold: a\n",
        "One: x\nfile: f\nnew: a\n",
        "One: x\nfile: f\nold: a\nTwo: y\n",
        "One: x\nfile: f\nold: a\nnew: b\nTwo: y\nold: a\nnew: b\n",
        "One\n",
    ] {
        assert!(parse(text).is_err(), "{text}");
    }
}

#[test]
fn text_must_stand_there_once() {
    for (file, old, new) in [
        ("src/map.rs", "d", "e"),
        ("src/map.rs", "e", "f"),
        ("src/map.rs", "", "f"),
        ("src/map.rs", "b", "b"),
        ("src/state.rs", "b", "c"),
        ("map.rs", "b", "c"),
    ] {
        let why = fault(file, old, new).apply(&sources()).unwrap_err();
        assert!(why.starts_with("One: "), "{why}");
    }
    assert_eq!(fault("src/map.rs", "b", "c").apply(&sources()).unwrap()["map"], "a: c\nd\nd\n");
}

#[test]
fn files_come_by_their_numbers() {
    let names: Vec<String> = faults().unwrap().into_iter().map(|fault| fault.name).collect();
    let place = |name: &str| names.iter().position(|other| other == name).unwrap();
    assert!(place("OnlyFirst") < place("DataSavedNext") && place("DataSavedNext") < place("PointLast"));
}
