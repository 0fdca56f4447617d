//! The examples: their traces are those stored beside them, and their listings those of tests/golden.

mod common;

use common::{assembled, golden, image, repository, source, EXAMPLES};
use desk::image::{of_bytes, Image};
use desk::list::listing;
use midesk::{Desk, Mark};
use std::fmt::Write;

/// What the program `trace` prints for an image.
fn trace(memory: &[u8]) -> String {
    let mut memory = memory.to_vec();
    let mut desk = Desk::fresh(&memory, 0, 256, 512).expect("a desk");
    let mut text = String::new();
    for step in 1..=1000 {
        desk.step(&mut memory).expect("a step");
        let _ = writeln!(text, "{step} {:08X} {:08X}", desk.register(15), desk.status());
        if let Mark::Stopped(number) = desk.mark() {
            let _ = writeln!(text, "stop {number}");
            return text;
        }
    }
    text + "end\n"
}

#[test]
fn traces_are_as_stored() {
    for example in EXAMPLES {
        let path = repository().join(format!("examples/{example}.txt"));
        let stored = std::fs::read_to_string(path).expect("the stored trace");
        assert!(trace(&image(example).memory) == stored, "{example}: the trace differs");
    }
}

/// The places that `trace` uses are those of the examples.
#[test]
fn places_are_those_of_trace() {
    for example in EXAMPLES {
        let image = image(example);
        assert_eq!((image.system, image.control, image.start), (0, 0x100, 0x200), "{example}");
    }
}

#[test]
fn all_examples_are_tried() {
    let folder = std::fs::read_dir(repository().join("examples")).expect("the examples");
    let names = folder.filter_map(|entry| entry.ok()?.file_name().into_string().ok());
    let mut found: Vec<String> = names.filter_map(|name| name.strip_suffix(".mi").map(str::to_string)).collect();
    found.sort();
    assert_eq!(found, EXAMPLES);
}

#[test]
fn listings_are_as_stored() {
    for example in EXAMPLES {
        let image = image(example);
        golden(&format!("list/{example}.txt"), &listing(&image, &format!("{example}.mi")));
        golden(&format!("list/{example}_bytes.txt"), &listing(&of_bytes(image.memory), &format!("{example}.bin")));
    }
}

/// A listing of a source keeps its names, also one at the memory's end.
#[test]
fn a_listing_keeps_the_names() {
    for example in EXAMPLES {
        keeps_names(example, &source(example));
    }
    keeps_names("like numbers", "each: DD W 5\nbeach: JUMP each\nFFh_: DD W EACh");
    keeps_names("ends", "a: b: RES 512\nend: also:\nc: SEG 0\nd: DD W end");
}

/// A label that reads as a number that the listing writes gets another name, and the numbers stay.
#[test]
fn a_name_that_reads_as_a_number_is_changed() {
    let image = assembled("source", "FFFh: JUMP FFFh\nMOVE W I 0FFFh,R1");
    let text = listing(&image, "source");
    assert!(text.contains("FFFh_2: JUMP FFFh_2") && text.contains("MOVE W I FFFh,R1"), "{text}");
    assert_eq!(assembled("listing", &text).memory, image.memory);
}

fn keeps_names(title: &str, source: &str) {
    let image = assembled(title, source);
    let back = assembled(title, &listing(&image, title));
    for (name, address) in image.names.iter() {
        assert_eq!(back.names.address_of(name), Some(address), "{title}: {name}");
    }
    let programs = |image: &Image| {
        let named = image.programs.iter().map(|p| (p.name.clone(), p.control_block, p.map_base, p.map_length));
        named.collect::<Vec<_>>()
    };
    assert_eq!(programs(&image), programs(&back), "{title}");
}
