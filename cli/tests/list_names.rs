//! The names of a file that brings none are those that its listing has, for every verb.

mod common;

use common::{assembled, image, EXAMPLES};
use desk::image::{load, of_bytes, Image};
use desk::list::{listing, made_names};
use std::sync::atomic::{AtomicUsize, Ordering};

/// The image of an example's bytes, as a file of bytes gives it.
fn of_file(example: &str) -> Image {
    // Tests of one file run at the same time: each call has a file of its own.
    static CALLS: AtomicUsize = AtomicUsize::new(0);
    let call = CALLS.fetch_add(1, Ordering::Relaxed);
    let file = std::env::temp_dir().join(format!("desk-list-names-{}-{call}-{example}.bin", std::process::id()));
    std::fs::write(&file, image(example).memory).expect("a file");
    let found = load(&file).expect("an image");
    let _ = std::fs::remove_file(file);
    found
}

/// What assembling its listing gives: names, and programs with theirs.
#[test]
fn names_are_those_of_the_listing() {
    let mut programs = 0;
    for example in EXAMPLES {
        let image = of_file(example);
        let text = listing(&image, example);
        let back = assembled(example, &text);
        assert!(!image.names.is_empty());
        assert_eq!(back.names, image.names, "{example}");
        assert_eq!(back.programs, image.programs, "{example}");
        programs += image.programs.len();
        assert_eq!(text, listing(&of_bytes(image.memory), example));
    }
    assert!(programs > 5);
}

#[test]
fn a_program_is_called_as_its_control_block() {
    for example in EXAMPLES {
        for image in [of_file(example), image(example)] {
            for program in &image.programs {
                assert_eq!(image.names.address_of(&program.name), Some(program.control_block), "{example}");
            }
        }
    }
}

/// Names follow the places that options give.
#[test]
fn names_are_made_anew() {
    let mut image = of_file("sum");
    assert_eq!(image.names.address_of("L200"), Some(0x200));
    image.start = 0x228;
    image.make_names();
    assert_eq!((image.names.address_of("L200"), image.names.address_of("L228")), (None, Some(0x228)));
    assert_eq!(made_names(&image), (image.names.clone(), image.programs.clone()));
}
