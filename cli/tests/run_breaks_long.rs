//! Breakpoints in long runs, which go in pieces by the library: held where one call of it is held.

mod support;

use desk::breakpoints::Breakpoints;
use desk::engine::{self, Ran};
use desk::image::{self, Image};
use desk::machine::Machine;
use desk::place::Place;
use desk::plan::Plan;
use desk::report::End;
use desk::show::Show;
use midesk::{Breakpoint, Desk, RunEnd};
use std::path::Path;
use support::{file, images, said, written, Random};

/// `ticks.mi`, whose program makes so many rounds before it gets to `tell`, at 221h, after 2 + 2 x rounds steps.
fn ticks(rounds: u64) -> String {
    let source = std::fs::read_to_string(file("cli/tests/scripts/ticks.mi")).expect("the source");
    let changed = source.replace("MOVE W I 10000,R1", &format!("MOVE W I {rounds},R1"));
    written(&format!("ticks_{rounds}.mi"), changed.as_bytes())
}

fn image(file: &str) -> Image {
    image::load(Path::new(file)).expect("the image")
}

/// A run without words: what came of it, and the machine then.
fn ran(image: Image, limit: u64, places: &[u32], trace: bool) -> (Ran, Machine) {
    let mut breakpoints = Breakpoints::default();
    for address in places {
        breakpoints.set(Place { address: *address, mode: None }, None);
    }
    let plan = Plan { limit, requests: vec![], until: None, breakpoints, trace, json: false, dumps: vec![] };
    let mut machine = Machine::fresh(image).expect("a desk");
    let ran = engine::run(&mut machine, &plan, &mut Show::new(&plan, &mut std::io::sink())).expect("a run");
    (ran, machine)
}

/// The same by one call of the library has the same end, desk and memory; answers whether the run was held.
#[track_caller]
fn as_by_library(image: &Image, limit: u64, places: &[u32], trace: bool) -> bool {
    let (ran, machine) = ran(image.clone(), limit, places, trace);
    let mut memory = image.memory.clone();
    let mut desk = Desk::fresh(&memory, image.system, image.control, image.start).expect("a desk");
    let points: Vec<Breakpoint> = places.iter().map(|r15| Breakpoint { r15: *r15, armed: true }).collect();
    let (steps, end) = desk.run_to(&mut memory, limit, &points).expect("a run");
    let number = match ran.end {
        End::Breakpoint(number, _) => Some(number as usize - 1),
        _ => None,
    };
    let held = match end {
        RunEnd::Held { place } => Some(place),
        _ => None,
    };
    assert_eq!((machine.steps, number), (steps, held), "{places:X?}");
    assert!(machine.desk == desk && machine.memory == memory, "{places:X?}");
    held.is_some()
}

/// The hold is just before, at and behind the first step of a piece; the limit is just before, at and behind the hold.
#[test]
fn where_pieces_begin() {
    for rounds in [4_998, 4_999, 5_000, 504_998, 504_999, 505_000] {
        let (image, steps) = (image(&ticks(rounds)), 2 + 2 * rounds);
        for (limit, held) in [(steps - 1, false), (steps, false), (steps + 1, true), (u64::MAX, true)] {
            assert_eq!(as_by_library(&image, limit, &[0x900, 0x221], false), held, "{rounds}");
        }
    }
}

#[test]
fn random_images_are_held_as_by_the_library() {
    let mut random = Random(37);
    let mut holds = 0;
    for round in 0..600 {
        let image = images::random(&mut random);
        let places: Vec<u32> = (0..1 + random.below(6)).map(|_| place(&mut random, &image)).collect();
        holds += usize::from(as_by_library(&image, random.below(20_000), &places, round % 2 == 0));
    }
    assert!((100..500).contains(&holds), "{holds}");
}

/// Mostly where one of the first steps leads.
fn place(random: &mut Random, image: &Image) -> u32 {
    let mut memory = image.memory.clone();
    let mut desk = Desk::fresh(&memory, image.system, image.control, image.start).expect("a desk");
    match desk.run(&mut memory, random.below(12)) {
        Ok(_) if random.below(3) > 0 => desk.register(15),
        _ => random.below(0x400) as u32,
    }
}

/// A kernel's name at an address that a program's loop has too: the library is held at each round, the run only in the
/// kernel.
#[test]
fn a_name_in_another_mode_goes_on() {
    let file = ticks(30_000);
    let (out, status) = said(&["run", &file, "--break", "back", "--request", "5@50001"]);
    assert!(status == 123, "{out}");
    assert!(out.starts_with("held after 50,001 steps: at breakpoint 1, before the command at back (20Dh)\n"), "{out}");
    let (out, status) = said(&["run", &file, "--break", "back"]);
    assert!(status == 0 && out.contains("not held: no command that ran after the first one had a breakpoint"), "{out}");
}

/// An interrupt due at the breakpoint goes first, also where a piece begins by its request; the last entry is told.
#[test]
fn requests_and_the_last_entry() {
    let file = ticks(10_000);
    for (request, held, entry) in
        [("5@20003", "20,004", "20,003"), ("5@20002", "20,004", "20,002"), ("5@15001", "20,004", "15,001")]
    {
        let (out, status) = said(&["run", &file, "--break", "tell", "--request", request]);
        assert_eq!(status, 123, "{out}");
        assert!(
            out.starts_with(&format!("held after {held} steps: at breakpoint 1, before the command at tell")),
            "{out}"
        );
        assert!(out.contains(&format!("\nlast kernel entry: step {entry}, cause 21: an interrupt")), "{out}");
    }
    // One before the last 10,000 steps is not known any more.
    let (out, _) = said(&["run", &file, "--break", "tell", "--request", "5@100"]);
    assert!(out.starts_with("held after 20,004 steps") && !out.contains("last kernel entry"), "{out}");
    let (out, _) = said(&["run", &file, "--break", "done", "--request", "5@20004", "--request", "5@20005"]);
    assert!(out.starts_with("held after 20,003 steps: at breakpoint 1, before the command at done (207h)\n"), "{out}");
    assert!(out.contains("\nlast kernel entry: step 20,003, cause 1: a system call, argument 0, "), "{out}");
    assert!(out.contains("pending level 5\n") && out.contains("\nthe request 5@20005 was not made"), "{out}");
    assert!(!out.contains("5@20004"), "{out}");
}
