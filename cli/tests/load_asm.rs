//! `desk asm SOURCE -o FILE.load`: the list loads exactly the memory that the source gives.

mod common;

use common::{assembled, image, repository, source, Random, EXAMPLES};
use desk::list::listing;
use desk::{asm, load};
use std::path::{Path, PathBuf};
use std::process::{Command, Output};

fn desk(arguments: &[&str]) -> Output {
    Command::new(env!("CARGO_BIN_EXE_desk")).current_dir(repository()).args(arguments).output().expect("desk")
}

/// A file of this test's own, which is not there yet.
fn scratch(name: &str) -> PathBuf {
    let path = Path::new(env!("CARGO_TARGET_TMPDIR")).join(name);
    let _ = std::fs::remove_file(&path);
    path
}

fn path(path: &Path) -> &str {
    path.to_str().expect("a name")
}

/// The list of a source, which is right and has not too many pieces.
fn list_of(source: &str) -> load::Packed {
    let assembled = asm::assemble("source", source).unwrap_or_else(|complaints| panic!("{}\n{source}", complaints[0]));
    let packed = assembled.load_list();
    assert!(packed.is_allowed(), "{} pieces\n{source}", packed.pieces);
    packed
}

fn loads_its_memory(source: &str) {
    let list = list_of(source).list;
    let memory = load::memory(&list, None).unwrap_or_else(|refused| panic!("{}\n{source}", refused.words()));
    assert!(memory == assembled("source", source).memory, "{source}");
}

/// At the command line: the list loads the memory of the source, and the verbs say the same of both.
#[test]
fn an_example_goes_round() {
    for example in EXAMPLES {
        let (source, target) = (format!("examples/{example}.mi"), scratch(&format!("{example}.load")));
        let output = desk(&["asm", &source, "-o", path(&target)]);
        assert_eq!((output.status.code(), output.stdout.len(), output.stderr.len()), (Some(0), 0, 0), "{example}");
        let loaded = desk::image::load(&target).expect("the image");
        assert!(loaded.memory == image(example).memory, "{example}");
        let (bytes, image) = (scratch(&format!("{example}_list.bin")), scratch(&format!("{example}_list.mi")));
        assert_eq!(desk(&["asm", &source, "-o", path(&bytes)]).status.code(), Some(0));
        assert_eq!(desk(&["list", path(&target), "-o", path(&image)]).status.code(), Some(0));
        assert!(assembled("listing", &std::fs::read_to_string(image).expect("the listing")).memory == loaded.memory);
        let run = |file: &Path| desk(&["run", path(file), "--trace"]).stdout;
        assert!(run(&target) == run(&bytes), "{example}");
    }
}

#[test]
fn listings_of_the_examples_too() {
    for example in EXAMPLES {
        loads_its_memory(&source(example));
        loads_its_memory(&listing(&image(example), example));
    }
}

/// The parts come in the order of the source, and only what it writes is put.
#[test]
fn segments_become_parts() {
    let list = list_of("SEG 400h\nDD W 01020304h\nSEG 200h\nHALT\nSEG\nDD B 9\nSEG 0\nRES 300\nALI 4\nDD H 5").list;
    let expected: &[u8] = &[
        1, 0, 0, 4, 0, 3, 1, 2, 3, 4, // 400h
        1, 0, 0, 2, 0, 2, 0, 2, 9, // 200h, and what goes on there
        1, 0, 0, 0, 0, 4, 1, 0x31, 0, 2, 5, // 0: RES, ALI and the 0 of the halfword, then its 5
        0,
    ];
    assert_eq!(list, expected);
}

/// MEMORY is kept by a put of the memory's last byte, where the parts do not reach its last frame.
#[test]
fn the_memory_is_as_long() {
    assert_eq!(list_of("MEMORY 400h").list, [1, 0, 0, 3, 0xFF, 2, 0, 0]);
    assert_eq!(list_of("HALT\nMEMORY 400h").list, [1, 0, 0, 2, 0, 2, 0, 0]);
    for source in ["", "MEMORY 200h", "HALT\nMEMORY 600h", "RES 512\nMEMORY 800h", "RES 16776704", "MEMORY 16777216"] {
        loads_its_memory(source);
    }
}

/// Random data: now and then runs of equal bytes, gaps, segments out of order.
#[test]
fn random_sources_load_their_memory() {
    let mut random = Random(0x10_AD01);
    for _ in 0..400 {
        let mut places: Vec<usize> = (0..8).map(|i| 0x200 * i + random.below(0x100)).collect();
        let mut text = String::new();
        while !places.is_empty() && random.below(10) > 0 {
            let place = places.swap_remove(random.below(places.len()));
            text += &format!("SEG {place:X}h\n");
            for _ in 0..random.below(12) {
                text += &match random.below(5) {
                    0 => format!("RES {}\n", random.below(20)),
                    1 => format!("ALI {}\n", random.below(4)),
                    2 => format!("DD (B {})*{}\n", random.below(256), random.below(20)),
                    3 => format!("DD W {}\n", random.next() as u32),
                    _ => format!("MOVE W I {},R{}\n", random.below(1000), random.below(15)),
                };
            }
        }
        if random.below(3) == 0 {
            text += "MEMORY 2000h\n";
        }
        loads_its_memory(&text);
    }
}

/// More pieces than a list may have: nothing is written, and the sentence says how many it would be.
#[test]
fn too_many_pieces_are_told() {
    let (source, target) = (scratch("many.mi"), scratch("many.load"));
    let words = |count: u32| {
        (0..count)
            .map(|i| format!("DD W {}\n", 0x0101_0101_u32.wrapping_mul(i).wrapping_add(0x0102_0304)))
            .collect::<String>()
    };
    std::fs::write(&source, words(4097)).expect("a file");
    let output = desk(&["asm", path(&source), "-o", path(&target)]);
    let said = String::from_utf8_lossy(&output.stderr).into_owned();
    assert_eq!(output.status.code(), Some(65), "{said}");
    assert!(said.contains("many.mi: its load list would have 4,097 pieces, and a list may have 4,096;"), "{said}");
    assert!(!target.exists());
    std::fs::write(&source, words(4096)).expect("a file");
    assert_eq!(desk(&["asm", path(&source), "-o", path(&target)]).status.code(), Some(0));
    assert_eq!(desk(&["load", path(&target)]).status.code(), Some(0));
}

/// Commented hexadecimal that is no list is not written as one.
#[test]
fn hexadecimal_that_is_no_list() {
    let (source, target) = (scratch("image.hex"), scratch("image.load"));
    std::fs::write(&source, "512*00 7A").expect("a file");
    let output = desk(&["asm", path(&source), "-o", path(&target)]);
    let said = String::from_utf8_lossy(&output.stderr).into_owned();
    assert_eq!(output.status.code(), Some(49), "{said}");
    assert!(said.contains("are no load list that can be loaded") && said.contains("refusal 17: bytes after"), "{said}");
    assert!(!target.exists());
}

/// A source with an error writes no list either, and the ending may be in capital letters.
#[test]
fn errors_and_endings() {
    let (source, target) = (scratch("wrong.mi"), scratch("wrong.load"));
    std::fs::write(&source, "JUMP nowhere").expect("a file");
    assert_eq!(desk(&["asm", path(&source), "-o", path(&target)]).status.code(), Some(65));
    assert!(!target.exists());
    let capitals = scratch("CAPITALS.LOAD");
    assert_eq!(desk(&["asm", "examples/sum.mi", "-o", path(&capitals)]).status.code(), Some(0));
    assert!(String::from_utf8_lossy(&desk(&["run", path(&capitals)]).stdout).starts_with("stop 0 after 16 steps"));
}
