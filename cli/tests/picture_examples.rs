//! `desk picture`: three examples as stored; all are well-formed; random images.

mod support;

use desk::machine::Machine;
use desk::{code, image, picture};
use support::{example, golden, images, said, written, Random, EXAMPLES};

/// Whether the text is well-formed enough for XML: tags are closed in order, no stray `<`, `&` or quotes.
fn well_formed(svg: &str) -> Result<(), String> {
    let mut open: Vec<&str> = Vec::new();
    let mut rest = svg;
    while let Some((before, after)) = rest.split_once('<') {
        text(before)?;
        let (tag, behind) = after.split_once('>').ok_or("a tag without an end")?;
        let name = tag.trim_start_matches('/').split([' ', '/']).next().unwrap_or("");
        if tag.matches('"').count() % 2 == 1 || name.is_empty() {
            return Err(format!("tag {tag}"));
        }
        if tag.starts_with('/') {
            if open.pop() != Some(name) {
                return Err(format!("{name} is closed and was not open"));
            }
        } else if !tag.ends_with('/') {
            open.push(name);
        }
        rest = behind;
    }
    text(rest)?;
    if open.is_empty() {
        Ok(())
    } else {
        Err(format!("{open:?} is left open"))
    }
}

fn text(text: &str) -> Result<(), String> {
    let entities = ["&amp;", "&lt;", "&gt;", "&quot;"].map(|entity| text.matches(entity).count()).iter().sum::<usize>();
    if text.matches('&').count() == entities && !text.contains('>') {
        Ok(())
    } else {
        Err(format!("text {text}"))
    }
}

#[test]
fn pictures_are_as_stored() {
    for name in ["isolation", "fibonacci", "no_fetch"] {
        let (svg, status) = said(&["picture", &example(name)]);
        assert_eq!(status, 0);
        golden(&format!("golden/picture/{name}.svg"), &svg);
    }
}

#[test]
fn every_picture_is_well_formed() {
    assert!(
        well_formed("<a><b/></a>").is_ok() && well_formed("<a><b></a>").is_err() && well_formed("<a>&</a>").is_err()
    );
    for name in EXAMPLES {
        let (svg, _) = said(&["picture", &example(name), "--steps", "10", "--memory", "16777216"]);
        assert_eq!(well_formed(&svg), Ok(()), "{name}");
    }
}

/// Frames that both programs reach are marked as shared, and no others.
#[test]
fn shared_frames_stand_out() {
    let (isolation, _) = said(&["picture", &example("isolation")]);
    let (fibonacci, _) = said(&["picture", &example("fibonacci")]);
    assert_eq!(isolation.matches(">shared<").count(), 1);
    assert_eq!(fibonacci.matches(">shared<").count(), 3);
}

/// Pages without commands have a sign beside what the program may do; the legend has one too.
#[test]
fn pages_without_commands_have_a_sign() {
    let (no_fetch, _) = said(&["picture", &example("no_fetch")]);
    let (isolation, _) = said(&["picture", &example("isolation")]);
    let sign = "a6,6 0 1,0 12,0 a6,6 0 1,0 -12,0";
    assert_eq!((no_fetch.matches(sign).count(), isolation.matches(sign).count()), (3, 1));
    for (may, count) in [(">read, run<", 1), (">read<", 1), (">read, write<", 1), (">read, write, run<", 0)] {
        assert_eq!(no_fetch.matches(may).count(), count, "{may}");
    }
}

/// Frames of zeros in a row are one row of the picture only where the rights are the same.
#[test]
fn frames_with_other_rights_have_other_rows() {
    let mut memory = vec![0; 4096];
    memory[0x200..0x207].copy_from_slice(&[5, 0, 0, 0, 0, 1, 0]);
    images::put(&mut memory, 0x148, 0x400);
    images::put(&mut memory, 0x14C, 4);
    for (page, entry) in [0xC000_0004, 0xC000_0005, 0xE000_0006, 0xE000_0007].into_iter().enumerate() {
        images::put(&mut memory, 0x400 + 4 * page, entry);
    }
    let machine = Machine::fresh(image::of_bytes(memory)).expect("a desk");
    let svg = picture::of(&machine, &machine, "rights");
    for words in [">frames 4-5<", ">frames 6-7<", ">read, write, run<", ">read, write<"] {
        assert_eq!(svg.matches(words).count(), 1, "{words}");
    }
}

/// Where a file brings no lines, commands are looked for only where they can be fetched: the name that is jumped to is none, nor
/// the command whose operand would be in a page without commands.
#[test]
fn commands_are_not_looked_for_in_pages_without_them() {
    let bytes = image::load(example("no_fetch").as_ref()).expect("the example").memory;
    let image = image::load(written("no_fetch.bin", &bytes).as_ref()).expect("the bytes");
    let found = code::known(&Machine::fresh(image).expect("a desk"));
    assert!([0x200, 0x600, 0x60E, 0x62F].iter().all(|at| found.contains(at)), "{found:X?}");
    assert!([0x7FF, 0x806].iter().all(|at| !found.contains(at)), "{found:X?}");
}

#[test]
fn it_is_written_to_a_file() {
    let path = format!("{}/sum.svg", env!("CARGO_TARGET_TMPDIR"));
    let (out, status) = said(&["picture", &example("sum"), "-o", &path]);
    assert_eq!((out.as_str(), status), ("", 0));
    let file = std::fs::read_to_string(path).expect("the file");
    assert_eq!(file, said(&["picture", &example("sum")]).0);
}

#[test]
fn random_images_are_drawn() {
    let mut random = Random(43);
    for _ in 0..500 {
        let Ok(machine) = Machine::fresh(images::random(&mut random)) else { continue };
        let svg = picture::of(&machine, &machine, "a < \"b\" & \u{7}");
        assert_eq!(well_formed(&svg), Ok(()));
    }
}
