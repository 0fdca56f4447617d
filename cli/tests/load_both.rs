//! Two load lists in one memory, `--with`: the examples, every verb that takes it, lengths, and what is no clash.

mod support;

use desk::image;
use std::path::Path;
use std::process::Command;
use support::{desk_at_root, file, golden, refused, said, text, written};

const LOOKUP: &str = "examples/lookup.load";
const TABLE: &str = "examples/table.load";
const CLASHING: &str = "examples/table_clash.load";

/// What a call from the repository's folder writes; its status must be this.
fn shown(arguments: &[&str], status: i32) -> String {
    let output = desk_at_root(arguments);
    assert_eq!((text(&output.stderr).as_str(), output.status.code()), ("", Some(status)), "{arguments:?}");
    text(&output.stdout)
}

/// The memory of two lists.
fn memory(first: &str, second: &str) -> Vec<u8> {
    image::load_into(Path::new(first), Some(Path::new(second)), None).expect("the image").memory
}

#[test]
fn the_lists_are_what_their_sources_give() {
    for (source, list) in [("lookup.mi", LOOKUP), ("table.hex", TABLE), ("table_clash.hex", CLASHING)] {
        let (source, made) = (file(&format!("examples/{source}")), written("both_again.load", &[]));
        assert_eq!(said(&["asm", &source, "-o", &made]), (String::new(), 0));
        let stored = std::fs::read(file(list)).expect("the list");
        assert!(std::fs::read(&made).expect("the list") == stored, "{list}");
        if source.ends_with(".hex") {
            let bytes = Command::new(file("tools/bytes")).arg(&source).output().expect("tools/bytes");
            assert!(bytes.stdout == stored, "{list}");
        }
    }
}

#[test]
fn outputs_are_as_stored() {
    golden("golden/load/both_run.txt", &shown(&["run", LOOKUP, "--with", TABLE], 0));
    golden("golden/load/both_load.txt", &shown(&["load", LOOKUP, "--with", TABLE], 0));
    golden("golden/load/both_list.txt", &shown(&["list", LOOKUP, "--with", TABLE], 0));
    golden("golden/load/both_map.txt", &shown(&["map", LOOKUP, "--with", TABLE], 0));
    golden("golden/load/clash_load.txt", &shown(&["load", LOOKUP, "--with", CLASHING], 55));
}

#[test]
fn the_other_verbs_take_it() {
    let picture = shown(&["picture", LOOKUP, "--with", TABLE], 0);
    assert!(picture.starts_with("<svg") && picture.contains("lookup.load with table.load"));
    let script = support::written("both.txt", b"continue\nregisters\n");
    let (alone, both) = (["debug", LOOKUP, "--script", &script], ["--with", TABLE]);
    assert!(shown(&[&alone[..], &both].concat(), 0).contains("R0  00000051"));
    assert!(shown(&alone, 0).contains("R0  00000000"));
    assert!(shown(&["list", LOOKUP, "--plain", "--with", TABLE], 0).contains("90051h"));
    let end = shown(&["run", LOOKUP, "--json", "--with", TABLE], 0);
    assert!(end.contains("\"steps\":22,") && end.contains("\"registers\":[81,"), "{end}");
}

/// Exchanged, the lists give the same memory, and the verbs say the same of it.
#[test]
fn the_lists_can_be_exchanged() {
    assert!(memory(&file(LOOKUP), &file(TABLE)) == memory(&file(TABLE), &file(LOOKUP)));
    for verb in ["run", "map"] {
        assert_eq!(shown(&[verb, LOOKUP, "--with", TABLE], 0), shown(&[verb, TABLE, "--with", LOOKUP], 0), "{verb}");
    }
    let exchanged = shown(&["load", CLASHING, "--with", LOOKUP], 55).replace("\n  ", " ");
    assert!(
        exchanged.contains("the first list puts 07h at 403h, by 03h (put four bytes) at byte 5 of it"),
        "{exchanged}"
    );
}

/// What two lists load is an image like any other.
#[test]
fn an_image_of_it_ends_alike() {
    let bytes = written("both.bin", &memory(&file(LOOKUP), &file(TABLE)));
    assert_eq!(said(&["run", &bytes, "--trace"]), said(&["run", &file(LOOKUP), "--with", &file(TABLE), "--trace"]));
}

/// A list with itself loads what it loads alone.
#[test]
fn a_list_twice() {
    for list in [LOOKUP, TABLE, "examples/parts.load"] {
        let (list, alone) = (file(list), image::load(file(list).as_ref()).expect("the image").memory);
        assert!(memory(&list, &list) == alone, "{list}");
        let (out, status) = said(&["load", &list, "--with", &list]);
        assert!(status == 0 && out.contains("they load together") && !out.contains("clash"), "{out}");
    }
}

/// Two lists with the byte that each address has in the end: pairs of an address and its byte.
struct Fits {
    name: &'static str,
    first: &'static [u8],
    second: &'static [u8],
    bytes: &'static [(usize, u8)],
    said: &'static str,
}

const FITS: [Fits; 8] = [
    Fits { name: "apart", first: &[2, 1, 0], second: &[1, 0, 0, 0, 1, 2, 2, 0], bytes: &[(0, 1), (1, 2)], said: "no address is in both" },
    Fits { name: "equal_at_0", first: &[2, 7, 2, 1, 0], second: &[2, 7, 0], bytes: &[(0, 7), (1, 1)], said: "both put 1 address:\n  0: 1 byte\n" },
    Fits { name: "equal_last", first: &[1, 0, 0, 1, 0xFF, 2, 9, 0], second: &[1, 0, 0, 1, 0xFC, 3, 0, 0, 0, 9, 0], bytes: &[(0x1FF, 9)], said: "  1FFh: 1 byte\n" },
    Fits { name: "earlier_puts", first: &[2, 1, 1, 0, 0, 0, 0, 2, 5, 0], second: &[4, 0, 1, 9, 1, 0, 0, 0, 0, 2, 5, 0], bytes: &[(0, 5)], said: "both put 1 address:" },
    Fits { name: "zeros", first: &[4, 0, 9, 0, 0], second: &[4, 0, 3, 0, 0], bytes: &[(0, 0)], said: "both put 3 addresses:\n  0 to 2: 3 bytes\n" },
    Fits { name: "no_copies", first: &[2, 1, 0], second: &[4, 0, 0, 2, 0], bytes: &[(0, 1)], said: "no address is in both" },
    Fits { name: "end_alone", first: &[0], second: &[2, 3, 0], bytes: &[(0, 3)], said: "the first list: 0 pieces put 0 bytes\nthe second list: 1 piece puts 1 byte at 1 address:" },
    Fits { name: "two_ends", first: &[0], second: &[0], bytes: &[(0, 0), (511, 0)], said: "no address is in both\nthey load together into a memory of 512 bytes (200h), the shortest that holds them\n" },
];

#[test]
fn lists_that_fit() {
    for Fits { name, first, second, bytes, said: words } in FITS {
        let (first, second) =
            (written(&format!("both_{name}_1.load"), first), written(&format!("both_{name}_2.load"), second));
        let memory = memory(&first, &second);
        assert!(bytes.iter().all(|(at, byte)| memory[*at] == *byte), "{name}");
        let (out, status) = said(&["load", &first, "--with", &second]);
        assert!(status == 0 && out.contains(words), "{name}: {out}");
    }
}

/// Whole frames up to the last byte that either puts, or what --memory says.
#[test]
fn the_memory_is_as_long_as_both_need() {
    let near = written("both_near.load", &[2, 1, 0]);
    let far = written("both_far.load", &[1, 0, 0, 7, 0xFF, 2, 1, 0]);
    assert_eq!((memory(&near, &far).len(), memory(&far, &near).len(), memory(&near, &near).len()), (2048, 2048, 512));
    for (first, second) in [(&near, &far), (&far, &near)] {
        let (out, _) = said(&["load", first, "--with", second]);
        assert!(out.ends_with("into a memory of 2,048 bytes (800h), the shortest that holds them\n"), "{out}");
        let (out, _) = said(&["load", first, "--with", second, "--memory", "4096"]);
        assert!(out.ends_with("they load together into a memory of 4,096 bytes (1000h)\n"), "{out}");
        let (out, _) = said(&["map", first, "--with", second, "--memory", "1000h"]);
        assert!(out.starts_with("memory: 4,096 bytes"), "{out}");
    }
    let last = written("both_last.load", &[1, 0, 0xFF, 0xFF, 0xFF, 2, 1, 0]);
    assert_eq!(memory(&near, &last).len(), 16_777_216);
}

/// Each of the lists may have 4,096 pieces.
#[test]
fn the_most_pieces() {
    let list: Vec<u8> = (0..4096).flat_map(|i: u32| [2, i as u8]).chain([0]).collect();
    let moved = [&[1, 0, 0, 0x10, 0], &list[..]].concat();
    let (out, status) =
        said(&["load", &written("both_most_1.load", &list), "--with", &written("both_most_2.load", &moved)]);
    assert!(status == 0 && out.contains("into a memory of 8,192 bytes (2000h)"), "{out}");
}

/// Neither of the lists is written over.
#[test]
fn the_lists_are_left_as_they_are() {
    let (first, second) = (written("kept_1.load", &[2, 1, 0]), written("kept_2.load", &[2, 1, 0]));
    for verb in ["list", "picture"] {
        for target in [&first, &second] {
            let (sentence, status) = refused(&[verb, &first, "--with", &second, "-o", target]);
            assert!(status == 64 && sentence.contains("is left as it is"), "{verb}: {sentence}");
            assert_eq!(std::fs::read(target).expect("the list"), [2, 1, 0]);
        }
    }
}
