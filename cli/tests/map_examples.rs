//! `desk map`: the examples as stored, what is wrong with maps, and random images.

mod support;

use desk::atlas::Atlas;
use desk::machine::Machine;
use desk::map;
use support::{example, golden, images, said, written, Random, EXAMPLES};

#[test]
fn maps_are_as_stored() {
    for name in EXAMPLES {
        let (out, status) = said(&["map", &example(name)]);
        assert_eq!(status, 0);
        golden(&format!("golden/map/{name}.txt"), &out);
    }
    let (out, _) = said(&["map", &example("system_call"), "--steps", "31"]);
    golden("golden/map/system_call_after_31.txt", &out);
}

/// A memory of 8 frames with a program whose map is at 400h.
fn with_map(entries: &[u32]) -> Vec<u8> {
    let mut memory = vec![0; 4096];
    memory[0x200..0x207].copy_from_slice(&[5, 0, 0, 0, 0, 1, 0]);
    images::put(&mut memory, 0x148, 0x400);
    images::put(&mut memory, 0x14C, entries.len() as u32);
    for (page, entry) in entries.iter().enumerate() {
        images::put(&mut memory, 0x400 + 4 * page, *entry);
    }
    memory
}

#[test]
fn what_is_wrong_is_said() {
    let entries = [
        0x8000_0003,
        0xC000_0002,
        0xC000_0000,
        0x8500_0001,
        0x8000_0008,
        0,
        0,
        0x4000_0001,
        0x8000_0003,
        0xBF00_0001,
        0x9000_0001,
        0xA000_0008,
        0x2000_0004,
    ];
    let file = written("wrong.bin", &with_map(&entries));
    let (out, _) = said(&["map", &file]);
    for words in [
        "0       000h to 1FFh    3      600h to 7FFh    read, run         also its page 8",
        "CAREFUL: it may write the map of blockA",
        "CAREFUL: it may write the system block and the control block of blockA",
        "damaged: bits 28 to 24 must be 0, the entry at 40Ch is 85000001h: alarm 10",
        "damaged: bits 28 to 24 must be 0, the entry at 424h is BF000001h: alarm 10",
        "damaged: bits 28 to 24 must be 0, the entry at 428h is 90000001h: alarm 10",
        "damaged: frame 8 is past the memory's 8 (entry at 42Ch): alarm 10",
        "absent, though its entry at 430h is 20000004h: alarm 9",
        "damaged: frame 8 is past the memory's 8 (entry at 410h): alarm 10",
        "5 to 6  A00h to DFFh    -      -               nothing           absent: alarm 9",
        "absent, though its entry at 41Ch is 40000001h: alarm 9",
        "from 1A00h on: past the map, alarm 8",
    ] {
        assert!(out.contains(words), "'{words}' is not in\n{out}");
    }
}

/// Pages in a row are one row of the table only where their rights are the same.
#[test]
fn rights_are_told() {
    let entries = [0x8000_0003, 0xA000_0004, 0xA000_0005, 0xE000_0006, 0xC000_0007, 0xE000_0002];
    let file = written("rights.bin", &with_map(&entries));
    let (out, _) = said(&["map", &file]);
    for words in [
        "  0       000h to 1FFh  3       600h to 7FFh    read, run\n",
        "  1 to 2  200h to 5FFh  4 to 5  800h to BFFh    read\n",
        "  3       600h to 7FFh  6       C00h to DFFh    read, write\n",
        "  4       800h to 9FFh  7       E00h to FFFh    read, write, run\n",
        "  5       A00h to BFFh  2       400h to 5FFh    read, write       CAREFUL: it may write the map of blockA\n",
    ] {
        assert!(out.contains(words), "'{words}' is not in\n{out}");
    }
}

/// A map as long as the memory, all of whose pages are one frame, is told in bounded time and length.
#[test]
fn a_very_long_map() {
    let mut memory = vec![0xC0; 1 << 22];
    memory[..0x400].fill(0);
    memory[0x200..0x207].copy_from_slice(&[5, 0, 0, 0, 0, 1, 0]);
    images::put(&mut memory, 0x14C, 1 << 20);
    for page in 0x100..1 << 20 {
        images::put(&mut memory, 4 * page, 0xC000_0004);
    }
    let file = written("long.bin", &memory);
    let (out, status) = said(&["map", &file]);
    assert!(status == 0 && out.lines().count() < 1100, "{} lines", out.lines().count());
    assert!(out.contains("more entries are not shown") && out.contains("rows more"));
}

#[test]
fn random_images_are_told() {
    let mut random = Random(41);
    for _ in 0..300 {
        let Ok(machine) = Machine::fresh(images::random(&mut random)) else { continue };
        let lines = map::lines(&machine, &Atlas::of(&machine, &machine));
        assert!(lines.len() > 2);
    }
}
