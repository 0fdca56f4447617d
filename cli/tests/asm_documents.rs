//! What docs/MACHINE.md shows of sources, listings and load lists is what the assembler, the listing and `desk load` give.

mod common;

use common::{assembled, image, repository, source};
use desk::list::listing;
use desk::{hex, load};

fn manual() -> String {
    std::fs::read_to_string(repository().join("docs/MACHINE.md")).expect("the manual")
}

/// The indented lines of the first block behind a text, without their indent.
fn block_behind(text: &str, behind: &str) -> Vec<String> {
    let (_, rest) = text.split_once(behind).unwrap_or_else(|| panic!("the manual has no '{behind}'"));
    let lines = rest.lines().skip_while(|line| !line.starts_with("    "));
    let block = lines.take_while(|line| line.is_empty() || line.starts_with("    "));
    let mut block: Vec<String> = block.map(|line| line.get(4..).unwrap_or("").to_string()).collect();
    while block.last().is_some_and(String::is_empty) {
        block.pop();
    }
    block
}

#[test]
fn the_first_source_runs() {
    let block = block_behind(&manual(), "## Sources").join("\n");
    let image = assembled("the manual", &block);
    let mut memory = image.memory.clone();
    let mut desk = midesk::Desk::fresh(&memory, image.system, image.control, image.start).expect("a desk");
    desk.run(&mut memory, 1000).expect("a run");
    assert_eq!((desk.mark(), desk.register(0)), (midesk::Mark::Stopped(0), 7 - 1 + 0x410));
}

#[test]
fn the_user_program_is_the_example() {
    let block = block_behind(&manual(), "which it may only read. All of its source:");
    let example = source("user_mode");
    let from = example.lines().position(|line| line.trim() == "SEG 0").expect("its first segment");
    assert_eq!(block, example.lines().skip(from).map(str::to_string).collect::<Vec<_>>());
}

#[test]
fn the_lines_of_the_listing_are_printed_so() {
    let block = block_behind(&manual(), "real address, the virtual one, the bytes");
    let listed = listing(&image("user_mode"), "user_mode.mi");
    let lines: Vec<&str> = listed.lines().map(|line| line.split("  -- ").next().unwrap_or("").trim_end()).collect();
    assert!(block.len() > 8);
    for line in block {
        assert!(lines.contains(&line.as_str()), "{line}");
    }
}

/// `200h: 20  00 00 0000024B  02 10 00000000   MOVEA 24Bh,R1   ..`: the bytes stand there.
#[test]
fn the_program_taken_apart_has_these_bytes() {
    let memory = image("sum").memory;
    let block = block_behind(&manual(), "adds three halfwords");
    assert_eq!(block.len(), 10);
    for line in block {
        let (address, rest) = line.split_once("h: ").expect("an address");
        let at = usize::from_str_radix(address, 16).expect("an address");
        let digits: String = rest.split("   ").next().unwrap_or("").split_whitespace().collect();
        let bytes: Vec<u8> =
            (0..digits.len() / 2).map(|i| u8::from_str_radix(&digits[2 * i..2 * i + 2], 16).expect("a byte")).collect();
        assert_eq!(memory[at..at + bytes.len()], bytes, "{line}");
    }
}

/// The bytes before the bars are the list; it is printed so, and loads what the text says.
#[test]
fn the_load_list_is_printed_so() {
    let manual = manual();
    let block = block_behind(&manual, "### A list taken apart");
    let digits: String = block.iter().map(|line| line.split(" | ").next().unwrap_or("")[4..].to_string()).collect();
    let list = hex::bytes("the manual", digits.as_bytes()).expect("the list");
    let written: Vec<String> = list.iter().map(|byte| format!("{byte:02X}")).collect();
    assert!(manual.contains(&format!("Its {} bytes are `{}`", list.len(), written.join(" "))));
    let mut out = Vec::new();
    assert_eq!(load::show(&mut out, "the manual", &list, None).expect("memory can be written"), 0);
    let shown = String::from_utf8(out).expect("UTF-8");
    assert!(shown.contains(&format!("\n\n{}\n\n3 pieces put 8 bytes at 7 addresses:", block.join("\n"))), "{shown}");
    assert_eq!(load::memory(&list, None).expect("a memory")[0x200..0x207], *b"AbCD...");
    assert_eq!(load::memory(&list, Some(512)).expect_err("a refusal").refusal.number(), 19);
}

/// What is said of two lists that clash.
#[test]
fn the_clash_is_printed_so() {
    let block = block_behind(&manual(), "--with examples/table_clash.load` prints:");
    let files = ["examples/lookup.load", "examples/table_clash.load"];
    let lists = files.map(|file| std::fs::read(repository().join(file)).expect("the list"));
    let mut out = Vec::new();
    let status = load::show_both(&mut out, (files[0], &lists[0]), (files[1], &lists[1]), None);
    assert_eq!(status.expect("memory can be written"), 55);
    assert_eq!(String::from_utf8(out).expect("UTF-8"), format!("{}\n", block.join("\n")));
}
