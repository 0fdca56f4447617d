//! Columns of a listing that say something else than the text behind the bar, and pages past the memory, are told.

mod common;

use common::{assembled, image, EXAMPLES};
use desk::asm::assemble;
use desk::image::of_bytes;
use desk::list::listing;

/// The warnings of a source that is right.
fn warnings(source: &str) -> Vec<String> {
    assembled("s", source).warnings.iter().map(|warning| warning.as_warning()).collect()
}

#[test]
fn columns_that_agree() {
    for line in [
        "0200 00 | HALT",
        "0200 | HALT",
        "| HALT",
        "0200  12  02 10 00000000  02 20 00000000 | MOVE W R1,R2",
        "0200  12 .. | MOVE W R1,R2",
        "0200 3*01 | DD B 1,1,1",
        "0200 | a:\n0200 00 | HALT",
        "0200 0000 00 | SEG 200h AT 0\n0200 0000 00 | HALT",
        "0200 00 | END\n0300 55 | HALT",
    ] {
        assert_eq!(warnings(line), Vec::<String>::new(), "{line}");
    }
}

#[test]
fn columns_that_do_not() {
    let count = "what stands behind the bar counts";
    let cases = [
        ("0200 01 | HALT", format!("s:1:6: warning: '01' before the bar is not what this line gives, 00: {count}")),
        (
            "0200  12  01 00 00000005  02 20 00000000 | MOVE W I 6,R2",
            format!("s:1:17: warning: '00000005' before the bar is not what this line gives, 00000006: {count}"),
        ),
        ("0200 0000 | HALT", format!("s:1:6: warning: before the bar stand 2 bytes, and this line gives 1: {count}")),
        ("0200 0 | HALT", "s:1:6: warning: '0' before the bar is no row of bytes in hexadecimal".to_string()),
        (
            "0204 00 | HALT",
            "s:1:1: warning: the address before the bar is 0204, and this line is at 200h; to move it, write SEG"
                .to_string(),
        ),
        (
            "SEG 200h AT 0\n0200 0004 00 | HALT",
            "s:2:6: warning: the virtual address before the bar is 0004, and this line is at 0; to move it, write SEG"
                .to_string(),
        ),
        (
            "SEG 0\n0000 | SYSTEM BLOCK\n0008 00000207 80000000 | ON SYSTEM CALL TO 200h",
            format!("s:3:6: warning: '00000207' before the bar is not what this line gives, 00000200: {count}"),
        ),
    ];
    for (source, warning) in cases {
        assert_eq!(warnings(source), [warning], "{source}");
    }
}

/// A command that is put in moves all that follow it, which is told once.
#[test]
fn moved_lines_are_told_once() {
    let found =
        warnings("0200 00 | HALT\nHALT\n0201 00 | HALT\n0202 00 | HALT\n0205 00 | SEG 205h; HALT\n0206 01 | HALT");
    assert_eq!(found.len(), 2, "{found:?}");
    assert!(found[0].starts_with("s:3:1:") && found[1].starts_with("s:6:6:"), "{found:?}");
}

/// Every byte of every line of bytes is looked at.
#[test]
fn each_changed_digit_is_told() {
    for example in EXAMPLES {
        let text = listing(&of_bytes(image(example).memory), example);
        let lines: Vec<&str> = text.lines().collect();
        for (number, line) in lines.iter().enumerate() {
            let Some((columns, _)) = line.split_once('|') else { continue };
            let Some(last) = columns.trim_end().len().checked_sub(1).filter(|_| !columns.contains("..")) else {
                continue;
            };
            let digit = if &line[last..=last] == "5" { "6" } else { "5" };
            let changed = format!("{}{digit}{}", &line[..last], &line[last + 1..]);
            let mut all = lines.clone();
            all[number] = &changed;
            let found = warnings(&all.join("\n"));
            let place = format!("s:{}:", number + 1);
            assert!(!found.is_empty() && found.iter().all(|w| w.starts_with(&place)), "{changed}\n{found:?}");
        }
    }
}

#[test]
fn frames_past_the_memory() {
    let source = "SEG 400h\nm: MAP\nPAGE 0: FRAME 1, READ\nPAGE 2 TO 4: FRAME 1, WRITE\nPAGE 7: ABSENT, FRAME 55";
    let found = assemble("s", source).expect("a source").past_memory;
    assert_eq!(found.len(), 1);
    let words =
        "s:4:6: warning: frame 3 is past the memory, which has the frames 0 to 2: a use of this page is alarm 10";
    assert!(found[0].as_warning().starts_with(words), "{}", found[0]);
}
