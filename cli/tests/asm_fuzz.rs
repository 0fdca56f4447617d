//! Damaged sources, images and commented hexadecimal: nothing panics, everything ends, and every complaint has its place.

mod common;

use common::{image, source, Random, EXAMPLES};
use desk::asm::assemble;
use desk::hex;
use desk::image::of_bytes;
use desk::list::listing;
use desk::load;

/// Text that sources are made of, and text that they are not.
const PIECES: &[&str] = &[
    "MOVE W ",
    "ADD B ",
    "ADD F ",
    "CMP D ",
    "DD F ",
    "D ",
    "1.5",
    "E-3",
    "1E400",
    "7FF8000000000001h",
    "SYSTEM CALL ",
    "SYSTEM BLOCK",
    "CONTROL BLOCK ",
    "START ",
    "MAP ",
    "PAGE ",
    "FRAME ",
    "ON ",
    "TO ",
    "SEG ",
    "AT ",
    "DD ",
    "RES ",
    "ALI ",
    "EQU ",
    "END",
    "MEMORY ",
    "I ",
    "R1",
    "R15",
    "SP",
    "!",
    "+",
    "-",
    "--",
    "(",
    ")",
    "*",
    "/",
    ",",
    ":",
    ";",
    "=",
    ".",
    "'",
    "''",
    "|",
    "\n",
    "\r",
    "\t",
    " ",
    "0",
    "5",
    "FFh",
    "FFFFFFFFh",
    "H'",
    "B'1",
    "16777216",
    "99999999999",
    "a",
    "start",
    "block.R15",
    "ä",
    "\u{0}",
    "\u{7F}",
    "\u{2028}",
    "ALARM 8 ",
    "ALARM 21 ",
    "CAUSE 2 ",
    "READ",
    "WRITE",
    "NO ",
    "FETCH",
    ", NO FETCH",
    "ABSENT",
    "OF ",
    "WORD ",
    "LEVEL ",
    "LENGTH ",
];

/// Whether every complaint stands in the source, and there is one where there is no image.
fn answers(text: &str) {
    match assemble("source", text) {
        Ok(assembled) => {
            assert!(assembled.image.memory.len() % 512 == 0);
            assert!(assembled.bytes.len() <= assembled.image.memory.len());
            if assembled.image.memory.len() < 65_536 {
                let back = common::assembled("listing", &listing(&assembled.image, "listing"));
                assert!(back.memory == assembled.image.memory, "{text}");
                let packed = assembled.load_list();
                let loaded = load::memory(&packed.list, None).map_err(|refused| refused.words());
                assert!(!packed.is_allowed() || loaded.as_ref() == Ok(&assembled.image.memory), "{text}");
            }
        }
        Err(complaints) => {
            assert!(!complaints.is_empty());
            let lines = text.split(['\n', '\r']).count();
            for complaint in complaints {
                assert!(complaint.line <= lines, "{complaint}\n{text}");
                assert!(!complaint.sentence.chars().any(char::is_control), "{complaint:?}");
            }
        }
    }
}

#[test]
fn damaged_sources_are_answered() {
    let mut random = Random(0xA5_0001);
    let written = EXAMPLES.iter().map(|example| source(example));
    let listed = EXAMPLES.iter().map(|example| listing(&image(example), example));
    let sources: Vec<Vec<char>> = written.chain(listed).map(|text| text.chars().collect()).collect();
    for _ in 0..3000 {
        let mut text = random.pick(&sources).clone();
        for _ in 0..1 + random.below(8) {
            let at = random.below(text.len());
            let end = (at + random.below(12)).min(text.len());
            let piece: Vec<char> = random.pick(PIECES).chars().collect();
            match random.below(3) {
                0 => drop(text.splice(at..end, piece)),
                1 => drop(text.splice(at..at, piece)),
                _ => drop(text.drain(at..end)),
            }
        }
        answers(&text.into_iter().collect::<String>());
    }
}

#[test]
fn random_pieces_are_answered() {
    let mut random = Random(0xA5_0002);
    for _ in 0..20_000 {
        let count = random.below(30);
        let text: String = (0..count).map(|_| *random.pick(PIECES)).collect();
        answers(&text);
    }
}

#[test]
fn large_numbers_take_no_room() {
    for text in [
        "DD (((((B 1)*16777216)*16777216)*16777216)*16777216)*16777216",
        "RES 16777216\nRES 16777216\nRES 16777216",
        "SEG FFFFFFFFh\nDD W 1",
        "MAP 4194304\nMAP 4194304",
        "MAP\nPAGE 4194303: ABSENT",
        "PAGE 0 TO 4194303: FRAME 0, READ",
        "MAP\nPAGE 0 TO 4194303: FRAME 0, READ",
        "EQU a = 1+1, b = a+a, c = b+b, d = c+c, e = d+d, f = e+e, g = f+f, h = g+g, i = h+h, j = i+i, k = j+j, l = k+k, m = l+l\nDD W m,m",
        "SEG 200h AT FFFFFFFFh\na: JUMP b\nb: JUMP a",
        "ALI 24\nDD B 1",
        "0200 99999999999999999999*00 | HALT\n0201 9999999999*00 | HALT\nFFFFFFFFF 00 | HALT\n0202 16777216*00 | a:\nMEMORY 1000000h",
    ] {
        answers(text);
    }
    answers(&"(".repeat(100_000));
    answers(&format!("DD {}", "(".repeat(100_000)));
    answers(&format!("MOVE W {}R1,R1", "!(".repeat(100_000)));
    answers(&format!("DD W 1{}", "+1".repeat(100_000)));
    answers(&"a:".repeat(50_000));
}

#[test]
fn random_bytes_are_listed() {
    let mut random = Random(0xA5_0003);
    for _ in 0..300 {
        let length = random.below(3000);
        let memory: Vec<u8> = (0..length).map(|_| if random.below(3) == 0 { 0 } else { random.next() as u8 }).collect();
        let mut image = of_bytes(memory);
        image.start = random.next() as u32;
        image.system = random.next() as u32;
        image.control = random.next() as u32;
        assert!(listing(&image, "random").ends_with('\n'));
    }
}

#[test]
fn damaged_hexadecimal_is_answered() {
    let mut random = Random(0xA5_0004);
    let pieces = [
        "00",
        "0",
        "FF00",
        "3*00",
        "99999999*00",
        "*",
        "@",
        "@10",
        "@FFFFFFFF",
        "10:",
        ":",
        "#",
        " ",
        "\n",
        "\r",
        "\t",
        "x",
        "\u{FF}",
    ];
    for _ in 0..20_000 {
        let count = random.below(20);
        let text: String = (0..count).map(|_| *random.pick(&pieces)).collect();
        if let Err(complaints) = hex::bytes("source", text.as_bytes()) {
            assert!(complaints.iter().all(|complaint| complaint.line > 0 && complaint.column > 0), "{text}");
        }
    }
}
