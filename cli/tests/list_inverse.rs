//! Listing and assembling are inverse: every command in every form, all examples, random images, and damaged ones.

mod common;

use common::{assembled, image, Random, EXAMPLES};
use desk::asm;
use desk::decode::{decode, Fields};
use desk::forms::{self, FORMS};
use desk::image::{of_bytes, Image};
use desk::list::{listing, plain};
use desk::names::Names;
use desk::notation::written;
use desk::table::{self, Operand};

/// The listing of an image gives the image back: memory, start, system block, and names where the image had some.
fn comes_back(image: &Image, title: &str) {
    let text = listing(image, title);
    let back = assembled(title, &text);
    assert!(back.memory == image.memory, "{title}: the memory differs\n{text}");
    assert_eq!(back.start, image.start, "{title}");
    assert!(back.warnings.is_empty(), "{title}: {}\n{text}", back.warnings[0]);
    assert!(assembled(title, &plain(image, title)).memory == image.memory, "{title}: without columns");
    let again = listing(&back, title);
    let memory = assembled(title, &again).memory;
    assert!(memory == image.memory, "{title}: the listing's listing differs\n{again}");
}

/// Fields at the edges: registers 0, 1, 13 to 15 and words around zero, signs and sizes.
fn edges(rule: Operand) -> Vec<Fields> {
    let registers = [0, 1, 13, 14, 15];
    let words = [
        0,
        1,
        9,
        10,
        15,
        16,
        127,
        128,
        129,
        255,
        256,
        999,
        1000,
        0x7FFF,
        0x8000,
        0xFF7F,
        0xFF80,
        0xFFFF,
        0x1_0000,
        0xFFF,
        0x7FFF_FFFF,
        0x8000_0000,
        0xA5A5_A5A5,
        0xFFFF_FF7F,
        0xFFFF_FF80,
        0xFFFF_FFD8,
        0xFFFF_FFFF,
        0x3FC0_0000,
        0x7F7F_FFFF,
        0x7F80_0000,
        0x7F80_0001,
        0x7FC0_0000,
        0xFF80_0000,
        0xFFC0_0001,
    ];
    let mut found = Vec::new();
    for form in FORMS {
        for x in registers.into_iter().filter(|x| form.x || *x == 0) {
            for y in registers.into_iter().filter(|y| form.y || *y == 0) {
                for z in words.into_iter().filter(|z| form.z || *z == 0) {
                    let fields = Fields { form: form.number, x, y, z };
                    if forms::allowed(&fields, rule) {
                        found.push(fields);
                    }
                }
            }
        }
    }
    found
}

/// The bytes that a source of one command gives.
fn bytes_of(text: &str) -> Vec<u8> {
    match asm::assemble("command", text) {
        Ok(assembled) => assembled.bytes[0x200..].to_vec(),
        Err(complaints) => panic!("{text}: {}", complaints[0]),
    }
}

#[test]
fn every_command_in_every_form() {
    let plain = Fields { form: forms::BASE, x: 3, y: 0, z: 7 };
    let mut tried = 0;
    for command in table::commands() {
        let mut cases = vec![vec![plain; command.operands.len()]];
        for (place, rule) in command.operands.iter().enumerate() {
            for fields in edges(*rule) {
                let mut case = vec![plain; command.operands.len()];
                case[place] = fields;
                cases.push(case);
            }
        }
        for case in cases {
            let mut bytes = vec![command.byte];
            bytes.extend(case.iter().flat_map(|fields| fields.to_bytes()));
            let decoded = decode(&|at| bytes.get(at as usize).copied(), 0).expect("a command");
            let text = written(&decoded, &Names::none());
            let found = bytes_of(&text);
            assert!(found == bytes || bytes.iter().all(|b| *b == 0), "{text}: {bytes:02X?} became {found:02X?}");
            tried += 1;
        }
    }
    assert!(tried > 20_000, "only {tried} commands were tried");
}

#[test]
fn the_examples_come_back() {
    for example in EXAMPLES {
        let image = image(example);
        comes_back(&image, example);
        comes_back(&of_bytes(image.memory), example);
    }
}

/// The bytes of a command, with addresses below a length in half of its operands.
fn random_command(random: &mut Random, operands: &[(Operand, Vec<Fields>)], length: usize) -> Vec<u8> {
    let commands: Vec<&table::Command> = table::commands().collect();
    let command = *random.pick(&commands);
    let mut bytes = vec![command.byte];
    for rule in command.operands {
        let edges = operands.iter().find(|(operand, _)| operand == rule).expect("its edges");
        let mut fields = *random.pick(&edges.1);
        if random.below(2) == 0 && FORMS[usize::from(fields.form)].z && fields.form != forms::VALUE {
            fields.z = random.below(length) as u32;
        }
        bytes.extend(fields.to_bytes());
    }
    bytes
}

/// For each kind of operand the fields at its edges.
fn all_edges() -> Vec<(Operand, Vec<Fields>)> {
    let mut operands: Vec<(Operand, Vec<Fields>)> = Vec::new();
    for rule in table::commands().flat_map(|command| command.operands) {
        if operands.iter().all(|(operand, _)| operand != rule) {
            operands.push((*rule, edges(*rule)));
        }
    }
    operands
}

/// An image of random commands and data, now and then with blocks and a map that could be one.
fn random_image(random: &mut Random, operands: &[(Operand, Vec<Fields>)]) -> Image {
    let mut memory = vec![0; 512 * (1 + random.below(6))];
    let length = memory.len();
    for _ in 0..random.below(40) {
        let at = random.below(length);
        let bytes = random_command(random, operands, length);
        let room = (length - at).min(bytes.len());
        memory[at..at + room].copy_from_slice(&bytes[..room]);
    }
    for _ in 0..random.below(20) {
        let at = 4 * random.below(length / 4);
        let word: u32 = match random.below(6) {
            0 => 0x8000_0000 + random.below(8) as u32,
            1 => 0xC000_0000 + random.below(8) as u32,
            4 => 0xA000_0000 + 0x4000_0000 * random.below(2) as u32 + random.below(8) as u32,
            2 => 0x8000_0000,
            3 => random.below(length) as u32,
            _ => random.next() as u32,
        };
        memory[at..at + 4].copy_from_slice(&word.to_be_bytes());
    }
    let mut image = of_bytes(memory);
    if random.below(4) == 0 {
        image.start = random.below(length + 8) as u32;
    }
    image
}

#[test]
fn random_images_come_back() {
    let mut random = Random(0x51_0007);
    let operands = all_edges();
    for number in 0..2000 {
        comes_back(&random_image(&mut random, &operands), &format!("random image {number}"));
    }
}

/// The examples with bytes changed, and started elsewhere.
#[test]
fn damaged_examples_come_back() {
    let mut random = Random(0xDA_0009);
    let images: Vec<Image> = EXAMPLES.into_iter().map(image).collect();
    for number in 0..1000 {
        let mut image = random.pick(&images).clone();
        if random.below(2) == 0 {
            image = of_bytes(image.memory);
        }
        for _ in 0..1 + random.below(12) {
            let at = random.below(image.memory.len());
            let any = random.next() as u8;
            image.memory[at] = *random.pick(&[0, 1, 5, 0xFF, 0x80, 0xC0, any]);
        }
        comes_back(&image, &format!("damaged example {number}"));
    }
}

#[test]
fn edge_lengths_come_back() {
    for length in [0, 1, 511, 512, 513, 65_536] {
        comes_back(&of_bytes(vec![0; length]), "zeros");
        comes_back(&of_bytes(vec![0xFF; length]), "ones");
        comes_back(&of_bytes(vec![1; length]), "PUSHR");
        comes_back(&of_bytes((0..length).map(|i| b' ' + (i % 95) as u8).collect()), "text");
    }
}

/// A map that a kernel also takes for a control block: it is written as a map, and has no fields with names.
#[test]
fn a_map_that_is_a_control_block_too_comes_back() {
    let source =
        "SEG 0\nSYSTEM BLOCK\nON SYSTEM CALL TO again\nSEG 100h\nb: CONTROL BLOCK START 0, MAP m\nSEG 200h\nRESUME b\n\
        again: MOVE W 418h,R0\nRESUME 400h\nSEG 400h\nm: MAP\nPAGE 0: FRAME 3, READ\nPAGE 7: ABSENT\n\
        SEG 600h AT 0\nSYSTEM CALL I 1\nMEMORY 800h";
    let image = of_bytes(assembled("source", source).memory);
    assert!(listing(&image, "both").contains("program blockB: control block at 400h"));
    comes_back(&image, "both");
}

/// Three programs behind maps that share frames, name one frame twice, leave some out and are damaged now and then.
fn random_programs(random: &mut Random, operands: &[(Operand, Vec<Fields>)]) -> Image {
    let mut memory = vec![0; 0x1400];
    let put = |memory: &mut [u8], at: usize, word: u32| memory[at..at + 4].copy_from_slice(&word.to_be_bytes());
    for (cause, place) in [(1, 0x207), (2, 0x20E), (8, 0x20E), (9, 0x20E)] {
        put(&mut memory, 8 * cause, place);
        put(&mut memory, 8 * cause + 4, 0x8000_0000);
    }
    for program in 0..3 {
        let (block, map) = (0x100 + 0x50 * program, 0x400 + 0x20 * program);
        memory[0x200 + 7 * program..0x207 + 7 * program].copy_from_slice(&[5, 0, 0, 0, 0, 1, 0x50 * program as u8]);
        put(&mut memory, block + 60, 512 * random.below(3) as u32 + random.below(2) as u32);
        put(&mut memory, block + 72, map as u32);
        put(&mut memory, block + 76, 1 + random.below(8) as u32);
        for page in 0..8 {
            let bits = *random.pick(&[
                0x8000_0000,
                0x8000_0000,
                0xC000_0000,
                0xC000_0000,
                0xA000_0000,
                0xE000_0000,
                0,
                0x2000_0000,
                0x9000_0000,
                0xBF00_0000,
            ]);
            put(&mut memory, map + 4 * page, bits + random.below(12) as u32);
        }
    }
    let mut at = 0x600;
    while at < memory.len() {
        let bytes = random_command(random, operands, 0x1000);
        let room = (memory.len() - at).min(bytes.len());
        memory[at..at + room].copy_from_slice(&bytes[..room]);
        at += bytes.len() + random.below(40);
        if random.below(4) == 0 {
            at = at.next_multiple_of(512);
        }
    }
    of_bytes(memory)
}

#[test]
fn random_programs_come_back() {
    let mut random = Random(0x9A_0003);
    let operands = all_edges();
    let (mut shown, mut without, mut met) = (0, 0, 0);
    for number in 0..200 {
        let image = random_programs(&mut random, &operands);
        let text = listing(&image, "programs");
        shown += usize::from(text.contains(" AT "));
        without += usize::from(text.contains(", NO FETCH"));
        met += usize::from(text.contains("cannot be fetched (alarm 21)"));
        comes_back(&image, &format!("programs {number}"));
    }
    assert!(shown > 100, "only {shown} have a program's page");
    assert!(without > 100 && met > 20, "{without} have pages without commands, {met} run into one");
}

/// A program of six pages with every pattern of an entry's high bits, in turn; the kernel has an entry for each cause.
#[test]
fn every_entry_of_map_and_system_block_comes_back() {
    for high in 0..=255_u32 {
        let mut memory = vec![0; 0x1000];
        let put = |memory: &mut [u8], at: usize, word: u32| memory[at..at + 4].copy_from_slice(&word.to_be_bytes());
        for cause in 0..32 {
            put(&mut memory, 8 * cause, 0x207 + cause as u32);
            put(&mut memory, 8 * cause + 4, if cause as u32 % 8 == high % 8 { 7 } else { 0x8000_0000 });
        }
        memory[0x200..0x207].copy_from_slice(&[5, 0, 0, 0, 0, 1, 0]);
        put(&mut memory, 0x148, 0x400);
        put(&mut memory, 0x14C, 6);
        for (page, frame) in [3, 4, 5, 6, 9, 0x00FF_FFFF].into_iter().enumerate() {
            put(&mut memory, 0x400 + 4 * page, high << 24 | frame);
        }
        let image = of_bytes(memory);
        let text = listing(&image, "entries");
        let right = match high {
            0x80 => "FRAME 6, READ\n",
            0xA0 => "FRAME 6, READ, NO FETCH\n",
            0xC0 => "FRAME 6, WRITE\n",
            0xE0 => "FRAME 6, WRITE, NO FETCH\n",
            0 => "ABSENT, FRAME 6\n",
            _ => &format!("WORD {}", desk::notation::hexadecimal(high << 24 | 6)),
        };
        let row = right.replace("FRAME 6", "FRAME 3");
        assert!(
            text.contains(&format!("PAGE 3: {right}")) || text.contains(&format!("PAGE 0 TO 3: {row}")),
            "'{right}' is not in\n{text}"
        );
        assert_eq!(text.contains("damaged: bits 28 to 24 are not 0"), high >= 0x80 && high & 0x1F != 0, "{text}");
        comes_back(&image, &format!("entries {high:02X}"));
    }
}

/// Alarm 21 is listed as such, also where the source has written CAUSE 2; level 5 keeps cause 21.
#[test]
fn alarm_21_is_listed_as_such() {
    let source = "SEG 0\nSYSTEM BLOCK\nON CAUSE 2 TO 207h -- fetched\nON INTERRUPT 5 TO 208h, LEVEL 5\nSEG 200h\nJUMP 207h\nHALT\nHALT";
    let image = assembled("source", source);
    let text = listing(&image, "source");
    assert!(
        text.contains("\n0010  00000207 80000000 ") && text.contains("ON ALARM 21 TO L207  -- fetched\n"),
        "{text}"
    );
    assert!(
        text.contains("\n00A8  00000208 80000050 ") && text.contains("ON INTERRUPT 5 TO L208, LEVEL 5\n"),
        "{text}"
    );
    comes_back(&image, "source");
    let alone = of_bytes(assembled("alone", "SEG 0\nSYSTEM BLOCK\nON ALARM 21 TO 200h\nSEG 200h\nHALT").memory);
    assert!(listing(&alone, "alone").contains("SYSTEM BLOCK"));
}

/// Commands of a source that no program may run, and to which none leads, are data like any other.
#[test]
fn commands_that_no_program_may_run_are_listed_as_data() {
    let source = |right: &str| {
        format!(
            "SEG 100h\nb: CONTROL BLOCK START go, MAP m\nSEG 200h\nRESUME b\nSEG 400h\nm: MAP\nPAGE 0: FRAME OF go, READ\n\
             PAGE 1: FRAME OF other, {right}\nSEG 600h AT 0\ngo: SYSTEM CALL I 0\nSEG 800h AT 200h\nother: CALL 0\nRET"
        )
    };
    let text = listing(&assembled("source", &source("READ")), "source");
    assert!(text.contains("other: CALL go\n"), "{text}");
    let image = assembled("source", &source("READ, NO FETCH"));
    let text = listing(&image, "source");
    assert!(!text.contains("CALL go") && !text.contains("runs here") && text.contains("other: DD "), "{text}");
    comes_back(&image, "source");
}

/// What a program runs into in a page without commands stays data in one piece, with a remark; a page that may be run is the one
/// that is shown, where a frame has several.
#[test]
fn what_cannot_be_fetched_is_listed_as_data() {
    let source = "SEG 0\nSYSTEM BLOCK\nON ALARM 21 TO done\nSEG 100h\nb: CONTROL BLOCK START go, MAP m\n\
        SEG 200h\nRESUME b\ndone: HALT\nSEG 400h\nm: MAP\nPAGE 0: FRAME OF go, READ\nPAGE 1: FRAME OF text, READ, NO FETCH\n\
        PAGE 2: FRAME OF go, WRITE, NO FETCH\nSEG 600h AT 0\ngo: JNE text\nJUMP last\nSEG 7FFh AT 1FFh\nlast: DD B 70h\n\
        SEG 800h AT 200h\nDD H 0,0,200h\ntext: DD 'zzzz runs, as a row of RETs'";
    for image in [assembled("source", source), of_bytes(assembled("source", source).memory)] {
        let text = listing(&image, "source");
        for words in [
            "-- frame 3: page 0 of b",
            " (read, run); page 2 of b",
            " (read, write)\n",
            "SEG 600h AT 0\n",
            "-- frame 4: page 1 of b",
            " (read)\n",
            "DD 'zzzz runs, as a row of R'  -- runs here, and the byte at 206h cannot be fetched (alarm 21)",
            "DD B 70h ",
            "-- runs here, and the byte at 200h cannot be fetched (alarm 21)",
        ] {
            assert!(text.contains(words), "'{words}' is not in\n{text}");
        }
        comes_back(&image, "source");
    }
}
