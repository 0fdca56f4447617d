//! What stopped a desk is found: the cause and its argument, and where to look.

mod support;

use desk::atlas;
use desk::decode::Trouble;
use desk::diagnose::{self, Finding};
use desk::machine::Machine;
use midesk::{numbers, Desk, Event, Mark};
use support::{desk, images, said, text, written, Random};

/// An image of two frames with this code at 200h, run to its stop.
fn stopped(code: &[u8]) -> (Desk, Vec<u8>) {
    let mut memory = vec![0; 1024];
    memory[512..512 + code.len()].copy_from_slice(code);
    let mut desk = Desk::fresh(&memory, 0, 256, 512).expect("a desk");
    desk.run(&mut memory, 100).expect("a run");
    (desk, memory)
}

fn found(code: &[u8]) -> Option<Finding> {
    let (desk, memory) = stopped(code);
    diagnose::of(&desk, &memory)
}

#[test]
fn alarms_in_kernel_mode() {
    let cases: [(&[u8], Finding); 17] = [
        (&[0x10, 0, 0, 0, 0, 4, 0, 2, 0, 0, 0, 0, 0], Finding::Cause(8, 0x400)),
        (&[0x12, 0, 0, 0, 0, 3, 0xFE, 2, 0, 0, 0, 0, 0], Finding::Cause(8, 0x400)),
        (&[0x12, 1, 0, 0, 0, 0, 0, 0, 0, 0, 0, 3, 0xFD], Finding::Cause(8, 0x400)),
        (&[0xFF], Finding::Cause(12, 0xFF)),
        (&[3, 1, 0, 0, 0, 0, 7], Finding::Cause(13, 3)),
        (&[0x10, 1, 0, 0, 0, 0, 2, 9, 0, 0, 0, 0, 0], Finding::Cause(14, 2)),
        (&[5, 1, 0, 0, 0, 1, 0], Finding::Cause(14, 1)),
        (&[5, 0, 0, 0, 0, 1, 2], Finding::Block(0x102)),
        (&[0x16, 2, 0, 0, 0, 0, 0, 5, 0, 0, 0, 0, 1, 2], Finding::Block(0x102)),
        (&[0x58, 1, 0, 0, 0, 0, 0, 2, 0, 0, 0, 0, 0], Finding::Cause(15, 0)),
        (&[0x82], Finding::Cause(12, 0x82)),
        (&[0x81, 1, 0, 0, 0, 0, 0, 2, 0, 0, 0, 0, 0], Finding::Cause(14, 1)),
        (&[0xA1, 2, 0xD0, 0, 0, 0, 0, 2, 0xE0, 0, 0, 0, 0], Finding::Cause(14, 2)),
        (&[0xA0, 2, 0xE0, 0, 0, 0, 0, 2, 0xF0, 0, 0, 0, 0], Finding::Cause(14, 2)),
        (&[0xA1, 0, 0, 0, 0, 3, 0xFC, 2, 0, 0, 0, 0, 0], Finding::Cause(8, 0x400)),
        (&[0xA1, 2, 0, 0, 0, 0, 0, 0, 0, 0, 0, 3, 0xF9], Finding::Cause(8, 0x400)),
        (&[0x98, 1, 0, 0, 0, 0, 0, 1, 0, 0, 0, 0, 0], Finding::Cause(14, 2)),
    ];
    for (code, finding) in cases {
        assert_eq!(found(code), Some(finding), "{code:02X?}");
    }
}

/// On random images: a stop 16 by a command is found as the cause that a valid entry would have shown, and an alarm in kernel
/// mode by its number.
#[test]
fn stops_of_random_images() {
    let mut random = Random(5);
    let (mut kernel, mut user, mut fetches) = (0, 0, 0);
    for _ in 0..20_000 {
        let Ok(mut machine) = Machine::fresh(images::random(&mut random)) else { continue };
        let _ = machine.desk.run(&mut machine.memory, 200);
        match machine.desk.mark() {
            // The entries that `entered` puts in must not be data of the program.
            Mark::Stopped(16) if !reaches(&machine, 0) => {
                user += 1;
                let found = diagnose::of(&machine.desk, &machine.memory);
                assert_eq!(found, entered(&machine), "{:?}", machine.desk);
                if let Some(Finding::Cause(2, address)) = found {
                    fetches += 1;
                    let met = machine.command_at(machine.desk.register(15));
                    assert_eq!(met, Err(Trouble::NoFetch(address)), "{:?}", machine.desk);
                }
            }
            Mark::Stopped(number @ 8..=15) => {
                kernel += 1;
                match diagnose::of(&machine.desk, &machine.memory) {
                    Some(Finding::Cause(cause, _)) => assert_eq!(cause, number, "{:?}", machine.desk),
                    Some(Finding::Block(_)) => assert_eq!(number, 14),
                    None => panic!("nothing found: {:?}", machine.desk),
                }
            }
            _ => {}
        }
    }
    assert!(kernel > 1000 && user > 1000, "{kernel} stops in kernel mode, {user} stops 16");
    assert!(fetches > 20, "{fetches} by alarm 21");
}

fn reaches(machine: &Machine, frame: u32) -> bool {
    let pages = atlas::pages(&machine.memory, machine.desk.map_base(), machine.desk.map_length());
    pages.iter().any(|page| page.leads.is_ok_and(|(reached, _)| reached == frame))
}

/// What happens with valid entries put into the system block itself.
fn entered(machine: &Machine) -> Option<Finding> {
    let (mut desk, mut memory) = (machine.desk.clone(), machine.memory.clone());
    for cause in 0..32 {
        images::put(&mut memory, 8 * cause + 4, numbers::KERNEL);
    }
    desk.set_mark(Mark::Running);
    let Ok(Event::Entered(cause)) = desk.step(&mut memory) else { return None };
    let at = desk.control_block() as usize + numbers::CONTROL_ARGUMENT;
    let argument = u32::from_be_bytes(memory[at..at + 4].try_into().expect("four bytes"));
    Some(Finding::Cause(cause, argument))
}

/// A kernel with a program; `{}` are the program's commands, its page 1 and the block.
fn source(program: &str, page: &str) -> String {
    format!(
        "        SEG 0\n        SYSTEM BLOCK\n        ON SYSTEM CALL TO done\n        SEG 100h\n\
         block:  CONTROL BLOCK START go, MAP m\n        SEG 200h\nstart:  RESUME block\ndone:   HALT\n\
         \x20       SEG 400h\nm:      MAP\n        PAGE 0: FRAME OF go, READ\n        PAGE 1: {page}\n\
         \x20       SEG 600h AT 0\ngo:     {program}\n        SYSTEM CALL I 0\n        MEMORY A00h\n"
    )
}

/// A missing entry, with each alarm in words and the place to look at.
#[test]
fn alarms_of_a_program_in_words() {
    let cases = [
        (
            "MOVE W R0,400h",
            "FRAME 4, WRITE",
            "cause 8: alarm 8, an address past the map, address 400h (page 2)",
            "there is no page 2 in map m: it has 2 pages, up to address 3FFh",
        ),
        (
            "MOVE W 200h,R0",
            "ABSENT",
            "cause 9: alarm 9, an absent page, address 200h (page 1)",
            "page 1 is absent in map m (entry at 404h: 00000000h)",
        ),
        (
            "MOVE W 200h,R0",
            "FRAME 9, READ",
            "cause 10: alarm 10, a damaged map entry, address 200h (page 1)",
            "page 1 is damaged in map m: it names frame 9, and the memory has 5 (entry at 404h)",
        ),
        (
            "MOVE W R0,204h",
            "FRAME 4, READ",
            "cause 11: alarm 11, a write to a page without the right to write, address 204h (page 1)",
            "page 1 is frame 4, which may only be read, in map m (entry at 404h: 80000004h)",
        ),
        (
            "MOVE W R0,204h",
            "FRAME 4, READ, NO FETCH",
            "cause 11: alarm 11, a write to a page without the right to write, address 204h (page 1)",
            "page 1 is frame 4, which may only be read, in map m (entry at 404h: A0000004h)",
        ),
        (
            "MOVE W 200h,R0",
            "WORD A4000004h",
            "cause 10: alarm 10, a damaged map entry, address 200h (page 1)",
            "page 1 is damaged in map m: bits 28 to 24 must be 0 (entry at 404h: A4000004h)",
        ),
        (
            "MOVE W 200h,R0",
            "FRAME 9, READ, NO FETCH",
            "cause 10: alarm 10, a damaged map entry, address 200h (page 1)",
            "page 1 is damaged in map m: it names frame 9, and the memory has 5 (entry at 404h)",
        ),
        ("DD B FFh", "ABSENT", "cause 12: alarm 12, an unknown command byte, FFh", "no command has the byte FFh"),
        (
            "HALT",
            "ABSENT",
            "cause 13: alarm 13, a command that only kernel mode has, HALT",
            "HALT is for kernel mode; a program ends by a system call",
        ),
        (
            "DD B 70h,2,0,0,0,0,0",
            "ABSENT",
            "cause 14: alarm 14, an operand that breaks a rule, operand 1",
            "operand 1 of JUMP (six bytes at 1): form 2, as in `R1`, has no address, and one is needed",
        ),
        ("DIV W I 0,R1", "ABSENT", "cause 15: alarm 15, DIV by zero", "the divisor, which is the first operand, is 0"),
    ];
    for (program, page, cause, look) in cases {
        let file = written("alarm.mi", source(program, page).as_bytes());
        // The assembler warns of a frame past the memory.
        let output = desk(&["run", &file]);
        let out = text(&output.stdout);
        assert_eq!(output.status.code(), Some(16), "{program}: {out}");
        let joined = out.replace("\n    ", " ");
        for words in [cause, look, "command: program block at go (0): ", "stop 16: the system block's entry for cause"]
        {
            assert!(joined.contains(words), "{program}: '{words}' is not in\n{joined}");
        }
    }
}

/// Why a floating number cannot be where an operand has it.
#[test]
fn operands_of_floating_numbers_in_words() {
    for (bytes, look) in [
        (
            "81h,1,0,0,0,0,0,2,0,0,0,0,0",
            "operand 1 of ADD D (six bytes at 201h): form 1, as in `I 5`, has no room for a D: put the number in memory",
        ),
        (
            "A1h,2,0,0,0,0,0,2,E0h,0,0,0,0",
            "operand 2 of MOVE D (six bytes at 207h): form 2, as in `R1`, is two registers for D, SP and the next, and SP and R15 are none for it; the first may be R0 to R13",
        ),
        (
            "A5h,2,F0h,0,0,0,0,2,0,0,0,0,0",
            "operand 1 of CMP D (six bytes at 201h): form 2, as in `R1`, is two registers for D, R15 and the next, and SP and R15 are none for it; the first may be R0 to R13",
        ),
        (
            "84h,2,0,0,0,0,0,2,E0h,0,0,0,0,2,F0h,0,0,0,0",
            "operand 3 of ADD F (six bytes at 20Dh): form 2, as in `R1`, cannot be R15 for F, a floating number; it may be R0 to R14",
        ),
        (
            "80h,2,0,0,0,0,0,1,0,0,0,0,0",
            "operand 2 of ADD F (six bytes at 207h): form 1, as in `I 5`, cannot be written to",
        ),
    ] {
        let out = words("floating.mi", &format!("start:  DD B {bytes}\n")).replace("\n    ", " ");
        assert!(out.starts_with("stop 14 after 1 step: alarm 14 in kernel mode"), "{out}");
        assert!(out.contains(&format!("look at: {look}")), "'{look}' is not in\n{out}");
    }
}

/// A program without an entry for alarm 21 whose page 0 has commands, pages 1 and 2 none; run: the end in words, unfolded.
fn without_commands(page: &str, program: &str) -> String {
    let source = format!(
        "        SEG 0\n        SYSTEM BLOCK\n        ON SYSTEM CALL TO start\n        SEG 100h\nblock:  CONTROL BLOCK START go, MAP m\n\
         \x20       SEG 200h\nstart:  RESUME block\n        SEG 400h\nm:      MAP\n        PAGE 0: FRAME OF go, {page}\n\
         \x20       PAGE 1: FRAME 4, READ, NO FETCH\n        PAGE 2: FRAME 5, WRITE, NO FETCH\n\
         \x20       SEG 600h AT 0\ngo:     {program}\n        SEG 7FFh AT 1FFh\nlast:   DD B 70h\n        MEMORY C00h\n"
    );
    let file = written("without_commands.mi", source.as_bytes());
    let (out, status) = said(&["run", &file]);
    assert_eq!(status, 16, "{out}");
    out.split("\n\n").next().expect("words").replace("\n    ", " ")
}

/// A fetch from a page without commands: which byte, which page and entry, what is allowed there, and where the desk came from.
#[test]
fn a_fetch_from_a_page_without_commands_is_told() {
    let headline = "alarm 21, and the system block has no valid kernel status for it";
    let missing = "stop 16: the system block's entry for cause 2, at 10h, has the status 00000000h,";
    let cases = [
        (
            ("READ", "JUMP 2A0h"),
            "cause 2: alarm 21, a fetch from a page without commands, address 2A0h (page 1)",
            "command: program block at last+161 (2A0h): (cannot be fetched: 2A0h)",
            "address: 2A0h is from R15, where the next command is fetched; only page 0 (0 to 1FFh) may be run",
            "map: page 1 is frame 4, without the right to fetch, in map m (entry at 404h: A0000004h); reading it is allowed",
            "came from: program block at go (0): JUMP 2A0h (line 14)",
        ),
        (
            ("READ", "MOVE W I 400h,R15"),
            "cause 2: alarm 21, a fetch from a page without commands, address 400h (page 2)",
            "command: program block at 400h: (cannot be fetched: 400h)",
            "address: 400h is from R15, where the next command is fetched; only page 0 (0 to 1FFh) may be run",
            "map: page 2 is frame 5, without the right to fetch, in map m (entry at 408h: E0000005h); reading and writing it are allowed",
            "came from: program block at go (0): MOVE W I 400h,R15 (line 14)",
        ),
        (
            ("READ", "JUMP last"),
            "cause 2: alarm 21, a fetch from a page without commands, address 200h (page 1)",
            "command: program block at last (1FFh): (cannot be fetched: 200h) (line 16)",
            "address: 200h is from the bytes of the command at R15, 1FFh; it is the first byte after page 0 (0 to 1FFh), which may be run",
            "map: page 1 is frame 4, without the right to fetch, in map m (entry at 404h: A0000004h); reading it is allowed",
            "came from: program block at go (0): JUMP last (line 14)",
        ),
        (
            ("WRITE, NO FETCH", "CLEAR W R0"),
            "cause 2: alarm 21, a fetch from a page without commands, address 0 (page 0)",
            "command: program block at go (0): (cannot be fetched: 0) (line 14)",
            "address: 0 is from R15, where the next command is fetched; no page may be run",
            "map: page 0 is frame 3, without the right to fetch, in map m (entry at 400h: E0000003h); reading and writing it are allowed",
            "came from: the kernel at start (200h): RESUME block (line 7)",
        ),
    ];
    for ((page, program), cause, command, address, map, from) in cases {
        let out = without_commands(page, program);
        for words in [headline, cause, command, address, map, missing, from] {
            assert!(out.contains(words), "{program}: '{words}' is not in\n{out}");
        }
    }
}

/// Kernel code at 200h, run: the end in words without the registers.
fn words(name: &str, code: &str) -> String {
    let file = written(name, format!("        SEG 200h\n{code}").as_bytes());
    let (out, _) = said(&["run", &file]);
    out.split("\n\n").next().expect("words").to_string()
}

#[test]
fn a_jump_gone_astray_is_told() {
    let astray = words("astray.mi", "start:  JUMP 5000h\n");
    assert!(
        astray.contains("stop 8 after 2 steps: alarm 8 in kernel mode, address 5000h is past the memory"),
        "{astray}"
    );
    assert!(astray.contains("came from: the kernel at start (200h): JUMP"), "{astray}");
    let into_data = words("data.mi", "start:  CLEAR W R0\n        DD B FFh\n");
    assert!(into_data.contains("came from: the kernel at start (200h): CLEAR W R0 (line 2)"), "{into_data}");
    assert!(!words("divided.mi", "start:  DIV W R1,R2\n").contains("came from"));
}

/// Also where it happens after millions of steps.
#[test]
fn a_jump_gone_astray_in_a_long_run() {
    let code = "start:  MOVE W I 1000000,R1\nloop:   SUB W I 1,R1\n        JNE loop\nout:    JUMP 7000h\n";
    let astray = words("astray_long.mi", code);
    assert!(astray.contains("stop 8 after 2,000,003 steps"), "{astray}");
    assert!(astray.contains("came from: the kernel at out (221h): JUMP 7000h (line 5)"), "{astray}");
}

#[test]
fn a_stack_that_is_not_set_up_is_told() {
    for code in ["start:  PUSHR\n", "start:  CALL start\n"] {
        assert!(
            words("stack.mi", code).contains("look at: SP is 0: it must be set before the first CALL or PUSHR"),
            "{code}"
        );
    }
}

/// A kernel without entries and a program that may write page 2 and only read page 3, run: the lines of the address and the map.
fn addressed(program: &str) -> (String, String) {
    let source = format!(
        "        SEG 0\n        SYSTEM BLOCK\n        SEG 100h\nblock:  CONTROL BLOCK START go, MAP m\n\
         \x20       SEG 200h\nstart:  RESUME block\n        SEG 400h\nm:      MAP\n        PAGE 0: FRAME OF go, READ\n\
         \x20       PAGE 1: ABSENT\n        PAGE 2: FRAME 4, WRITE\n        PAGE 3: FRAME 5, READ\n\
         \x20       SEG 600h AT 0\ngo:     {program}\n        MEMORY C00h\n"
    );
    let file = written("addressed.mi", source.as_bytes());
    let out = said(&["run", &file]).0.replace("\n    ", " ");
    let line = |label: &str| {
        let found = out.lines().find_map(|line| line.trim_start().strip_prefix(label));
        found.unwrap_or_else(|| panic!("no '{label}' in\n{out}")).to_string()
    };
    (line("address: "), line("map: "))
}

/// What gave an address, and where it lies to the pages that could have been used; the map's entry is told as a fact.
#[test]
fn addresses_are_told_with_what_gave_them() {
    let cases = [
        ("MOVE W I 400h,R1\nloop:   MOVE W I 7,!R1+\n        JUMP loop", "600h is from operand 2, !R1+ (R1 is 600h); it is the first byte after page 2 (400h to 5FFh), which may be written; R1, which the command steps up, is past its end"),
        ("MOVE W I 600h,R1\n        MOVE W I 7,!R1", "600h is from operand 2, !R1 (R1 is 600h); it is the first byte after page 2 (400h to 5FFh), which may be written; R1 is past its end"),
        ("MOVE W I 5FEh,R1\n        MOVE W I 7,!R1", "600h is one of the 4 bytes from 5FEh on, of operand 2, !R1 (R1 is 5FEh); it is the first byte after page 2 (400h to 5FFh), which may be written; R1 is past its end"),
        ("MOVE W I 600h,R1\n        MOVE W I 2,R2\n        MOVE W I 7,4+!R1/R2/", "60Ch is from operand 2, 4+!R1/R2/ (R1 is 600h, R2 is 2); it is 13 bytes past the end of page 2 (400h to 5FFh), which may be written"),
        ("MOVE W I 400h,SP\nloop:   CALL loop", "3FCh is from the word that CALL puts on the stack (SP is 400h); it is 4 bytes before the start of page 2 (400h to 5FFh), which is there; SP, which the command steps down, goes before its start"),
        ("MOVE W I 400h,R3\n        MOVE H I 1,-!R3", "3FEh is from operand 2, -!R3 (R3 is 400h); it is 2 bytes before the start of page 2 (400h to 5FFh), which is there; R3, which the command steps down, goes before its start"),
        ("MOVE W I 780h,R1\n        MOVE W I 7,!R1", "780h is from operand 2, !R1 (R1 is 780h); only page 2 (400h to 5FFh) may be written"),
        ("MOVE W R0,go", "0 is operand 2, go; only page 2 (400h to 5FFh) may be written"),
        ("MOVE W !(800h+!R1),R2", "800h is from the pointer of operand 1, !(800h+!R1) (R1 is 0); it is the first byte after page 3 (600h to 7FFh), which is there"),
        ("JUMP 240h", "240h is from R15, where the next command is read"),
        ("MOVE W I 5FCh,R1\n        MOVE D R4,!R1+", "600h is one of the 8 bytes from 5FCh on, of operand 2, !R1+ (R1 is 5FCh); it is the first byte after page 2 (400h to 5FFh), which may be written; R1, which the command steps up, is past its end"),
        ("MOVE W I 400h,R3\n        ADD D -!R3,R4", "3F8h is from operand 1, -!R3 (R3 is 400h); it is 8 bytes before the start of page 2 (400h to 5FFh), which is there; R3, which the command steps down, goes before its start"),
        ("MOVE W I 600h,R1\n        MOVE W I 2,R2\n        MOVE D R4,!R1/R2/", "610h is from operand 2, !R1/R2/ (R1 is 600h, R2 is 2); it is 17 bytes past the end of page 2 (400h to 5FFh), which may be written"),
    ];
    for (program, words) in cases {
        assert_eq!(addressed(program).0, words, "{program}");
    }
    let (_, map) = addressed(cases[0].0);
    assert_eq!(map, "page 3 is frame 5, which may only be read, in map m (entry at 40Ch: 80000005h)");
}
