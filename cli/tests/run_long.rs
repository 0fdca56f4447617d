//! Long runs, which go in large pieces: the same end as one call of the library, and the last kernel entry is still told.

mod support;

use desk::image;
use midesk::Desk;
use std::path::Path;
use support::{said, written};

/// A program that counts down and asks the kernel for the next round at its end, three times; then the kernel HALTs.
const ROUNDS: &str = "
        SEG 0
        SYSTEM BLOCK
        ON SYSTEM CALL TO round
        SEG 100h
block:  CONTROL BLOCK START count, MAP map
        SEG 200h
start:  RESUME block
round:  SUB W I 1,rounds
        JEQ done
        RESUME block
done:   HALT
rounds: DD W 3
        SEG 400h
map:    MAP
        PAGE 0: FRAME OF count, READ
        PAGE 1: FRAME 4, WRITE
        SEG 600h AT 0
count:  MOVE W I 300000,R1
loop:   ADD W R1,200h
        SUB W I 1,R1
        JNE loop
        SYSTEM CALL I 7
        JUMP count
        MEMORY A00h
";

fn field(json: &str, name: &str) -> String {
    let (_, rest) = json.split_once(&format!("\"{name}\":")).expect("the field");
    rest.chars().take_while(|letter| !",}".contains(*letter)).collect()
}

/// The end of the program by one call of the library: registers, steps and the bytes from 800h on.
fn by_library(file: &str, length: usize) -> (String, u64, String) {
    let image = image::load(Path::new(file)).expect("the image");
    let mut memory = image.memory.clone();
    memory.resize(length, 0);
    let mut desk = Desk::fresh(&memory, image.system, image.control, image.start).expect("a desk");
    let steps = desk.run(&mut memory, 1_000_000_000).expect("a run");
    let registers: Vec<String> = desk.registers().iter().map(u32::to_string).collect();
    let bytes = memory[0x800..0x804].iter().map(|byte| format!("{byte:02X}")).collect();
    (registers.join(","), steps, bytes)
}

#[test]
fn pieces_end_as_one_run() {
    let file = written("rounds.mi", ROUNDS.as_bytes());
    for (length, entry_is_told) in [("2560", true), ("2097152", false)] {
        let (json, status) = said(&["run", &file, "--json", "--memory", length, "--dump", "800h,4"]);
        let (registers, steps, bytes) = by_library(&file, length.parse().expect("a length"));
        assert_eq!((status, field(&json, "steps")), (0, steps.to_string()));
        assert!(steps > 2_000_000);
        assert!(json.contains(&format!("\"registers\":[{registers}]")), "{json}");
        assert!(json.contains(&format!("\"bytes\":\"{bytes}\"")), "{json}");
        match entry_is_told {
            true => assert!(json.contains(&format!("\"entry\":{{\"step\":{},\"cause\":1", steps - 3)), "{json}"),
            false => assert_eq!(field(&json, "entry"), "null"),
        }
    }
}

#[test]
fn a_limit_in_a_long_run() {
    let file = written("rounds_limit.mi", ROUNDS.as_bytes());
    for steps in ["9999", "10000", "10001", "1010000", "1010001", "2000000"] {
        let (json, status) = said(&["run", &file, "--json", "--steps", steps]);
        assert_eq!((status, field(&json, "steps").as_str()), (124, steps));
        let (traced, _) = said(&["run", &file, "--json", "--steps", steps, "--until", "900h"]);
        let registers = |json: &str| json.split_once("\"registers\":").map(|(_, rest)| rest.to_string());
        assert_eq!(registers(&json), registers(&traced), "{steps}");
    }
}
