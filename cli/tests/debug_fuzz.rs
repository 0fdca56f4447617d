//! Random and damaged scripts on random images: nothing panics, and undo leads back to the beginning.

mod support;

use desk::debug::{dialogue, Place};
use desk::machine::Machine;
use support::{images, Random};

const WORDS: [&str; 51] = [
    "step",
    "s",
    "run",
    "r",
    "c",
    "until",
    "u",
    "break",
    "b",
    "delete",
    "enable",
    "disable",
    "undo",
    "back",
    "request",
    "where",
    "registers",
    "i",
    "memory",
    "x",
    "show",
    "F",
    "D",
    "R4",
    "SP",
    "real",
    "list",
    "l",
    "map",
    "blocks",
    "help",
    "?",
    "entry",
    "entry:11",
    "entry:2",
    "stop",
    "A",
    "B",
    "0",
    "1",
    "7",
    "15",
    "16",
    "200h",
    "FFFFFFFFh",
    "-1",
    "99999999999999999999",
    "\u{FFFD}",
    "--",
    "#",
    "+",
];

fn script(random: &mut Random) -> String {
    let mut script = String::new();
    for _ in 0..random.below(60) {
        for _ in 0..random.below(4) {
            let word: &&str = random.pick(&WORDS);
            script.push_str(word);
            script.push(' ');
        }
        script.push('\n');
    }
    // A long run of a random image would end only after a million steps.
    script
        .replace("run ", "run 50 ")
        .replace("r ", "r 50 ")
        .replace("c ", "c 50 ")
        .replace("stop ", "7 ")
        .replace("99999999999999999999", "50")
}

fn answer(machine: Machine, script: &[u8]) -> (String, u8) {
    let mut out = Vec::new();
    let place = Place::Lines("line ".to_string());
    let status = dialogue(machine, &mut &script[..], &mut out, place, true).expect("memory can be written");
    (String::from_utf8(out).expect("UTF-8"), status)
}

#[test]
fn no_script_panics() {
    let mut random = Random(23);
    for _ in 0..40 {
        let Ok(machine) = Machine::fresh(images::random(&mut random)) else { continue };
        let text = script(&mut random).replace("until", "step").replace("u ", "s ").replace("entry", "3");
        let (_, status) = answer(machine, text.as_bytes());
        assert!(status == 0 || status == 65);
    }
}

#[test]
fn damaged_bytes_are_answered() {
    let mut random = Random(29);
    for _ in 0..40 {
        let machine = Machine::fresh(images::random(&mut random)).expect("a desk");
        let bytes: Vec<u8> = (0..random.below(80)).map(|_| *random.pick(b"sx0129hlm \n\n\0\xFF\xC3ir?")).collect();
        answer(machine, &bytes);
    }
}

/// Breakpoints in the kernel's and the program's commands.
fn breaks(random: &mut Random) -> String {
    (0..random.below(20)).map(|_| format!("break {:X}h\n", *random.pick(&[0, 0x200]) + random.below(60))).collect()
}

/// However far it goes, and wherever it is held, undoing all of it shows the registers, blocks and memory of the beginning.
#[test]
fn undo_leads_back() {
    let mut random = Random(31);
    let looks = "registers\nmemory real 0 4096\nblocks\nwhere\n";
    for _ in 0..40 {
        let Ok(machine) = Machine::fresh(images::random(&mut random)) else { continue };
        let (before, _) = answer(machine.clone(), looks.as_bytes());
        let (breaks, n, m) = (breaks(&mut random), random.below(60), random.below(60));
        let script = format!("{breaks}request 3\nrun {n}\nrun {m}\nrequest 9\nrun {n}\nrun {m}\nundo 1000\n{looks}");
        let (after, _) = answer(machine, script.as_bytes());
        assert!(after.ends_with(&before), "{before}\n{after}");
    }
}
