//! What a step changed, compared with the whole memory, and undo, on random images.

mod support;

use desk::asm;
use desk::machine::{Machine, Step};
use desk::table::Size;
use desk::trace;
use midesk::Event;
use support::{images, Random};

/// Steps of one image, and images.
const STEPS: usize = 40;
const IMAGES: u64 = 20_000;

/// The real addresses at which two memories differ.
fn differences(old: &[u8], new: &[u8]) -> Vec<usize> {
    (0..old.len()).filter(|i| old[*i] != new[*i]).collect()
}

fn told(step: &Step) -> Vec<usize> {
    let mut told = Vec::new();
    for change in step.changes.iter().chain(&step.saved) {
        let bytes = change.old.iter().zip(&change.new).enumerate();
        told.extend(bytes.filter(|(_, (old, new))| old != new).map(|(i, _)| change.real as usize + i));
    }
    told.sort_unstable();
    told.dedup();
    told
}

#[test]
fn every_change_is_told_and_undone() {
    let mut random = Random(11);
    let (mut steps, mut writes, mut entries) = (0, 0, 0);
    for _ in 0..IMAGES {
        let Ok(mut machine) = Machine::fresh(images::random(&mut random)) else { continue };
        for i in 0..15 {
            machine.desk.set_register(i, random.below(0xA00) as u32);
        }
        for _ in 0..STEPS {
            if random.below(16) == 0 {
                let _ = machine.desk.request(1 + random.below(15) as u32);
            }
            let (desk, memory) = (machine.desk.clone(), machine.memory.clone());
            let Ok(step) = machine.step() else { break };
            assert_eq!(differences(&memory, &machine.memory), told(&step), "{step:?}");
            check_undo(&mut machine, &step, &desk, &memory);
            steps += 1;
            writes += usize::from(!step.changes.is_empty());
            entries += usize::from(matches!(step.event, Event::Entered(_)));
        }
    }
    assert!(steps > 50_000 && writes > 2000 && entries > 10_000, "{steps} steps, {writes} writes, {entries} entries");
}

fn check_undo(machine: &mut Machine, step: &Step, desk: &midesk::Desk, memory: &[u8]) {
    let (after, bytes, steps) = (machine.desk.clone(), machine.memory.clone(), machine.steps);
    let changes: Vec<_> = step.changes.iter().chain(&step.saved).map(|c| (c.real, c.old.clone())).collect();
    machine.undo(step.before.clone(), &changes);
    assert!(machine.desk == *desk && machine.memory == memory && machine.steps + 1 == steps, "{step:?}");
    (machine.desk, machine.memory, machine.steps) = (after, bytes, steps);
}

/// The steps of a source, and what each changed in words.
fn steps(source: &str, count: usize) -> Vec<(Step, String)> {
    let image = asm::assemble("source", source).ok().expect("a source").image;
    let mut machine = Machine::fresh(image).expect("a desk");
    let step = |_| {
        let step = machine.step().expect("a step");
        let changes = trace::changes(&machine.known, &step).join("; ");
        (step, changes)
    };
    (0..count).map(step).collect()
}

/// The floating number that a command gave, in registers and in memory, also over the pointer that led to it.
#[test]
fn floating_results_are_told() {
    let source = "MOVE D a,R4\nADD F I 1.5,c\nMULT D R4,a,!(p+!R0)\nCMP D a,R4\nMOVE F I FFC00001h,R1\nADD F R1,R1\n\
        DIV D z,R4,R6\nMOVE F I -0,R1\nHALT\na: DD D -2.5\nc: DD F 2\np: DD W p,7\nz: DD D 0";
    let steps = steps(source, 8);
    let found: Vec<Option<(u64, Size)>> = steps.iter().map(|(step, _)| step.result).collect();
    let expected = [
        Some(((-2.5_f64).to_bits(), Size::D)),
        Some((u64::from(3.5_f32.to_bits()), Size::F)),
        Some((6.25_f64.to_bits(), Size::D)),
        None,
        Some((0xFFC0_0001, Size::F)),
        Some((0x7FC0_0000, Size::F)),
        Some((0xFFF0_0000_0000_0000, Size::D)),
        Some((0x8000_0000, Size::F)),
    ];
    assert_eq!(found, expected);
    let words: Vec<&str> = steps.iter().map(|(_, changes)| changes.as_str()).collect();
    assert_eq!(
        words,
        [
            "R4 0 -> C0040000h; result -2.5",
            "c (27Dh) 40000000h -> 40600000h; result 3.5",
            "p (281h) 0000028100000007h -> 4019000000000000h; result 6.25",
            "",
            "R1 0 -> FFC00001h; result NaN",
            "R1 FFC00001h -> 7FC00000h; result NaN",
            "R6 0 -> FFF00000h; result -infinity",
            "R1 7FC00000h -> 80000000h; result -0.0",
        ]
    );
}

/// Eight bytes in two pages whose frames are not neighbours.
#[test]
fn a_d_in_two_pages() {
    let source = "SEG 100h\nb: CONTROL BLOCK START go, MAP m, R4 3FF80000h\nSEG 200h\nRESUME b\nSEG 400h\nm: MAP\n\
        PAGE 0: FRAME 3, READ\nPAGE 1: FRAME 5, WRITE\nPAGE 2: FRAME 4, WRITE\n\
        SEG 600h AT 0\ngo: MOVE D R4,3FEh\nSUB D R4,3FEh\nMEMORY C00h";
    let steps = steps(source, 3);
    assert_eq!(steps[1].0.result, Some((1.5_f64.to_bits(), Size::D)));
    assert_eq!(steps[1].1, "memory (3FEh, real BFEh) 0 -> 3FF8h; result 1.5");
    assert_eq!(steps[2].1, "memory (3FEh, real BFEh) 3FF8h -> 0; result 0.0");
}
