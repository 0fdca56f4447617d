//! The loops on simh's VAX (`vax.rs` has its programs). For kernel mode the VAX runs in kernel mode with memory mapping
//! off; for user mode in user mode with mapping on, all pages being system pages that users may write, and the loop's
//! HALT traps to the kernel, where another HALT ends it. At its end it must have the registers and data of a desk.

use crate::clock;
use crate::contender::Contender;
use crate::layout::{registers, values, Bench};
use crate::loops::{Loop, Mode, LENGTHS};
use crate::vax::program;
use std::fmt::Write;
use std::process::{Command, Output, Stdio};

/// The simulators in Debian's package simh: a VAX-11/780 and a MicroVAX 3900.
const SIMULATORS: [&str; 2] = ["vax780", "vax"];

/// Those of the simulators that can be started.
pub fn installed() -> Vec<&'static str> {
    SIMULATORS.into_iter().filter(|name| simulate(name, "exit\n").is_ok()).collect()
}

/// Starts a simulator with these commands and waits for its end.
fn simulate(simulator: &str, script: &str) -> std::io::Result<Output> {
    let file = std::env::temp_dir().join(format!("bench-{}.ini", std::process::id()));
    std::fs::write(&file, script)?;
    let output = Command::new(simulator).arg(&file).stdin(Stdio::null()).output();
    std::fs::remove_file(&file)?;
    output
}

const PROGRAM: u32 = 0x2000;
const TRAP: u32 = 0x3000;
const DATA: u32 = 0x4000;
const STACKS: u32 = 0x8000;
const VECTORS: u32 = 0x9000;
const PAGE_TABLE: u32 = 0x1_0000;
const PAGES: u32 = 128;
/// Where the system pages begin in virtual memory.
const SYSTEM: u32 = 0x8000_0000;

/// The registers, and the data by offset and count of bytes, that are compared at the end: those without addresses.
const REGISTERS: [usize; 8] = [0, 2, 3, 4, 6, 9, 10, 11];
const RESULTS: [(u32, usize); 9] = [(4, 4), (12, 4), (16, 4), (48, 4), (64, 4), (160, 4), (84, 1), (88, 2), (92, 1)];

/// The simulator's letter for a count of bytes.
fn letter(count: usize) -> char {
    match count {
        1 => 'b',
        2 => 'w',
        _ => 'l',
    }
}

/// The simulator's commands for a program of that many turns.
fn script(mode: Mode, program: &[u8], turns: u32) -> String {
    let user = mode == Mode::User;
    let mut lines = String::new();
    let mut line = |text: std::fmt::Arguments| writeln!(lines, "{text}").expect("a string can be written");
    for (i, byte) in program.iter().enumerate() {
        line(format_args!("d -b {:X} {byte:X}", PROGRAM as usize + i));
    }
    let base = if user { SYSTEM } else { 0 };
    for (offset, count, value) in values(turns, base + DATA) {
        line(format_args!("d -{} {:X} {value:X}", letter(count), DATA + offset));
    }
    if user {
        for page in 0..PAGES {
            // Valid, written to, and writable by users.
            line(format_args!("d -l {:X} {:X}", PAGE_TABLE + 4 * page, 0xA400_0000 | page));
            line(format_args!("d -l {:X} {:X}", VECTORS + 4 * page, base + TRAP));
        }
        line(format_args!("d -b {TRAP:X} 0"));
        line(format_args!("d sbr {PAGE_TABLE:X}\nd slr {PAGES:X}\nd mapen 1\nd scbb {VECTORS:X}"));
        line(format_args!("d ksp {:X}", base + STACKS - 0x800));
    }
    for (i, value) in registers(turns, base + DATA).iter().take(12).enumerate() {
        line(format_args!("d r{i} {value:X}"));
    }
    line(format_args!("d sp {:X}\nd psl {}", base + STACKS, if user { "03C00000" } else { "041F0000" }));
    line(format_args!("d pc {:X}\ngo\ne pc\ne mapen", base + PROGRAM));
    for i in REGISTERS {
        line(format_args!("e r{i}"));
    }
    for (offset, count) in RESULTS {
        line(format_args!("e -{} {:X}", letter(count), DATA + offset));
    }
    line(format_args!("exit"));
    lines
}

/// What the simulator must show at the end: what plain Rust has then, which agrees with the other desks.
fn expected(which: Loop, program: &[u8], turns: u32) -> Result<Vec<String>, String> {
    let mut bench = Bench::new(which, LENGTHS[0]);
    let mut state = bench.start(turns);
    let steps = Contender::Word.run(&mut bench.memory, &mut state, u64::MAX);
    if steps != Ok(which.steps(turns)) {
        return Err(format!("{}: {steps:?} steps for {turns} turns", which.name()));
    }
    let end = match which.mode {
        Mode::Kernel => PROGRAM + program.len() as u32,
        Mode::User => SYSTEM + TRAP + 1,
    };
    let mut lines = vec!["HALT instruction".into(), format!("PC:\t{end:08X}")];
    lines.push(format!("MAPEN:\t{}", u32::from(which.mode == Mode::User)));
    lines.extend(REGISTERS.map(|i| format!("R{i}:\t{:08X}", state.registers[i])));
    lines.extend(RESULTS.map(|(offset, count)| {
        format!("{:X}:\t{:0width$X}", DATA + offset, bench.value(offset, count), width = 2 * count)
    }));
    Ok(lines)
}

/// A run of so many turns.
struct Run {
    simulator: &'static str,
    which: Loop,
    turns: u32,
    script: String,
    expected: Vec<String>,
}

impl Run {
    fn new(simulator: &'static str, which: Loop, program: &[u8], turns: u32) -> Result<Run, String> {
        let script = script(which.mode, program, turns);
        Ok(Run { simulator, which, turns, script, expected: expected(which, program, turns)? })
    }

    fn commands(&self) -> f64 {
        (self.which.commands_per_turn() * u64::from(self.turns)) as f64
    }

    /// CPU seconds of the whole process, start-up included.
    fn seconds(&self) -> Result<f64, String> {
        let before = clock::children();
        let output = simulate(self.simulator, &self.script).map_err(|e| format!("{}: {e}", self.simulator))?;
        let seconds = clock::children() - before;
        let text = String::from_utf8_lossy(&output.stdout);
        match self.expected.iter().find(|line| !text.contains(*line)) {
            Some(line) => Err(format!("{} {}: no '{line}' in\n{text}", self.simulator, self.which.name())),
            None => Ok(seconds),
        }
    }
}

/// A simulator on a loop, with the cost of its start-up.
pub struct Vax {
    run: Run,
    start_up: f64,
}

impl Vax {
    /// With turns for about so many CPU seconds; none where the loop has no program for the VAX.
    pub fn new(simulator: &'static str, which: Loop, seconds: f64) -> Result<Option<Vax>, String> {
        const FIRST: u32 = 300_000;
        let Some(program) = program(which.kind) else { return Ok(None) };
        let one = Run::new(simulator, which, program, 1)?;
        let mut costs = vec![];
        for _ in 0..9 {
            costs.push(one.seconds()?);
        }
        costs.sort_by(f64::total_cmp);
        let start_up = costs[costs.len() / 2];
        let first = Run::new(simulator, which, program, FIRST)?;
        let turns = f64::from(FIRST) * seconds / (first.seconds()? - start_up);
        let run = Run::new(simulator, which, program, turns as u32)?;
        Ok(Some(Vax { run, start_up }))
    }

    /// Instructions a second, start-up not counted.
    pub fn speed(&self) -> Result<f64, String> {
        Ok(self.run.commands() / (self.run.seconds()? - self.start_up))
    }
}
