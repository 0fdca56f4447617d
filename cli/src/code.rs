//! Where commands are: as a source says, else what a trial run meets and where its commands lead.

use crate::decode;
use crate::effect;
use crate::image::Program;
use crate::machine::{self, Machine};
use crate::trial;
use crate::view;
use midesk::{numbers, Desk};
use std::collections::BTreeSet;

/// Commands that are followed.
const MOST: usize = 200_000;

/// The real addresses at which commands begin.
pub fn known(fresh: &Machine) -> BTreeSet<u32> {
    let lines = &fresh.known.lines;
    match lines.is_empty() {
        true => found(fresh),
        false => lines.iter().filter(|line| line.is_command).map(|line| line.address).collect(),
    }
}

/// For each byte of the memory whether it belongs to a command.
pub fn bytes(fresh: &Machine) -> Vec<bool> {
    let mut bytes = vec![false; fresh.memory.len()];
    for start in known(fresh) {
        let command = decode::decode(&|at| view::byte(&fresh.memory, at), start);
        let length = command.map_or(1, |command| command.bytes.len());
        if let Some(bytes) = bytes.get_mut(start as usize..start as usize + length) {
            bytes.fill(true);
        }
    }
    bytes
}

fn found(fresh: &Machine) -> BTreeSet<u32> {
    let mut code = BTreeSet::new();
    let desk = &fresh.desk;
    let image = trial::image_of(fresh);
    let trial = trial::run(&image);
    let places = trial.kernel.iter().copied().chain([image.start]).chain(entered(fresh));
    follow(fresh, desk, places.collect(), &mut code);
    for program in &fresh.known.programs {
        let block = program.control_block;
        let user = in_program(desk, program);
        let start = view::word(&fresh.memory, block.wrapping_add(60));
        let places = trial.user.range((block, 0)..=(block, u32::MAX)).map(|(_, address)| *address);
        follow(fresh, &user, places.chain(start).collect(), &mut code);
    }
    code
}

/// The desk as if the kernel ran: its addresses are real ones.
pub fn in_kernel(desk: &Desk) -> Desk {
    let mut desk = desk.clone();
    desk.set_status(numbers::KERNEL);
    desk
}

/// The desk as if a program ran: its addresses are the program's.
pub fn in_program(desk: &Desk, program: &Program) -> Desk {
    let mut desk = desk.clone();
    desk.set_status(0);
    desk.set_map(program.map_base, program.map_length);
    desk.set_blocks(desk.system_block(), program.control_block);
    desk
}

/// Where the kernel goes on after its entries.
fn entered(fresh: &Machine) -> Vec<u32> {
    let entry = |cause: u32| {
        let at = fresh.desk.system_block().wrapping_add(8 * cause);
        let status = view::word(&fresh.memory, at.wrapping_add(4))?;
        let valid = status & numbers::KERNEL != 0 && status & 0x7FFF_FF00 == 0;
        view::word(&fresh.memory, at).filter(|_| valid)
    };
    (0..32).filter_map(entry).collect()
}

/// Follows the commands from some addresses of a desk's mode on. In a program zeros, which are HALTs, are no commands.
fn follow(machine: &Machine, desk: &Desk, mut waiting: Vec<u32>, code: &mut BTreeSet<u32>) {
    while let Some(address) = waiting.pop() {
        let Some(real) = effect::real(desk, &machine.memory, address) else { continue };
        let halt = view::byte(&machine.memory, real) == Some(0);
        if (halt && !desk.is_kernel()) || code.len() >= MOST || code.contains(&real) {
            continue;
        }
        let Ok(command) = machine::command_at(desk, &machine.memory, address) else { continue };
        code.insert(real);
        waiting.extend(command.jump_target());
        if command.falls_through() {
            waiting.push(command.next());
        }
    }
}
