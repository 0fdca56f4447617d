//! Which part of a command used an address: an operand, the pointer of one, the stack, or the reading of the command itself.

use crate::decode::{Decoded, Trouble};
use crate::effect;
use crate::forms;
use crate::machine;
use crate::names::Names;
use crate::notation::{self, hexadecimal};
use crate::table::Role;
use midesk::Desk;

/// A use of memory by a command.
#[derive(Clone, PartialEq, Eq, Debug)]
pub struct Access {
    /// `operand 2, !R1+ (R1 is 600h)`.
    pub words: String,
    pub address: u32,
    pub length: u32,
    /// The register that alone gives the address.
    pub register: Option<u8>,
    /// Whether the operand names the address itself.
    pub fixed: bool,
    /// Which way the command steps that register, if it does.
    pub steps: Option<Step>,
}

#[derive(Clone, Copy, PartialEq, Eq, Debug)]
pub enum Step {
    Up,
    Down,
}

impl Access {
    fn covers(&self, address: u32) -> bool {
        address.wrapping_sub(self.address) < self.length
    }
}

/// The use that met an address; `desk` is the desk before the command.
pub fn to(desk: &Desk, memory: &[u8], names: &Names, address: u32, write: bool) -> Option<Access> {
    match machine::command_at(desk, memory, desk.register(15)) {
        Ok(command) => {
            let mut uses = all(desk, memory, names, &command).into_iter().filter(|access| access.covers(address));
            // The destination is the last operand.
            if write {
                uses.next_back()
            } else {
                uses.next()
            }
        }
        Err(trouble @ (Trouble::Unreadable(at) | Trouble::NoFetch(at))) if at == address => {
            let words = match (at == desk.register(15), trouble) {
                (true, Trouble::NoFetch(_)) => "R15, where the next command is fetched".to_string(),
                (true, _) => "R15, where the next command is read".to_string(),
                (false, _) => format!("the bytes of the command at R15, {}", hexadecimal(desk.register(15))),
            };
            Some(Access { words, address, length: 1, register: Some(15), fixed: false, steps: None })
        }
        Err(_) => None,
    }
}

/// The uses of a command in their order, as far as its pointers can be read.
fn all(desk: &Desk, memory: &[u8], names: &Names, command: &Decoded) -> Vec<Access> {
    let mut registers = desk.registers();
    let mut uses = Vec::new();
    for (place, (fields, rule)) in command.operands.iter().zip(command.command.operands).enumerate() {
        registers[15] = command.r15_in(place);
        let written = notation::operand(fields, *rule, names);
        let values = values(fields.form, [fields.x, fields.y], &registers);
        let operand = format!("operand {}, {written}{values}", place + 1);
        let base = fields.z.wrapping_add(registers[usize::from(fields.x & 15)]);
        let indirect = matches!(fields.form, forms::INDIRECT | forms::INDIRECT_INDEX);
        if indirect {
            let words = format!("the pointer of {operand}");
            uses.push(Access { words, address: base, length: 4, register: None, fixed: false, steps: None });
        }
        let length = rule.size.bytes();
        let read = |address| effect::word(desk, memory, address);
        let Some(at) = effect::address(fields, length, &mut registers, &read) else { return uses };
        if let Some(address) = at.filter(|_| rule.role != Role::Address) {
            let steps = match fields.form {
                forms::STEP_UP => Some(Step::Up),
                forms::STEP_DOWN => Some(Step::Down),
                _ => None,
            };
            let alone = steps.is_some() || fields.form == forms::BASE && fields.z == 0;
            let (register, fixed) = (alone.then_some(fields.x), fields.form == forms::ADDRESS);
            uses.push(Access { words: operand, address, length, register, fixed, steps });
        }
    }
    uses.extend(stack(command.command.name, registers[14]));
    uses
}

/// What a command puts on the stack or takes from it.
fn stack(name: &str, sp: u32) -> Option<Access> {
    let (words, length, steps) = match name {
        "CALL" => ("the word that CALL puts on the stack", 4, Step::Down),
        "PUSHR" => ("the 15 words that PUSHR puts on the stack", 60, Step::Down),
        "RET" => ("the word that RET takes from the stack", 4, Step::Up),
        "POPR" => ("the 15 words that POPR takes from the stack", 60, Step::Up),
        _ => return None,
    };
    let address = if steps == Step::Down { sp.wrapping_sub(length) } else { sp };
    let words = format!("{words} (SP is {})", hexadecimal(sp));
    Some(Access { words, address, length, register: Some(14), fixed: false, steps: Some(steps) })
}

/// ` (R1 is 600h, R2 is 3)`: the registers that a form uses.
fn values(form: u8, fields: [u8; 2], registers: &[u32; 16]) -> String {
    let used = match form {
        forms::BASE | forms::INDIRECT | forms::STEP_DOWN | forms::STEP_UP => 1,
        forms::BASE_INDEX | forms::INDIRECT_INDEX => 2,
        _ => return String::new(),
    };
    let value = |register: &u8| {
        let value = registers[usize::from(register & 15)];
        format!("{} is {}", notation::register(*register), hexadecimal(value))
    };
    let values: Vec<String> = fields.iter().take(used).map(value).collect();
    format!(" ({})", values.join(", "))
}
