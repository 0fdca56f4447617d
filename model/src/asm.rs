//! Puts commands together from their fields, and load lists from their commands.

use crate::load::Command;
use crate::operand::Fields;

fn fields(form: u8, x: u8, y: u8, z: u32) -> Fields {
    Fields { form, x, y, z }
}

/// Form 0: address z.
pub fn absolute(z: u32) -> Fields {
    fields(0, 0, 0, z)
}

/// Form 1: a value.
pub fn immediate(z: u32) -> Fields {
    fields(1, 0, 0, z)
}

/// Form 2: register x.
pub fn register(x: u8) -> Fields {
    fields(2, x, 0, 0)
}

/// Form 3: z + Rx.
pub fn relative(z: u32, x: u8) -> Fields {
    fields(3, x, 0, z)
}

/// Form 4: z + Rx + Ry × L.
pub fn indexed(z: u32, x: u8, y: u8) -> Fields {
    fields(4, x, y, z)
}

/// Form 5: the word at z + Rx.
pub fn indirect(z: u32, x: u8) -> Fields {
    fields(5, x, 0, z)
}

/// Form 6: that word + Ry × L.
pub fn indirect_indexed(z: u32, x: u8, y: u8) -> Fields {
    fields(6, x, y, z)
}

/// Form 7: Rx lowered by L, then address Rx.
pub fn lowered(x: u8) -> Fields {
    fields(7, x, 0, 0)
}

/// Form 8: address Rx, then Rx raised by L.
pub fn raised(x: u8) -> Fields {
    fields(8, x, 0, 0)
}

/// A command byte with its operands.
pub fn command(byte: u8, operands: &[Fields]) -> Vec<u8> {
    let mut bytes = vec![byte];
    for operand in operands {
        bytes.extend(operand.bytes());
    }
    bytes
}

/// The bytes of one command of a load list.
pub fn list_command(command: &Command) -> Vec<u8> {
    let (byte, operands) = match command {
        Command::Move(address) => (1, address.to_be_bytes().to_vec()),
        Command::Byte(byte) => (2, vec![*byte]),
        Command::Four(bytes) => (3, bytes.to_vec()),
        Command::Copies(count, byte) => (4, [&count.to_be_bytes()[..], &[*byte]].concat()),
    };
    [vec![byte], operands].concat()
}

/// A load list without its end.
pub fn unended(commands: &[Command]) -> Vec<u8> {
    commands.iter().flat_map(list_command).collect()
}

/// A load list.
pub fn list(commands: &[Command]) -> Vec<u8> {
    [unended(commands), vec![0]].concat()
}
