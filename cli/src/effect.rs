//! Which bytes a command may write: its destination's place, worked out as the manual says, so that a step can be shown and
//! undone without looking through the whole memory. `tests/run_effect.rs` compares it with the whole memory.

use crate::decode::{Decoded, Fields, Trouble};
use crate::forms;
use crate::table::Role;
use crate::view;
use midesk::Desk;

/// Neighbouring bytes, at the address that the command uses and at their real one.
#[derive(Clone, Copy, PartialEq, Eq, Debug)]
pub struct Piece {
    pub address: u32,
    pub real: u32,
    pub length: u32,
}

/// The real address of a byte in the desk's mode, if it leads anywhere.
pub fn real(desk: &Desk, memory: &[u8], address: u32) -> Option<u32> {
    match desk.is_kernel() {
        true => view::byte(memory, address).map(|_| address),
        false => view::real(memory, desk.map_base(), desk.map_length(), address).ok().map(|(real, _)| real),
    }
}

/// The byte at an address in the desk's mode.
pub fn byte(desk: &Desk, memory: &[u8], address: u32) -> Option<u8> {
    real(desk, memory, address).and_then(|real| view::byte(memory, real))
}

/// The byte at an address in the desk's mode, fetched for a command.
pub fn fetched_byte(desk: &Desk, memory: &[u8], address: u32) -> Result<u8, Trouble> {
    let real = match desk.is_kernel() {
        true => address,
        false => view::real_to_fetch(memory, desk.map_base(), desk.map_length(), address)?,
    };
    view::byte(memory, real).ok_or(Trouble::Unreadable(address))
}

/// The word at an address in the desk's mode, byte by byte.
pub fn word(desk: &Desk, memory: &[u8], address: u32) -> Option<u32> {
    (0..4).try_fold(0, |word, i| Some(word << 8 | u32::from(byte(desk, memory, address.wrapping_add(i))?)))
}

/// The bytes that the command may write, were it carried out; without what a kernel entry saves.
pub fn writes(desk: &Desk, memory: &[u8], command: &Decoded) -> Vec<Piece> {
    match target(desk, memory, command) {
        Some((address, length)) => pieces(desk, memory, address, length),
        None => Vec::new(),
    }
}

/// Address and length of what the command writes; none where it writes no memory or an operand leads nowhere.
fn target(desk: &Desk, memory: &[u8], command: &Decoded) -> Option<(u32, u32)> {
    let mut registers = desk.registers();
    let mut written = None;
    for (place, (fields, rule)) in command.operands.iter().zip(command.command.operands).enumerate() {
        registers[15] = command.r15_in(place);
        let read = |address| word(desk, memory, address);
        let address = address(fields, rule.size.bytes(), &mut registers, &read)?;
        if matches!(rule.role, Role::Destination | Role::Update) {
            written = address.map(|address| (address, rule.size.bytes()));
        }
    }
    let stack = |bytes: u32| Some((registers[14].wrapping_sub(bytes), bytes));
    match command.command.name {
        "CALL" => stack(4),
        "PUSHR" => stack(60),
        _ => written,
    }
}

/// The address of an operand, after its step; the outer none is a word of forms 5 and 6 that cannot be read, the inner one an
/// operand without an address.
pub fn address(
    fields: &Fields,
    length: u32,
    registers: &mut [u32; 16],
    read: &dyn Fn(u32) -> Option<u32>,
) -> Option<Option<u32>> {
    let (x, y) = (usize::from(fields.x & 15), usize::from(fields.y & 15));
    let base = fields.z.wrapping_add(registers[x]);
    let index = registers[y].wrapping_mul(length);
    Some(match fields.form {
        forms::ADDRESS => Some(fields.z),
        forms::BASE => Some(base),
        forms::BASE_INDEX => Some(base.wrapping_add(index)),
        forms::INDIRECT => Some(read(base)?),
        forms::INDIRECT_INDEX => Some(read(base)?.wrapping_add(index)),
        forms::STEP_DOWN => {
            registers[x] = registers[x].wrapping_sub(length);
            Some(registers[x])
        }
        forms::STEP_UP => {
            let address = registers[x];
            registers[x] = address.wrapping_add(length);
            Some(address)
        }
        _ => None,
    })
}

/// Bytes from an address on as pieces whose real bytes are neighbours; bytes that lead nowhere are left out.
pub fn pieces(desk: &Desk, memory: &[u8], address: u32, length: u32) -> Vec<Piece> {
    let mut pieces: Vec<Piece> = Vec::new();
    for i in 0..length {
        let address = address.wrapping_add(i);
        let Some(real) = real(desk, memory, address) else { continue };
        match pieces.last_mut() {
            Some(last) if last.real.wrapping_add(last.length) == real => last.length += 1,
            _ => pieces.push(Piece { address, real, length: 1 }),
        }
    }
    pieces
}
