//! Operands: six bytes, form rules, address, value.

use super::memory::{self, fields, store, READ};
use super::Alarm;
use crate::state::State;

/// What an operand names.
#[derive(Clone, Copy)]
pub enum Place {
    Value(u32),
    Register(usize),
    At(u32),
}

/// The bits of a value of `SIZE` bytes: 1, 2 or 4.
const fn mask<const SIZE: usize>() -> u32 {
    u32::MAX >> (32 - 8 * SIZE)
}

/// The operand of `SIZE` bytes, 1, 2, 4 or 8, that R15 names, the `number`th of its command; R15 goes past it.
#[inline(always)]
pub fn place<const ONE_LOOKUP: bool, const SIZE: usize>(
    memory: &[u8],
    desk: &mut State,
    number: u32,
) -> Result<Place, Alarm> {
    let base = desk.registers[15];
    let (form, pair, z) = fields::<ONE_LOOKUP>(memory, desk, base)?;
    desk.registers[15] = base.wrapping_add(6);
    let (x, y) = ((pair / 16) as usize, (pair % 16) as usize);
    let size = SIZE as u32;
    let sum = |desk: &State| z.wrapping_add(desk.registers[x]);
    let index = |desk: &State| desk.registers[y].wrapping_mul(size);
    let indirect = |desk: &State| memory::value::<ONE_LOOKUP, READ, 4>(memory, desk, sum(desk));
    Ok(match form {
        0 if pair == 0 => Place::At(z),
        1 if pair == 0 && SIZE <= 4 && z <= mask::<SIZE>() => Place::Value(z),
        2 if y == 0 && z == 0 => Place::Register(x),
        3 if y == 0 => Place::At(sum(desk)),
        4 => Place::At(sum(desk).wrapping_add(index(desk))),
        5 if y == 0 => Place::At(indirect(desk)?),
        6 => Place::At(indirect(desk)?.wrapping_add(index(desk))),
        7 if x != 15 && y == 0 && z == 0 => {
            desk.registers[x] = desk.registers[x].wrapping_sub(size);
            Place::At(desk.registers[x])
        }
        8 if x != 15 && y == 0 && z == 0 => {
            let address = desk.registers[x];
            desk.registers[x] = address.wrapping_add(size);
            Place::At(address)
        }
        _ => return Err(Alarm(14, number)),
    })
}

/// The next operand's value.
#[inline(always)]
pub fn value<const ONE_LOOKUP: bool, const SIZE: usize>(
    memory: &[u8],
    desk: &mut State,
    number: u32,
) -> Result<u32, Alarm> {
    place::<ONE_LOOKUP, SIZE>(memory, desk, number)?.read::<ONE_LOOKUP, SIZE>(memory, desk)
}

/// The next operand as a place to write to: not form 1.
#[inline(always)]
pub fn target<const ONE_LOOKUP: bool, const SIZE: usize>(
    memory: &[u8],
    desk: &mut State,
    number: u32,
) -> Result<Place, Alarm> {
    match place::<ONE_LOOKUP, SIZE>(memory, desk, number)? {
        Place::Value(_) => Err(Alarm(14, number)),
        target => Ok(target),
    }
}

/// The next operand's address: not forms 1 and 2.
#[inline(always)]
pub fn address<const ONE_LOOKUP: bool>(memory: &[u8], desk: &mut State, number: u32) -> Result<u32, Alarm> {
    match place::<ONE_LOOKUP, 4>(memory, desk, number)? {
        Place::At(address) => Ok(address),
        Place::Value(_) | Place::Register(_) => Err(Alarm(14, number)),
    }
}

impl Place {
    #[inline(always)]
    pub fn read<const ONE_LOOKUP: bool, const SIZE: usize>(self, memory: &[u8], desk: &State) -> Result<u32, Alarm> {
        match self {
            Place::Value(z) => Ok(z),
            Place::Register(x) => Ok(desk.registers[x] & mask::<SIZE>()),
            Place::At(address) => memory::value::<ONE_LOOKUP, READ, SIZE>(memory, desk, address),
        }
    }

    /// Writes a value of `SIZE` bytes; a register keeps the rest.
    #[inline(always)]
    pub fn write<const ONE_LOOKUP: bool, const SIZE: usize>(
        self,
        memory: &mut [u8],
        desk: &mut State,
        value: u32,
    ) -> Result<(), Alarm> {
        match self {
            Place::Value(_) => Ok(()),
            Place::Register(x) => {
                desk.registers[x] = desk.registers[x] & !mask::<SIZE>() | value;
                Ok(())
            }
            Place::At(address) => store::<ONE_LOOKUP, SIZE>(memory, desk, address, value),
        }
    }
}
