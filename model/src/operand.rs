//! Operands: fetch, form, address, reading ("Code" and "One step").

use crate::arith::mask;
use crate::code::{Format, Role};
use crate::notes::Note;
use crate::state::*;
use crate::work::{Alarm, Part, Work};

/// Where an operand is.
#[derive(Clone, Copy, PartialEq, Eq, Debug)]
pub enum Place {
    Immediate,
    Register(u8),
    At(u32),
}

#[derive(Clone, Copy, PartialEq, Eq, Debug)]
pub struct Operand {
    pub format: Format,
    pub place: Place,
    /// The bits of its value where it is used, else 0.
    pub value: u64,
}

/// The six bytes of an operand.
#[derive(Clone, Copy, PartialEq, Eq, Debug)]
pub struct Fields {
    pub form: u8,
    pub x: u8,
    pub y: u8,
    pub z: u32,
}

impl Fields {
    pub fn of(bytes: &[u8]) -> Fields {
        Fields {
            form: bytes[0],
            x: bytes[1] >> 4,
            y: bytes[1] & 15,
            z: u32::from_be_bytes([bytes[2], bytes[3], bytes[4], bytes[5]]),
        }
    }

    pub fn bytes(&self) -> [u8; 6] {
        let z = self.z.to_be_bytes();
        [self.form, self.x << 4 | self.y, z[0], z[1], z[2], z[3]]
    }
}

/// The form rule that an operand breaks, if any. A field that a form doesn't use is 0.
fn broken(fields: &Fields, role: Role, format: Format) -> Option<&'static str> {
    let Fields { form, x, y, z } = *fields;
    let written = role == Role::Destination || role == Role::Both;
    let address = role == Role::Address;
    let rules: &[(bool, &'static str)] = match form {
        0 => &[(x != 0, "0: x"), (y != 0, "0: y")],
        1 => &[
            (written, "1: destination"),
            (address, "1: no address"),
            (format == Format::D, "1: D"),
            (x != 0, "1: x"),
            (y != 0, "1: y"),
            (z & !mask(format.size()) != 0, "1: other bytes"),
        ],
        2 => &[
            (address, "2: no address"),
            (format == Format::F && x == 15, "2: F in R15"),
            (format == Format::D && x == 14, "2: D in R14"),
            (format == Format::D && x == 15, "2: D in R15"),
            (y != 0, "2: y"),
            (z != 0, "2: z"),
        ],
        3 => &[(y != 0, "3: y")],
        5 => &[(y != 0, "5: y")],
        7 | 8 => &[(x == 15, "7, 8: x = 15"), (y != 0, "7, 8: y"), (z != 0, "7, 8: z")],
        4 | 6 => &[],
        _ => &[(true, "above 8")],
    };
    rules.iter().find(|(broken, _)| *broken).map(|(_, rule)| *rule)
}

/// A register inside an operand. R15 is the address just after its six bytes.
fn register(work: &Work, number: u8) -> u32 {
    work.now.registers[usize::from(number)]
}

/// The place of an operand; forms 5 and 6 read their word, 7 and 8 step their register.
fn locate(work: &mut Work, number: u32, fields: &Fields, size: u32) -> Result<Place, Alarm> {
    let Fields { form, x, y, z } = *fields;
    let (rx, ry) = (register(work, x), register(work, y));
    let based = z.wrapping_add(rx);
    let index = ry.wrapping_mul(size);
    let address = match form {
        0 => z,
        1 => return Ok(Place::Immediate),
        2 => return Ok(Place::Register(x)),
        3 => based,
        4 => based.wrapping_add(index),
        5 => work.read_word(based, Part::Indirect(number))?,
        6 => work.read_word(based, Part::Indirect(number))?.wrapping_add(index),
        7 => {
            let lowered = rx.wrapping_sub(size);
            work.now.registers[usize::from(x)] = lowered;
            lowered
        }
        _ => {
            let raised = rx.wrapping_add(size);
            work.now.registers[usize::from(x)] = raised;
            rx
        }
    };
    Ok(Place::At(address))
}

/// What a register holds of a format. B and H are its low end; D has its high word in register x and
/// its low word in x + 1, which the form rules keep below 15.
fn held(work: &Work, x: u8, format: Format) -> u64 {
    match format {
        Format::D => u64::from(register(work, x)) << 32 | u64::from(register(work, x + 1)),
        _ => u64::from(register(work, x) & mask(format.size())),
    }
}

/// One operand: fetch, form, address, and reading where its value is used.
pub fn operand(work: &mut Work, number: u32, role: Role, format: Format) -> Result<Operand, Alarm> {
    let base = work.now.registers[PC];
    let bytes = work.fetch(base, 6, Part::Fetch(number))?;
    work.now.registers[PC] = base.wrapping_add(6);
    let fields = Fields::of(&bytes);
    let Fields { form, x, y, .. } = fields;
    let broken = broken(&fields, role, format);
    work.notes.add(Note::Operand { form, x, y, role, format, broken });
    if broken.is_some() {
        return Err(Alarm { number: 14, argument: number, part: Part::Form(number) });
    }
    let size = format.size();
    let place = locate(work, number, &fields, size)?;
    let used = role == Role::Value || role == Role::Both;
    let value = match place {
        _ if !used => 0,
        Place::Immediate => u64::from(fields.z & mask(size)),
        Place::Register(x) => held(work, x, format),
        Place::At(address) => work.read_value(address, size, Part::Value(number))?,
    };
    Ok(Operand { format, place, value })
}

/// Writes a result to an operand; a register keeps the rest.
pub fn store(work: &mut Work, operand: &Operand, value: u64) -> Result<(), Alarm> {
    let size = operand.format.size();
    match operand.place {
        Place::Immediate => panic!("form 1 is no destination"),
        Place::Register(x) if operand.format == Format::D => {
            work.now.registers[usize::from(x)] = (value >> 32) as u32;
            work.now.registers[usize::from(x) + 1] = value as u32;
            Ok(())
        }
        Place::Register(x) => {
            let rest = register(work, x) & !mask(size);
            work.now.registers[usize::from(x)] = rest | value as u32 & mask(size);
            Ok(())
        }
        Place::At(address) => work.write_value(address, size, value),
    }
}
