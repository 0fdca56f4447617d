//! A command in MI's notation, and how numbers are written and read.

use crate::decode::{Decoded, Fields};
use crate::floats;
use crate::forms;
use crate::names::Names;
use crate::table::{Operand, Role, Size};

/// The command as a source writes it: `MOVE W !R0/R2/,R1`. Addresses that have a name are written by it.
pub fn written(command: &Decoded, names: &Names) -> String {
    let operands = command.operands.iter().zip(command.command.operands);
    let operands: Vec<String> = operands.map(|(fields, rule)| operand(fields, *rule, names)).collect();
    match operands.is_empty() {
        true => command.command.title(),
        false => format!("{} {}", command.command.title(), operands.join(",")),
    }
}

/// One operand.
pub fn operand(fields: &Fields, rule: Operand, names: &Names) -> String {
    let (x, y) = (register(fields.x), register(fields.y));
    match fields.form {
        forms::ADDRESS if rule.role == Role::Address => place(fields.z, names),
        forms::ADDRESS => names.content_of(fields.z).map_or_else(|| hexadecimal(fields.z), str::to_string),
        forms::VALUE => format!("I {}", value(fields.z, rule.size)),
        forms::REGISTER => x,
        forms::BASE => base(fields, names),
        forms::BASE_INDEX => format!("{}/{y}/", base(fields, names)),
        forms::INDIRECT => indirect(fields, names),
        forms::INDIRECT_INDEX => format!("{}/{y}/", indirect(fields, names)),
        forms::STEP_DOWN => format!("-!{x}"),
        _ => format!("!{x}+"),
    }
}

/// R0 to R13, SP, R15.
pub fn register(number: u8) -> String {
    match number {
        14 => "SP".to_string(),
        _ => format!("R{number}"),
    }
}

/// An address: its name, or hexadecimal.
pub fn place(address: u32, names: &Names) -> String {
    names.name_of(address).map_or_else(|| hexadecimal(address), str::to_string)
}

/// Whether z may be a place that a register is added to, and not a distance: it is no small number, and x is not R15.
pub fn is_base(fields: &Fields) -> bool {
    fields.x != 15 && fields.z >= 256
}

fn base(fields: &Fields, names: &Names) -> String {
    let x = register(fields.x);
    match names.name_of(fields.z).filter(|_| is_base(fields)) {
        Some(name) => format!("{name}+!{x}"),
        None if fields.z == 0 => format!("!{x}"),
        None => format!("{}+!{x}", value(fields.z, Size::W)),
    }
}

fn indirect(fields: &Fields, names: &Names) -> String {
    match fields.z {
        0 => format!("!!{}", register(fields.x)),
        _ => format!("!({})", base(fields, names)),
    }
}

/// A value of a size: small ones decimal, with a sign where the highest bit is set, others hexadecimal; of F as a floating number.
pub fn value(z: u32, size: Size) -> String {
    if size.is_floating() {
        return floats::written(u64::from(z), size);
    }
    let below = u64::from(size.highest()) + 1 - u64::from(z);
    match (z, below) {
        (0..=99, 129..) => z.to_string(),
        (_, 1..=128) => format!("-{below}"),
        _ => hexadecimal(z),
    }
}

/// `9`, `Ah`, `410h`, `0B0B0B0Bh`: decimal where it is the same, else with h at the end.
pub fn hexadecimal(number: u32) -> String {
    match number {
        0..=9 => number.to_string(),
        10..=0x00FF_FFFF => format!("{number:X}h"),
        _ => format!("{number:08X}h"),
    }
}

/// A number as users write it: `410h`, `0x410`, `H'410'`, `1040`, `-1`.
pub fn number(text: &str) -> Option<u32> {
    let unsigned = |text| long(text).and_then(|number| u32::try_from(number).ok());
    if let Some(rest) = text.strip_prefix('-') {
        let magnitude = unsigned(rest)?;
        return (magnitude <= 1 << 31).then(|| magnitude.wrapping_neg());
    }
    unsigned(text)
}

/// A number without a sign, of up to 64 bits.
pub fn long(text: &str) -> Option<u64> {
    let hexadecimal = text
        .strip_prefix("0x")
        .or_else(|| text.strip_prefix("H'").and_then(|rest| rest.strip_suffix('\'')))
        .or_else(|| text.strip_suffix(['h', 'H']));
    match hexadecimal {
        Some(digits) => digits_of(digits, 16),
        None => digits_of(text, 10),
    }
}

fn digits_of(text: &str, radix: u32) -> Option<u64> {
    if text.is_empty() || !text.chars().all(|c| c.is_digit(radix)) {
        return None;
    }
    u64::from_str_radix(text, radix).ok()
}
