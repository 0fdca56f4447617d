//! `show`: registers and memory as floating numbers.

use super::commands::{count, nothing_more, Done, Session};
use super::looks;
use crate::asm;
use crate::floats;
use crate::notation;
use crate::options;
use crate::size::Size;
use std::io::Write;

/// Numbers that are shown at most.
const MOST: u64 = 8_192;

pub fn show(session: &mut Session, arguments: &[&str], out: &mut dyn Write) -> Done {
    let [place, letter, rest @ ..] = arguments else {
        return Err("show what, and as what? A register or an address, and F or D, as in `show R4 D`"
            .to_string()
            .into());
    };
    let Some(size) = Size::of_letter(letter).filter(|size| size.is_floating()) else {
        return Err(format!("'{}' is no kind of floating numbers: F or D", options::shown(letter)).into());
    };
    let n = count(rest.first())?;
    nothing_more(rest.get(1..).unwrap_or_default())?;
    match asm::register(place) {
        Some(_) if n.is_some() => Err("a register holds one number; N is for memory".to_string().into()),
        Some(register) => of_register(session, register, size, out),
        None => of_memory(session, place, size, n.unwrap_or(1).min(MOST) as u32, out),
    }
}

/// A register, of D with the next one.
fn of_register(session: &Session, register: u8, size: Size, out: &mut dyn Write) -> Done {
    let (name, letter, last) = (notation::register(register), size.letter(), size.last_register());
    if register > last {
        return Err(format!("{name} holds no {letter}: R0 to R{last} may").into());
    }
    let registers: Vec<u8> = (register..).take(size.bytes() as usize / 4).collect();
    let names: Vec<String> = registers.iter().copied().map(notation::register).collect();
    let word = |register: &u8| session.machine.desk.register(usize::from(*register));
    let bits = registers.iter().fold(0, |bits, register| bits << 32 | u64::from(word(register)));
    writeln!(out, "{}  {}", names.join(","), number(bits, size))?;
    Ok(())
}

fn of_memory(session: &mut Session, place: &str, size: Size, n: u32, out: &mut dyn Write) -> Done {
    let (from, real) = looks::shown_from(session, place, false)?;
    let from = session.onward.unwrap_or(from);
    let bytes = looks::bytes(session, from, real, n * size.bytes());
    let row = |(place, value): (usize, &[Option<u8>])| {
        let at = from.wrapping_add(size.bytes() * place as u32);
        let bits = value.iter().try_fold(0, |bits, byte| Some(bits << 8 | u64::from((*byte)?)));
        bits.map(|bits| format!("{at:04X}h  {}", number(bits, size)))
    };
    let numbers = bytes.chunks(size.bytes() as usize).enumerate().map_while(row).collect();
    looks::rows(session, from, real, &bytes, numbers, out)?;
    session.onward = Some(from.wrapping_add(n * size.bytes()));
    Ok(())
}

/// The bits and the number: `40280000 00000000  12.0`.
fn number(bits: u64, size: Size) -> String {
    let words = match size {
        Size::D => format!("{:08X} {:08X}", bits >> 32, bits & 0xFFFF_FFFF),
        _ => format!("{bits:08X}"),
    };
    format!("{words}  {}", floats::in_words(bits, size))
}
