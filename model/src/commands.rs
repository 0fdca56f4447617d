//! One command: byte, mode, operands, operation ("One step").

use crate::arith;
use crate::checks::{self, Broken};
use crate::code::{decode, FloatOp, Op};
use crate::floats::{self, Number};
use crate::map::{word, Real};
use crate::notes::Note;
use crate::operand::{operand, store, Operand, Place};
use crate::state::*;
use crate::work::{Alarm, Part, Work};

/// How a command ended without an alarm.
pub enum Done {
    Next,
    SystemCall(u32),
    Halt,
}

/// Number 13: HALT or RESUME in user mode, or a system call in kernel mode.
fn wrong_mode(op: Op, kernel: bool) -> bool {
    match op {
        Op::Halt => !kernel,
        Op::Resume => !kernel,
        Op::SystemCall => kernel,
        _ => false,
    }
}

/// One command: byte, mode, operands, stack bytes read, operation, writes.
pub fn command(work: &mut Work) -> Result<Done, Alarm> {
    let own = work.now.registers[PC];
    let byte = work.fetch(own, 1, Part::Byte)?[0];
    work.now.registers[PC] = own.wrapping_add(1);
    work.notes.add(Note::Command(byte));
    let alarm = |number, part| Alarm { number, argument: u32::from(byte), part };
    let known = decode(byte).ok_or(alarm(12, Part::Byte))?;
    if wrong_mode(known.op, work.start.kernel()) {
        return Err(alarm(13, Part::Mode));
    }
    let mut operands = Vec::new();
    for (i, (role, format)) in known.operands.iter().enumerate() {
        operands.push(operand(work, i as u32 + 1, *role, *format)?);
    }
    operation(work, known.op, &operands)
}

/// The address of an operand; forms 1 and 2 have none.
fn address(operand: &Operand) -> u32 {
    match operand.place {
        Place::At(address) => address,
        _ => panic!("no address"),
    }
}

fn operation(work: &mut Work, op: Op, operands: &[Operand]) -> Result<Done, Alarm> {
    match op {
        Op::Halt => return Ok(Done::Halt),
        Op::SystemCall => return Ok(Done::SystemCall(operands[0].value as u32)),
        Op::Resume => resume(work, address(&operands[0]))?,
        Op::Pushr => pushr(work)?,
        Op::Popr => popr(work)?,
        Op::Call => call(work, address(&operands[0]))?,
        Op::Ret => ret(work)?,
        Op::Jump(byte) => {
            if arith::taken(byte, work.now.status) {
                work.now.registers[PC] = address(&operands[0]);
            }
        }
        Op::Float(op) => floating(work, op, operands)?,
        _ => integer(work, op, operands)?,
    }
    Ok(Done::Next)
}

/// A command that sets flags: its result goes to the last operand, but for CMP.
fn integer(work: &mut Work, op: Op, operands: &[Operand]) -> Result<(), Alarm> {
    let first = if op == Op::Movea { address(&operands[0]) } else { operands[0].value as u32 };
    let second = operands.get(1).map_or(0, |operand| operand.value as u32);
    let size = operands[0].format.size();
    let last = operands[operands.len() - 1];
    work.notes.add(Note::Values { first, second });
    let by_zero = Alarm { number: 15, argument: 0, part: Part::Operation };
    let (value, flags) = arith::apply(op, first, second, size).ok_or(by_zero)?;
    work.now.status = work.now.status & !FLAGS | flags;
    if op != Op::Cmp {
        store(work, &last, u64::from(value))?;
    }
    Ok(())
}

/// A command on floating numbers (request F-6). All its operands are of one format, and its result
/// goes to the last one, but for CMP.
fn floating(work: &mut Work, op: FloatOp, operands: &[Operand]) -> Result<(), Alarm> {
    let [first, second] = [&operands[0], &operands[1]].map(|operand| Number::of(operand.format, operand.value));
    let last = operands[operands.len() - 1];
    work.notes.add(Note::Numbers { op, first, second });
    let (result, flags) = floats::apply(op, first, second);
    work.now.status &= !FLAGS;
    work.now.status |= flags;
    if op != FloatOp::Cmp {
        store(work, &last, result.bits())?;
    }
    Ok(())
}

/// PUSHR (000, 2.5.1, literally): R14 to R0, SP lowered by 4 before each.
fn pushr(work: &mut Work) -> Result<(), Alarm> {
    let mut stored = [0; 15];
    for i in (0..=14).rev() {
        work.now.registers[SP] = work.now.registers[SP].wrapping_sub(4);
        stored[i] = work.now.registers[i];
    }
    let bytes: Vec<u8> = stored.iter().flat_map(|word| word.to_be_bytes()).collect();
    work.write(work.now.registers[SP], &bytes)
}

/// POPR (000, 2.5.1, literally): R0 to R14, SP raised by 4 after each.
fn popr(work: &mut Work) -> Result<(), Alarm> {
    let bytes = work.read(work.now.registers[SP], 60, Part::Stack)?;
    for i in 0..=14 {
        work.now.registers[i] = word(&bytes, Real(4 * i as u32));
        work.now.registers[SP] = work.now.registers[SP].wrapping_add(4);
    }
    Ok(())
}

/// CALL lowers SP by 4, stores the next address there and jumps.
fn call(work: &mut Work, target: u32) -> Result<(), Alarm> {
    let next = work.now.registers[PC];
    work.now.registers[SP] = work.now.registers[SP].wrapping_sub(4);
    work.write_word(work.now.registers[SP], next)?;
    work.now.registers[PC] = target;
    Ok(())
}

/// RET reverses it.
fn ret(work: &mut Work) -> Result<(), Alarm> {
    work.now.registers[PC] = work.read_word(work.now.registers[SP], Part::Stack)?;
    work.now.registers[SP] = work.now.registers[SP].wrapping_add(4);
    Ok(())
}

/// RESUME's block keeps 3 and 4, and its status is one of user mode.
fn block_fits(work: &Work, block: u32) -> Result<(), Broken> {
    let length = work.memory.len() as u64;
    let load = |offset| word(work.memory, Real(block.wrapping_add(offset)));
    checks::control_inside(length, block)?;
    checks::control_aligned(block)?;
    checks::map(length, load(72), load(76))?;
    checks::user_status(load(64))
}

/// RESUME: loads R0 to R15, status, map base and map length; all misfits are 14.
fn resume(work: &mut Work, block: u32) -> Result<(), Alarm> {
    let fits = block_fits(work, block);
    work.notes.add(Note::Resume(fits.err().map_or("good", |broken| broken.reason)));
    fits.map_err(|_| Alarm { number: 14, argument: 1, part: Part::Operation })?;
    let load = |offset| word(work.memory, Real(block.wrapping_add(offset)));
    for i in 0..16 {
        work.now.registers[i] = load(4 * i as u32);
    }
    work.now.status = load(64);
    work.now.map_base = load(72);
    work.now.map_length = load(76);
    work.now.control_block = block;
    Ok(())
}
