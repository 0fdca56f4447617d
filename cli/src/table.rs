//! The table of command bytes: name, size, operands with their roles, mode, and where the next command is.
//!
//! `tests/table.rs` holds every row against the proved machine, `tests/table_definition.rs` against its definition,
//! `crates/machine/specs/Code.antt` and, for floating numbers, `FloatCode.antt` beside it.

pub use crate::size::Size;

/// What a command does with an operand.
#[derive(Clone, Copy, PartialEq, Eq, Debug)]
pub enum Role {
    /// It is read.
    Value,
    /// Its address alone is taken.
    Address,
    /// It is written.
    Destination,
    /// It is read and written.
    Update,
}

/// The modes that allow a command.
#[derive(Clone, Copy, PartialEq, Eq, Debug)]
pub enum Mode {
    Both,
    User,
    Kernel,
}

/// Where the desk goes on after a command.
#[derive(Clone, Copy, PartialEq, Eq, Debug)]
pub enum Flow {
    /// At the next command.
    Next,
    /// At the operand's address.
    Jump,
    /// At the operand's address or at the next command.
    Branch,
    /// At the operand's address; RET comes back to the next command.
    Call,
    /// Nowhere that the bytes alone tell.
    End,
}

#[derive(Clone, Copy, PartialEq, Eq, Debug)]
pub struct Operand {
    pub size: Size,
    pub role: Role,
}

#[derive(Clone, Copy, PartialEq, Eq, Debug)]
pub struct Command {
    pub byte: u8,
    pub name: &'static str,
    /// The letter behind the name; none where the command has one size alone.
    pub size: Option<Size>,
    pub operands: &'static [Operand],
    pub mode: Mode,
    pub flow: Flow,
}

/// One byte, three from a first one on for B, H, W, or two for F, D; how it is written, with s for the size or f for the kind,
/// and what it does.
struct Row {
    byte: u8,
    name: &'static str,
    kind: Kind,
    usage: &'static str,
    does: &'static str,
}

#[derive(Clone, Copy)]
enum Kind {
    One { operands: Operands, mode: Mode, flow: Flow },
    Sized([Operands; 3]),
    Floating([Operands; 2]),
}

impl Row {
    const fn means(self, usage: &'static str, does: &'static str) -> Row {
        Row { usage, does, ..self }
    }
}

type Operands = &'static [Operand];

const fn operand(size: Size, role: Role) -> Operand {
    Operand { size, role }
}

/// The operands with these roles, for each size.
macro_rules! sizes {
    ($($role:ident),*) => {
        [
            &[$(operand(Size::B, Role::$role)),*],
            &[$(operand(Size::H, Role::$role)),*],
            &[$(operand(Size::W, Role::$role)),*],
        ]
    };
}

/// The same for each kind of floating numbers.
macro_rules! kinds {
    ($($role:ident),*) => {
        [
            &[$(operand(Size::F, Role::$role)),*],
            &[$(operand(Size::D, Role::$role)),*],
        ]
    };
}

const TRANSPORT: [Operands; 3] = sizes!(Value, Destination);
const ONE: [Operands; 3] = sizes!(Destination);
const TWO: [Operands; 3] = sizes!(Value, Update);
const THREE: [Operands; 3] = sizes!(Value, Value, Destination);
const COMPARED: [Operands; 3] = sizes!(Value, Value);
const FLOATING_TRANSPORT: [Operands; 2] = kinds!(Value, Destination);
const FLOATING_TWO: [Operands; 2] = kinds!(Value, Update);
const FLOATING_THREE: [Operands; 2] = kinds!(Value, Value, Destination);
const FLOATING_COMPARED: [Operands; 2] = kinds!(Value, Value);
const NONE: Operands = &[];
const ADDRESS: Operands = &[operand(Size::W, Role::Address)];
const ARGUMENT: Operands = &[operand(Size::W, Role::Value)];
const MOVEA: Operands = &[operand(Size::W, Role::Address), operand(Size::W, Role::Destination)];
const CONV: Operands = &[operand(Size::B, Role::Value), operand(Size::W, Role::Destination)];

const fn one(byte: u8, name: &'static str, operands: Operands, mode: Mode, flow: Flow) -> Row {
    Row { byte, name, kind: Kind::One { operands, mode, flow }, usage: "", does: "" }
}

const fn sized(byte: u8, name: &'static str, operands: [Operands; 3]) -> Row {
    Row { byte, name, kind: Kind::Sized(operands), usage: "", does: "" }
}

const fn floating(byte: u8, name: &'static str, operands: [Operands; 2]) -> Row {
    Row { byte, name, kind: Kind::Floating(operands), usage: "", does: "" }
}

use Flow::{Branch, Call, End, Jump, Next};
use Mode::{Both, Kernel, User};

const ROWS: &[Row] = &[
    one(0x00, "HALT", NONE, Kernel, End).means("HALT", "stops the desk: stop 0; kernel mode alone"),
    one(0x01, "PUSHR", NONE, Both, Next).means("PUSHR", "pushes R14 to R0 on the stack"),
    one(0x02, "POPR", NONE, Both, Next).means("POPR", "pops R0 to R14 from the stack"),
    one(0x03, "SYSTEM CALL", ARGUMENT, User, Next)
        .means("SYSTEM CALL a", "enters the kernel with cause 1 and the value of a; user mode alone"),
    one(0x05, "RESUME", ADDRESS, Kernel, End)
        .means("RESUME a", "goes to user mode, with what the control block at a holds; kernel mode alone"),
    sized(0x10, "MOVE", TRANSPORT).means("MOVE s a,b", "b := a"),
    sized(0x14, "CLEAR", ONE).means("CLEAR s a", "a := 0"),
    sized(0x18, "MOVEN", TRANSPORT).means("MOVEN s a,b", "b := -a"),
    sized(0x1C, "MOVEC", TRANSPORT).means("MOVEC s a,b", "b := a, every bit inverted"),
    one(0x20, "MOVEA", MOVEA, Both, Next).means("MOVEA a,b", "b := the address of a"),
    one(0x21, "CONV", CONV, Both, Next).means("CONV a,b", "b := the byte a, widened with its sign"),
    sized(0x28, "OR", TWO).means("OR s a,b", "b := b or a"),
    sized(0x2C, "OR", THREE).means("OR s a,b,c", "c := b or a"),
    sized(0x30, "ANDNOT", TWO).means("ANDNOT s a,b", "b := b and not a"),
    sized(0x34, "ANDNOT", THREE).means("ANDNOT s a,b,c", "c := b and not a"),
    sized(0x38, "XOR", TWO).means("XOR s a,b", "b := b exclusive-or a"),
    sized(0x3C, "XOR", THREE).means("XOR s a,b,c", "c := b exclusive-or a"),
    sized(0x40, "ADD", TWO).means("ADD s a,b", "b := b + a"),
    sized(0x44, "ADD", THREE).means("ADD s a,b,c", "c := b + a"),
    sized(0x48, "SUB", TWO).means("SUB s a,b", "b := b - a"),
    sized(0x4C, "SUB", THREE).means("SUB s a,b,c", "c := b - a"),
    sized(0x50, "MULT", TWO).means("MULT s a,b", "b := b x a"),
    sized(0x54, "MULT", THREE).means("MULT s a,b,c", "c := b x a"),
    sized(0x58, "DIV", TWO).means("DIV s a,b", "b := b / a, without the fraction; a = 0 is alarm 15"),
    sized(0x5C, "DIV", THREE).means("DIV s a,b,c", "c := b / a, likewise"),
    one(0x60, "SH", THREE[2], Both, Next)
        .means("SH a,b,c", "c := b shifted to the left by a, to the right by -a where a < 0"),
    one(0x61, "ROT", THREE[2], Both, Next).means("ROT a,b,c", "c := b rotated to the left by a"),
    sized(0x64, "CMP", COMPARED).means("CMP s a,b", "N where a < b, Z where a = b; signed"),
    one(0x70, "JUMP", ADDRESS, Both, Jump).means("JUMP a", "goes on at a"),
    one(0x71, "JEQ", ADDRESS, Both, Branch).means("JEQ a", "goes on at a if Z; after CMP: equal"),
    one(0x72, "JNE", ADDRESS, Both, Branch).means("JNE a", "if not Z; after CMP: not equal"),
    one(0x73, "JGT", ADDRESS, Both, Branch).means("JGT a", "if neither N nor Z; after CMP: greater"),
    one(0x74, "JGE", ADDRESS, Both, Branch).means("JGE a", "if not N; after CMP: greater or equal"),
    one(0x75, "JLT", ADDRESS, Both, Branch).means("JLT a", "if N; after CMP: less"),
    one(0x76, "JLE", ADDRESS, Both, Branch).means("JLE a", "if N or Z; after CMP: less or equal"),
    one(0x77, "JV", ADDRESS, Both, Branch)
        .means("JV a", "if V: an overflow, or a floating number that is infinite or NaN"),
    one(0x78, "JC", ADDRESS, Both, Branch).means("JC a", "if C, an unsigned carry or borrow"),
    one(0x79, "CALL", ADDRESS, Both, Call).means("CALL a", "pushes the next address and goes on at a"),
    one(0x7A, "RET", NONE, Both, End).means("RET", "pops the address at which it goes on"),
    floating(0x80, "ADD", FLOATING_TWO).means("ADD f a,b", "b := b + a; V where it is infinite or NaN"),
    floating(0x84, "ADD", FLOATING_THREE).means("ADD f a,b,c", "c := b + a, likewise"),
    floating(0x88, "SUB", FLOATING_TWO).means("SUB f a,b", "b := b - a, likewise"),
    floating(0x8C, "SUB", FLOATING_THREE).means("SUB f a,b,c", "c := b - a, likewise"),
    floating(0x90, "MULT", FLOATING_TWO).means("MULT f a,b", "b := b x a, likewise"),
    floating(0x94, "MULT", FLOATING_THREE).means("MULT f a,b,c", "c := b x a, likewise"),
    floating(0x98, "DIV", FLOATING_TWO).means("DIV f a,b", "b := b / a, likewise; a = 0 is no alarm"),
    floating(0x9C, "DIV", FLOATING_THREE).means("DIV f a,b,c", "c := b / a, likewise"),
    floating(0xA0, "MOVE", FLOATING_TRANSPORT).means("MOVE f a,b", "b := a, bit by bit; flags as of ADD"),
    floating(0xA4, "CMP", FLOATING_COMPARED)
        .means("CMP f a,b", "N where a < b, Z where a = b, V alone where one is NaN"),
];

const SIZES: [Size; 3] = [Size::B, Size::H, Size::W];
const KINDS: [Size; 2] = [Size::F, Size::D];

/// A command of a row with several sizes: both modes allow it, and the next one follows.
const fn plain(byte: u8, name: &'static str, size: Size, operands: Operands) -> Command {
    Command { byte, name, size: Some(size), operands, mode: Both, flow: Next }
}

const fn by_byte() -> [Option<Command>; 256] {
    let mut table = [None; 256];
    let mut i = 0;
    while i < ROWS.len() {
        let Row { byte, name, kind, .. } = ROWS[i];
        match kind {
            Kind::One { operands, mode, flow } => {
                table[byte as usize] = Some(Command { byte, name, size: None, operands, mode, flow });
            }
            Kind::Sized(operands) => {
                let mut k = 0;
                while k < 3 {
                    table[byte as usize + k] = Some(plain(byte + k as u8, name, SIZES[k], operands[k]));
                    k += 1;
                }
            }
            Kind::Floating(operands) => {
                let mut j = 0;
                while j < 2 {
                    table[byte as usize + j] = Some(plain(byte + j as u8, name, KINDS[j], operands[j]));
                    j += 1;
                }
            }
        }
        i += 1;
    }
    table
}

static BY_BYTE: [Option<Command>; 256] = by_byte();

/// Each row as `desk help asm` shows it.
pub const SUMMARY: [(&str, &str); ROWS.len()] = {
    let mut summary = [("", ""); ROWS.len()];
    let mut i = 0;
    while i < ROWS.len() {
        summary[i] = (ROWS[i].usage, ROWS[i].does);
        i += 1;
    }
    summary
};

/// The command of a byte; none where the byte is unknown (alarm 12).
pub fn command(byte: u8) -> Option<&'static Command> {
    BY_BYTE[usize::from(byte)].as_ref()
}

/// All commands, in the order of their bytes.
pub fn commands() -> impl Iterator<Item = &'static Command> {
    BY_BYTE.iter().flatten()
}

impl Command {
    /// The bytes of the whole command: one, and six for each operand.
    pub fn length(&self) -> u32 {
        1 + 6 * self.operands.len() as u32
    }

    /// The name with its size letter, as it is written: `MOVE W`.
    pub fn title(&self) -> String {
        match self.size {
            Some(size) => format!("{} {}", self.name, size.letter()),
            None => self.name.to_string(),
        }
    }
}
