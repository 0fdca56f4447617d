//! The commands of the loops. After the last turn stands HALT: in kernel mode it stops the desk with 0; in user mode it
//! is alarm 13, whose kernel entry leads to another HALT.

use crate::loops::Kind;

const HALT: u8 = 0x00;
const PUSHR: u8 = 0x01;
const POPR: u8 = 0x02;
const MOVE_B: u8 = 0x10;
const MOVE_H: u8 = 0x11;
const MOVE_W: u8 = 0x12;
const OR_W3: u8 = 0x2E;
const ANDNOT_W3: u8 = 0x36;
const XOR_W3: u8 = 0x3E;
const ADD_B: u8 = 0x40;
const ADD_H: u8 = 0x41;
const ADD_W: u8 = 0x42;
const ADD_W3: u8 = 0x46;
const SUB_B: u8 = 0x48;
const SUB_W: u8 = 0x4A;
const SUB_W3: u8 = 0x4E;
const MULT_W3: u8 = 0x56;
const SH_W3: u8 = 0x60;
const CMP_H: u8 = 0x65;
const CMP_W: u8 = 0x66;
const JUMP: u8 = 0x70;
const JEQ: u8 = 0x71;
const JNE: u8 = 0x72;
const JGT: u8 = 0x73;
const JGE: u8 = 0x74;
const JLT: u8 = 0x75;
const JLE: u8 = 0x76;
const JV: u8 = 0x77;
const CALL: u8 = 0x79;
const RET: u8 = 0x7A;
const ADD_F: u8 = 0x80;
const ADD_D: u8 = 0x81;
const MULT_F: u8 = 0x90;
const MULT_D: u8 = 0x91;

/// The loop of F and D takes x to x * x + this: so x stays between -2 and 2. From 0, which registers begin with, and
/// from `FIRST`, which memory begins with, an F comes back to where it was only after thousands of turns, and a D after
/// millions.
pub const ADDED: f64 = -1.9;
pub const FIRST: f64 = 0.25;

enum Operand {
    /// Form, registers x and y, word.
    Form(u8, u8, u8, u32),
    /// Form 0: the address of a command, by its place in the program.
    To(usize),
}

use Operand::{Form, To};

type Program = &'static [(u8, &'static [Operand])];

/// `I z`
const fn value(z: u32) -> Operand {
    Form(1, 0, 0, z)
}

/// `Rx`
const fn register(x: u8) -> Operand {
    Form(2, x, 0, 0)
}

/// `z+!R5`: R5 has the address of the data.
const fn at(z: u32) -> Operand {
    Form(3, 5, 0, z)
}

/// `z+!R5/R6/`
const fn index(z: u32) -> Operand {
    Form(4, 5, 6, z)
}

/// `!(z+!R5)`
const fn indirect(z: u32) -> Operand {
    Form(5, 5, 0, z)
}

/// `!(z+!R5)/R6/`
const fn indirect_index(z: u32) -> Operand {
    Form(6, 5, 6, z)
}

/// `-!Rx`
const fn down(x: u8) -> Operand {
    Form(7, x, 0, 0)
}

/// `!Rx+`
const fn up(x: u8) -> Operand {
    Form(8, x, 0, 0)
}

/// 4 commands a turn.
const REGISTER: Program = &[
    (ADD_W, &[register(1), register(2)]),
    (SUB_W, &[value(1), register(0)]),
    (CMP_W, &[value(0), register(0)]),
    (JNE, &[To(0)]),
    (HALT, &[]),
];

/// 5 commands a turn.
const MEMORY: Program = &[
    (ADD_W, &[at(0), at(4)]),
    (SUB_W, &[value(1), at(16)]),
    (MOVE_W, &[at(4), at(12)]),
    (CMP_W, &[value(0), at(16)]),
    (JNE, &[To(0)]),
    (HALT, &[]),
];

/// B and H: 8 commands a turn.
const SMALL: Program = &[
    (ADD_B, &[register(1), register(2)]),
    (ADD_H, &[at(80), register(3)]),
    (SUB_B, &[value(1), at(84)]),
    (MOVE_H, &[register(3), at(88)]),
    (MOVE_B, &[at(84), at(92)]),
    (CMP_H, &[value(0), register(3)]),
    (SUB_W, &[value(1), register(0)]),
    (JNE, &[To(0)]),
    (HALT, &[]),
];

/// A subroutine that saves all registers: 7 commands a turn.
const STACK: Program = &[
    (CALL, &[To(4)]),
    (SUB_W, &[value(1), register(0)]),
    (JNE, &[To(0)]),
    (HALT, &[]),
    // The subroutine.
    (PUSHR, &[]),
    (ADD_W, &[register(1), at(4)]),
    (POPR, &[]),
    (RET, &[]),
];

/// Forms 4 to 8: 6 commands a turn.
const FORMS: Program = &[
    (MOVE_W, &[index(40), down(7)]),
    (ADD_W, &[up(7), indirect(32)]),
    (MOVE_W, &[indirect_index(32), up(8)]),
    (ADD_W, &[down(8), index(40)]),
    (SUB_W, &[value(1), register(0)]),
    (JNE, &[To(0)]),
    (HALT, &[]),
];

/// Jumps, 4 taken and 4 not: 10 commands a turn. Where one goes wrong, HALT ends the loop too early.
const JUMPS: Program = &[
    (CMP_W, &[value(0), register(1)]), // less
    (JEQ, &[To(13)]),
    (JGT, &[To(13)]),
    (JLT, &[To(5)]), // taken
    (HALT, &[]),
    (JLE, &[To(7)]), // taken
    (HALT, &[]),
    (JV, &[To(13)]),
    (JGE, &[To(13)]),
    (JUMP, &[To(11)]), // taken
    (HALT, &[]),
    (SUB_W, &[value(1), register(0)]),
    (JNE, &[To(0)]), // taken
    (HALT, &[]),
];

/// Three operands: 9 commands a turn.
const THREE: Program = &[
    (ADD_W3, &[register(1), register(2), register(3)]),
    (XOR_W3, &[register(3), register(4), register(9)]),
    (OR_W3, &[register(1), register(9), register(10)]),
    (ANDNOT_W3, &[value(15), register(10), register(11)]),
    (SH_W3, &[value(3), register(11), register(4)]),
    (MULT_W3, &[register(1), register(4), register(9)]),
    (SUB_W3, &[register(9), register(3), register(2)]),
    (SUB_W, &[value(1), register(0)]),
    (JNE, &[To(0)]),
    (HALT, &[]),
];

/// F and D: 10 commands a turn. Each of four numbers, of both kinds in registers and in memory, is multiplied by itself,
/// and then `ADDED` is added.
const FLOATS: Program = &[
    (MULT_F, &[register(2), register(2)]),
    (ADD_F, &[at(96), register(2)]),
    (MULT_D, &[register(9), register(9)]),
    (ADD_D, &[at(104), register(9)]),
    (MULT_F, &[at(100), at(100)]),
    (ADD_F, &[value((ADDED as f32).to_bits()), at(100)]),
    (MULT_D, &[at(112), at(112)]),
    (ADD_D, &[register(12), at(112)]),
    (SUB_W, &[value(1), register(0)]),
    (JNE, &[To(0)]),
    (HALT, &[]),
];

fn commands(kind: Kind) -> Program {
    match kind {
        Kind::Register => REGISTER,
        Kind::Memory => MEMORY,
        Kind::Small => SMALL,
        Kind::Stack => STACK,
        Kind::Forms => FORMS,
        Kind::Jumps => JUMPS,
        Kind::Three => THREE,
        Kind::Floats => FLOATS,
    }
}

/// The addresses of the commands of a loop that begins at `start`, the HALTs among them.
pub fn addresses(kind: Kind, start: u32) -> Vec<u32> {
    let mut next = start;
    let mut addresses = vec![];
    for (_, operands) in commands(kind) {
        addresses.push(next);
        next += 1 + 6 * operands.len() as u32;
    }
    addresses
}

/// The bytes of a loop that begins at `start`.
pub fn program(kind: Kind, start: u32) -> Vec<u8> {
    let addresses = addresses(kind, start);
    let mut bytes = vec![];
    for (code, operands) in commands(kind) {
        bytes.push(*code);
        for operand in *operands {
            let (form, x, y, z) = match *operand {
                Form(form, x, y, z) => (form, x, y, z),
                To(place) => (0, 0, 0, addresses[place]),
            };
            bytes.extend([form, x << 4 | y]);
            bytes.extend(z.to_be_bytes());
        }
    }
    bytes
}
