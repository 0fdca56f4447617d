//! The code bytes ("Code" in document 01).

/// How a command uses an operand.
#[derive(Clone, Copy, PartialEq, Eq, PartialOrd, Ord, Debug)]
pub enum Role {
    /// Its value is used, nothing is written.
    Value,
    /// Only its address is used (MOVEA's source, jumps, CALL, RESUME).
    Address,
    /// It is only written.
    Destination,
    /// Its value is used and it is written (second of two operands).
    Both,
}

/// The format of an operand's value (000, 1.1): integers of one, two and four bytes, a short and a
/// long floating number.
#[derive(Clone, Copy, PartialEq, Eq, PartialOrd, Ord, Debug)]
pub enum Format {
    B,
    H,
    W,
    F,
    D,
}

impl Format {
    pub const ALL: [Format; 5] = [Format::B, Format::H, Format::W, Format::F, Format::D];

    /// Its length L in bytes.
    pub fn size(self) -> u32 {
        match self {
            Format::B => 1,
            Format::H => 2,
            Format::W | Format::F => 4,
            Format::D => 8,
        }
    }

    pub fn floating(self) -> bool {
        matches!(self, Format::F | Format::D)
    }
}

/// What a command on floating numbers does (request F-6).
#[derive(Clone, Copy, PartialEq, Eq, PartialOrd, Ord, Debug)]
pub enum FloatOp {
    Add,
    Sub,
    Mult,
    Div,
    Move,
    Cmp,
}

#[derive(Clone, Copy, PartialEq, Eq, Debug)]
pub enum Op {
    Halt,
    Pushr,
    Popr,
    SystemCall,
    Resume,
    Move,
    Clear,
    Moven,
    Movec,
    Movea,
    Conv,
    Or,
    Andnot,
    Xor,
    Add,
    Sub,
    Mult,
    Div,
    Sh,
    Rot,
    Cmp,
    /// A jump with its code byte 70h to 78h.
    Jump(u8),
    Call,
    Ret,
    Float(FloatOp),
}

/// A known command: operation, and role and format of each operand.
#[derive(Clone, PartialEq, Eq, Debug)]
pub struct Command {
    pub op: Op,
    pub operands: Vec<(Role, Format)>,
}

/// The command of a byte, or `None` for an unknown byte.
pub fn decode(byte: u8) -> Option<Command> {
    use Format::*;
    use Role::*;
    let plain = |op, operands: &[(Role, Format)]| Some(Command { op, operands: operands.to_vec() });
    match byte {
        0x00 => return plain(Op::Halt, &[]),
        0x01 => return plain(Op::Pushr, &[]),
        0x02 => return plain(Op::Popr, &[]),
        0x03 => return plain(Op::SystemCall, &[(Value, W)]),
        0x05 => return plain(Op::Resume, &[(Address, W)]),
        0x20 => return plain(Op::Movea, &[(Address, W), (Destination, W)]),
        0x21 => return plain(Op::Conv, &[(Value, B), (Destination, W)]),
        0x60 => return plain(Op::Sh, &[(Value, W), (Value, W), (Destination, W)]),
        0x61 => return plain(Op::Rot, &[(Value, W), (Value, W), (Destination, W)]),
        0x70..=0x78 => return plain(Op::Jump(byte), &[(Address, W)]),
        0x79 => return plain(Op::Call, &[(Address, W)]),
        0x7A => return plain(Op::Ret, &[]),
        _ => {}
    }
    // k = 0, 1, 2 for B, H, W; from 80h on j = 0, 1 for F, D.
    let format = match (byte % 4, byte >= 0x80) {
        (0, false) => B,
        (1, false) => H,
        (2, false) => W,
        (0, true) => F,
        (1, true) => D,
        _ => return None,
    };
    match byte - byte % 4 {
        0x10 => return plain(Op::Move, &[(Value, format), (Destination, format)]),
        0x14 => return plain(Op::Clear, &[(Destination, format)]),
        0x18 => return plain(Op::Moven, &[(Value, format), (Destination, format)]),
        0x1C => return plain(Op::Movec, &[(Value, format), (Destination, format)]),
        0x64 => return plain(Op::Cmp, &[(Value, format), (Value, format)]),
        0xA0 => return plain(Op::Float(FloatOp::Move), &[(Value, format), (Destination, format)]),
        0xA4 => return plain(Op::Float(FloatOp::Cmp), &[(Value, format), (Value, format)]),
        _ => {}
    }
    // Two operands, or three when the second byte of the pair is used.
    let op = match byte - byte % 8 {
        0x28 => Op::Or,
        0x30 => Op::Andnot,
        0x38 => Op::Xor,
        0x40 => Op::Add,
        0x48 => Op::Sub,
        0x50 => Op::Mult,
        0x58 => Op::Div,
        0x80 => Op::Float(FloatOp::Add),
        0x88 => Op::Float(FloatOp::Sub),
        0x90 => Op::Float(FloatOp::Mult),
        0x98 => Op::Float(FloatOp::Div),
        _ => return None,
    };
    if byte % 8 < 4 {
        plain(op, &[(Value, format), (Both, format)])
    } else {
        plain(op, &[(Value, format), (Value, format), (Destination, format)])
    }
}
