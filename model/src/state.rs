//! What the desk holds ("What the desk holds" in document 01).

/// Running, or stopped with a number.
#[derive(Clone, Copy, PartialEq, Eq, Debug)]
pub enum Mark {
    Running,
    Stopped(u32),
}

/// Everything that travels by value; the memory is lent to each call.
#[derive(Clone, Copy, PartialEq, Eq, Debug)]
pub struct State {
    pub registers: [u32; 16],
    pub status: u32,
    /// Bit of value 2^k for level k.
    pub pending: u16,
    pub map_base: u32,
    /// In entries of four bytes.
    pub map_length: u32,
    pub system_block: u32,
    pub control_block: u32,
    pub mark: Mark,
}

/// Register numbers with a meaning of their own.
pub const SP: usize = 14;
pub const PC: usize = 15;

/// Status word: kernel mode, level (four bits from 10h), N, Z, V, C.
pub const KERNEL: u32 = 0x8000_0000;
pub const LEVEL: u32 = 0xF0;
pub const N: u32 = 8;
pub const Z: u32 = 4;
pub const V: u32 = 2;
pub const C: u32 = 1;
pub const FLAGS: u32 = N | Z | V | C;
/// "other bits are 0".
pub const DEFINED: u32 = KERNEL | LEVEL | FLAGS;

pub const SYSTEM_BLOCK_BYTES: u64 = 256;
pub const CONTROL_BLOCK_BYTES: u64 = 80;
/// R0 to R15, status and argument.
pub const SAVED_BYTES: usize = 72;
pub const FRAME_BYTES: u32 = 512;

impl State {
    /// The all-zero desk stopped with a number.
    pub fn zero(number: u32) -> State {
        State {
            registers: [0; 16],
            status: 0,
            pending: 0,
            map_base: 0,
            map_length: 0,
            system_block: 0,
            control_block: 0,
            mark: Mark::Stopped(number),
        }
    }

    pub fn kernel(&self) -> bool {
        self.status & KERNEL != 0
    }

    pub fn level(&self) -> u32 {
        (self.status & LEVEL) >> 4
    }

    pub fn stopped(&self) -> bool {
        self.mark != Mark::Running
    }

    /// The highest level in the pending set.
    pub fn highest_pending(&self) -> Option<u32> {
        (0..16).rev().find(|k| self.pending >> k & 1 == 1)
    }
}

/// What one step did besides changing state and memory.
#[derive(Clone, Copy, PartialEq, Eq, Debug)]
pub enum Event {
    Plain,
    /// Kernel entry with its cause and the bytes it wrote to the control block.
    Entry {
        cause: u32,
        saved: [u8; SAVED_BYTES],
    },
    Stop(u32),
}

/// Answer of a step. `refusal` is 0 or 1 to 7; when refused, `event` is `Plain`.
#[derive(Clone, Copy, PartialEq, Eq, Debug)]
pub struct Stepped {
    pub refusal: u32,
    pub state: State,
    pub event: Event,
}

/// Answer of a run.
#[derive(Clone, Copy, PartialEq, Eq, Debug)]
pub struct Ran {
    pub refusal: u32,
    pub state: State,
    pub count: u64,
}

/// A breakpoint: an R15 value, and whether it is armed.
#[derive(Clone, Copy, PartialEq, Eq, Debug)]
pub struct Breakpoint {
    pub r15: u32,
    pub armed: bool,
}

/// Answer of a run to breakpoints. `held` is the place, from 0, of the one that held it; `None`
/// where none did.
#[derive(Clone, Copy, PartialEq, Eq, Debug)]
pub struct RanTo {
    pub refusal: u32,
    pub state: State,
    pub count: u64,
    pub held: Option<u32>,
}

/// Answer of a level request and of the call that makes a fresh desk.
#[derive(Clone, Copy, PartialEq, Eq, Debug)]
pub struct Answered {
    pub refusal: u32,
    pub state: State,
}
