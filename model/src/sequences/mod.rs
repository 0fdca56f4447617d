//! Sequences of calls as a program makes them that holds a desk's state as 90
//! bytes: the calls with what they answer and leave, and what the caller does
//! to state and memory in between.
//!
//! The 90 bytes, each value highest byte first: R0 to R15, status, map base,
//! map length, system block, control block, the number it is stopped with
//! (FFFFFFFFh while it runs), four bytes each; the pending set, two bytes.

pub mod acts;
pub mod floats;
pub mod lists;
pub mod pairs;
pub mod points;
pub mod program;
pub mod random;
pub mod session;
pub mod stream;

use crate::pair::{After, Pair};
use crate::state::*;

pub const STATE_BYTES: usize = 90;
pub type StateBytes = [u8; STATE_BYTES];
/// Stands for a running desk where the number is that a desk is stopped with.
pub const RUNNING: u32 = 0xFFFF_FFFF;

pub fn packed(state: &State) -> StateBytes {
    let mark = match state.mark {
        Mark::Running => RUNNING,
        Mark::Stopped(number) => number,
    };
    let others = [state.status, state.map_base, state.map_length, state.system_block, state.control_block, mark];
    let mut bytes = [0; STATE_BYTES];
    for (i, word) in state.registers.iter().chain(&others).enumerate() {
        bytes[4 * i..4 * i + 4].copy_from_slice(&word.to_be_bytes());
    }
    bytes[88..].copy_from_slice(&state.pending.to_be_bytes());
    bytes
}

pub fn unpacked(bytes: &StateBytes) -> State {
    let word = |i: usize| u32::from_be_bytes([bytes[4 * i], bytes[4 * i + 1], bytes[4 * i + 2], bytes[4 * i + 3]]);
    State {
        registers: std::array::from_fn(word),
        status: word(16),
        map_base: word(17),
        map_length: word(18),
        system_block: word(19),
        control_block: word(20),
        mark: match word(21) {
            RUNNING => Mark::Running,
            number => Mark::Stopped(number),
        },
        pending: u16::from_be_bytes([bytes[88], bytes[89]]),
    }
}

/// One act of a caller.
#[derive(Clone, PartialEq, Eq, Debug)]
pub enum Act {
    Fresh {
        system: u32,
        control: u32,
        start: u32,
    },
    Step,
    Run(u64),
    Request(u32),
    /// Puts other bytes into the state.
    State(StateBytes),
    /// Writes into the memory.
    Memory {
        at: u32,
        bytes: Vec<u8>,
    },
    /// Lends a memory of another length from here on: cut, or longer by zeros.
    Length(u32),
    /// Loads a list into the memory.
    Load(Vec<u8>),
    /// Loads two lists together into the memory, with a scratch of its own.
    LoadBoth(Pair),
    /// A run to breakpoints.
    RunTo {
        n: u64,
        points: Vec<Breakpoint>,
    },
}

impl Act {
    /// What the caller itself does to memory and state; nothing for a call.
    pub fn done(&self, memory: &mut Vec<u8>, state: &mut StateBytes) {
        match self {
            Act::State(bytes) => *state = *bytes,
            Act::Memory { at, bytes } => memory[*at as usize..][..bytes.len()].copy_from_slice(bytes),
            Act::Length(length) => memory.resize(*length as usize, 0),
            _ => {}
        }
    }
}

/// Bytes of the memory that a call changed.
#[derive(Clone, PartialEq, Eq, Debug)]
pub struct Change {
    pub at: u32,
    pub bytes: Vec<u8>,
}

/// What a call answered and left. For a step and a run to breakpoints the
/// answer is kind × 2^32 + number (kind 0 done, 1 refused, 2 kernel entry, 3
/// stop, 4 held), for the others the number of the refusal or 0; `steps` is a
/// run's count, 0 for the others; `scratch` is joint loading's, `AsBefore` for
/// the others.
#[derive(Clone, PartialEq, Eq, Debug)]
pub struct Left {
    pub answer: u64,
    pub steps: u64,
    pub state: StateBytes,
    pub changes: Vec<Change>,
    pub scratch: After,
}

#[derive(Clone, PartialEq, Eq, Debug)]
pub struct Sequence {
    pub family: &'static str,
    pub memory: Vec<u8>,
    pub state: StateBytes,
    /// Calls with what they left, other acts without.
    pub acts: Vec<(Act, Option<Left>)>,
}

impl Sequence {
    /// How many of the acts are calls.
    pub fn calls(&self) -> usize {
        self.acts.iter().filter(|(_, left)| left.is_some()).count()
    }
}

/// Where `new` differs from `old`, which is as long; near places together.
pub fn changes(old: &[u8], new: &[u8]) -> Vec<Change> {
    const BLOCK: usize = 512;
    const GAP: usize = 6;
    let mut places: Vec<(usize, usize)> = Vec::new();
    for from in (0..new.len()).step_by(BLOCK) {
        let to = new.len().min(from + BLOCK);
        if old[from..to] == new[from..to] {
            continue;
        }
        for i in from..to {
            if old[i] == new[i] {
                continue;
            }
            match places.last_mut() {
                Some((_, end)) if i <= *end + GAP => *end = i + 1,
                _ => places.push((i, i + 1)),
            }
        }
    }
    places.iter().map(|(at, end)| Change { at: *at as u32, bytes: new[*at..*end].to_vec() }).collect()
}
