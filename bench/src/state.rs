//! The desk's state as the plain desk has it, and the model's; what a run with breakpoints answers.

use model::state::Mark;

/// The number in `stopped` while the desk runs.
pub const RUNNING: u32 = u32::MAX;
pub const KERNEL: u32 = 0x8000_0000;

/// The steps that a run made and, where a breakpoint held it, its place in the list; or the number of the refusal.
pub type RanTo = Result<(u64, Option<usize>), u32>;

#[derive(Clone, Copy, PartialEq, Eq, Debug)]
pub struct State {
    pub registers: [u32; 16],
    pub status: u32,
    pub map_base: u32,
    /// In entries of four bytes.
    pub map_length: u32,
    pub system_block: u32,
    pub control_block: u32,
    /// The number that it stopped with, or `RUNNING`.
    pub stopped: u32,
    /// Bit of value 2^k for level k.
    pub pending: u16,
}

impl State {
    pub fn to_model(self) -> model::state::State {
        model::state::State {
            registers: self.registers,
            status: self.status,
            pending: self.pending,
            map_base: self.map_base,
            map_length: self.map_length,
            system_block: self.system_block,
            control_block: self.control_block,
            mark: if self.stopped == RUNNING { Mark::Running } else { Mark::Stopped(self.stopped) },
        }
    }

    pub fn from_model(state: &model::state::State) -> State {
        State {
            registers: state.registers,
            status: state.status,
            map_base: state.map_base,
            map_length: state.map_length,
            system_block: state.system_block,
            control_block: state.control_block,
            stopped: match state.mark {
                Mark::Running => RUNNING,
                Mark::Stopped(number) => number,
            },
            pending: state.pending,
        }
    }
}
