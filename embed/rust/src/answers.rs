//! What the calls answer.

use std::fmt;

/// Why a call was refused, numbers 1 to 7, 17 to 20, 22 and 23 of the manual (`docs/MACHINE.md`). A refused call has
/// changed nothing, but for one thing: after [`Refusal::Clash`] the scratch is all zeros.
///
/// A later version may have more of them, so a `match` needs an arm for the others.
#[derive(Clone, Copy, PartialEq, Eq, Hash, Debug)]
#[repr(u32)]
#[non_exhaustive]
pub enum Refusal {
    /// The memory length is not allowed. Allowed are the multiples of 512 from 512 to 16,777,216.
    Length = 1,
    /// The system block's address is no multiple of 4, or the block doesn't fit.
    SystemBlock = 2,
    /// The control block's address is no multiple of 4, or the block doesn't fit.
    ControlBlock = 3,
    /// The map base is no multiple of 4, or map base + 4 × map length is above the memory length (also where the map
    /// length is 0).
    Map = 4,
    /// Status has an undefined bit, or the pending set has level 0's bit.
    Status = 5,
    /// A requested level is 0 or above 15.
    Level = 6,
    /// A stopped desk was asked to step or run.
    Stopped = 7,
    /// A list has an unknown command, is cut short, or has bytes after its end.
    Malformed = 17,
    /// A list has more than 4,096 pieces.
    Pieces = 18,
    /// A list puts a byte outside memory.
    Outside = 19,
    /// A run has more than 64 breakpoints.
    Breakpoints = 20,
    /// The scratch is shorter than the memory.
    Scratch = 22,
    /// Two lists put a byte at one address, and their last bytes there differ. The scratch is all zeros.
    Clash = 23,
}

impl Refusal {
    /// Its number in the manual.
    pub fn number(self) -> u32 {
        self as u32
    }

    /// The refusal of this number, if there is one: 1 to 7, 17 to 20, 22 and 23 have one.
    pub fn of(number: u32) -> Option<Refusal> {
        use Refusal::*;
        let of_desks = [Length, SystemBlock, ControlBlock, Map, Status, Level, Stopped, Breakpoints];
        let of_lists = [Malformed, Pieces, Outside, Scratch, Clash];
        of_desks.into_iter().chain(of_lists).find(|r| r.number() == number)
    }
}

impl fmt::Display for Refusal {
    fn fmt(&self, f: &mut fmt::Formatter<'_>) -> fmt::Result {
        f.write_str(match self {
            Refusal::Length => "the memory length is not allowed",
            Refusal::SystemBlock => "the system block's address is no multiple of 4, or the block does not fit",
            Refusal::ControlBlock => "the control block's address is no multiple of 4, or the block does not fit",
            Refusal::Map => "the map base is no multiple of 4, or map base + 4 x map length is above the memory length",
            Refusal::Status => "the status has an undefined bit, or the pending set has level 0's bit",
            Refusal::Level => "the requested level is 0 or above 15",
            Refusal::Stopped => "the desk is stopped",
            Refusal::Malformed => "the list has an unknown command, is cut short, or has bytes after its end",
            Refusal::Pieces => "the list has more than 4,096 pieces",
            Refusal::Outside => "the list puts a byte outside memory",
            Refusal::Breakpoints => "the run has more than 64 breakpoints",
            Refusal::Scratch => "the scratch is shorter than the memory",
            Refusal::Clash => "the two lists put unequal last bytes at one address",
        })
    }
}

impl std::error::Error for Refusal {}

/// What one step did.
///
/// A later version may tell more apart, so a `match` needs an arm for the others.
#[derive(Clone, Copy, PartialEq, Eq, Hash, Debug)]
#[non_exhaustive]
pub enum Event {
    /// A command was carried out.
    Done,
    /// The kernel was entered, with this cause: 1 a system call, 2 alarm 21, 8 to 15 the alarm of that number, 16 +
    /// level an interrupt.
    Entered(u32),
    /// The desk has stopped with this number: 0 HALT; 8, 12 to 15 an alarm in kernel mode; 16 no valid entry of the
    /// system block.
    Stopped(u32),
}

/// How a run with breakpoints ended.
///
/// A later version may tell more apart, so a `match` needs an arm for the others.
#[derive(Clone, Copy, PartialEq, Eq, Hash, Debug)]
#[non_exhaustive]
pub enum RunEnd {
    /// As a run without breakpoints ends: all steps are made, or the desk has stopped. [`Desk::mark`] tells which.
    ///
    /// [`Desk::mark`]: crate::Desk::mark
    Ended,
    /// Before the command at R15, which has not run.
    Held {
        /// The place in the list, from 0, of the first armed breakpoint there. Those before it count, armed or not.
        place: usize,
    },
}

/// Whether a desk runs.
///
/// A later version may tell more apart, so a `match` needs an arm for the others.
#[derive(Clone, Copy, PartialEq, Eq, Hash, Debug)]
#[non_exhaustive]
pub enum Mark {
    /// It runs.
    Running,
    /// It has stopped with this number. No call stops a desk with FFFFFFFFh, which stands for `Running` in the
    /// state.
    Stopped(u32),
}

impl Mark {
    pub(crate) fn of(word: u32) -> Mark {
        match word {
            u32::MAX => Mark::Running,
            number => Mark::Stopped(number),
        }
    }

    pub(crate) fn word(self) -> u32 {
        match self {
            Mark::Running => u32::MAX,
            Mark::Stopped(number) => number,
        }
    }
}

/// The answer of every call but `step` and `run_to`.
pub(crate) fn refused(answer: u32) -> Result<(), Refusal> {
    match answer {
        0 => Ok(()),
        number => Err(refusal(number)),
    }
}

/// The answer of `step`.
pub(crate) fn stepped(answer: u64) -> Result<Event, Refusal> {
    let number = answer as u32;
    match answer >> 32 {
        0 => Ok(Event::Done),
        1 => Err(refusal(number)),
        2 => Ok(Event::Entered(number)),
        3 => Ok(Event::Stopped(number)),
        kind => panic!("libmidesk.a does not fit this crate: a step of kind {kind}"),
    }
}

/// The answer of `run_to`.
pub(crate) fn ended(answer: u64) -> Result<RunEnd, Refusal> {
    let number = answer as u32;
    match answer >> 32 {
        0 => Ok(RunEnd::Ended),
        1 => Err(refusal(number)),
        4 => Ok(RunEnd::Held { place: number as usize }),
        kind => panic!("libmidesk.a does not fit this crate: a run of kind {kind}"),
    }
}

fn refusal(number: u32) -> Refusal {
    Refusal::of(number).unwrap_or_else(|| panic!("libmidesk.a does not fit this crate: refusal {number}"))
}
