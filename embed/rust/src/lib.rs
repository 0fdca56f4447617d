//! The MI desk, a small computer whose every call is proved, for programs in Rust.
//!
//! This crate is a thin layer of plain Rust over the proved archive; the layer is tested, not proved.
//!
//! A [`Desk`] runs machine code for MI in a memory that is lent to each call. Every memory, state, list, scratch,
//! breakpoint and number is answered: what cannot be used is refused with a [`Refusal`], and then state and memory are
//! as they were.
//!
//! ```
//! use midesk::{Desk, Event, Mark};
//!
//! // System block at 0, control block at 256, the program at 512: MOVE B I 2,R0, then HALT.
//! let mut memory = vec![0; 1024];
//! memory[512..526].copy_from_slice(&[0x10, 1, 0, 0, 0, 0, 2, 2, 0, 0, 0, 0, 0, 0]);
//!
//! let mut desk = Desk::fresh(&memory, 0, 256, 512)?;
//! assert_eq!(desk.step(&mut memory)?, Event::Done);
//! assert_eq!(desk.register(0), 2);
//!
//! let steps = desk.run(&mut memory, 1000)?;
//! assert_eq!(steps, 1);
//! assert_eq!(desk.mark(), Mark::Stopped(midesk::numbers::HALT));
//! # Ok::<(), midesk::Refusal>(())
//! ```
//!
//! [`Desk::run_to`] makes a run that is held before chosen commands, as a debugger does. [`load`] puts a program into
//! memory that arrives as a load list, in parts with their own addresses; [`load_both`] loads two lists together.
//! [`numbers`] has the commands of lists, and describes what the desk uses in memory: system block, control block and
//! map.
//!
//! The crate links `libmidesk.a`, which `embed/build` of the repository makes. `docs/MACHINE.md` there is the reference
//! manual: command bytes, operand forms, blocks, map, numbers.
#![deny(missing_docs)]
#![deny(unsafe_code)]

mod answers;
mod breakpoints;
#[allow(unsafe_code)]
mod ffi;
pub mod numbers;

pub use answers::{Event, Mark, Refusal, RunEnd};
pub use breakpoints::Breakpoint;

use std::fmt;

/// Bytes of a desk's state.
pub const STATE_BYTES: usize = 90;

/// The version of this crate as one number, 65536 × major + 256 × minor + patch, as the C header has it in
/// `MIDESK_VERSION`.
pub const VERSION: u32 = 0x03_02_02;

/// The version of the archive `libmidesk.a` that is linked, as one number: [`VERSION`] where crate and archive belong
/// together.
///
/// ```
/// assert_eq!(midesk::version(), midesk::VERSION);
/// ```
pub fn version() -> u32 {
    ffi::version()
}

/// Loads a list into memory: bytes in parts, each with its own address. No desk is asked. A list is a row of commands,
/// each one byte and what belongs to it, numbers highest byte first (the constants are those of [`numbers`]):
///
/// | Command         | Byte | Followed by               | Does                                                 |
/// |-----------------|------|---------------------------|------------------------------------------------------|
/// | [`LIST_END`]    | 00h  | -                         | ends the list                                        |
/// | [`LIST_MOVE`]   | 01h  | address (4 bytes)         | moves the place to this real address                 |
/// | [`LIST_BYTE`]   | 02h  | the byte                  | puts it                                              |
/// | [`LIST_FOUR`]   | 03h  | the 4 bytes               | puts them, the first at the place                    |
/// | [`LIST_COPIES`] | 04h  | count (2 bytes), the byte | puts so many copies of it; none where the count is 0 |
///
/// The place is 0 at first. What is put stands from the place on, and the place moves just past it; of two puts at one
/// address the later wins. Memory that the list does not mention stays as it is. 02h, 03h and 04h are the pieces of the
/// list, with a count of 0 too. The place may lie anywhere and does not wrap around; only a byte put outside memory is
/// refused, so a move is not, nor is a count of 0.
///
/// The list is read twice, first to judge it, then to put its bytes; the time grows with its length and with the bytes
/// put, and not with the length of the memory.
///
/// ```
/// use midesk::numbers::{LIST_BYTE, LIST_COPIES, LIST_END, LIST_FOUR, LIST_MOVE};
/// use midesk::{load, Refusal};
///
/// let mut memory = vec![0xFF; 512];
/// let list = [
///     [LIST_MOVE, 0, 0, 1, 0].as_slice(), // to 100h
///     &[LIST_FOUR, 1, 2, 3, 4],
///     &[LIST_COPIES, 0, 3, 7],
///     &[LIST_BYTE, 9],
///     &[LIST_END],
/// ]
/// .concat();
/// load(&mut memory, &list)?;
/// assert_eq!(memory[0xFE..0x10A], [0xFF, 0xFF, 1, 2, 3, 4, 7, 7, 7, 9, 0xFF, 0xFF]);
///
/// // A byte at 0, then one past the memory: nothing is put.
/// let outside = [LIST_BYTE, 5, LIST_MOVE, 0, 0, 2, 0, LIST_BYTE, 5, LIST_END];
/// assert_eq!(load(&mut memory, &outside), Err(Refusal::Outside));
/// assert_eq!(memory[0], 0xFF);
/// # Ok::<(), Refusal>(())
/// ```
///
/// # Errors
///
/// The first of these that is so, each judged over the whole list before the next; memory is as it was:
///
/// - [`Refusal::Length`]: the memory length is not allowed;
/// - [`Refusal::Malformed`]: an unknown command, a list cut short (inside a command or without a 00h, so the empty list
///   too), or bytes after its 00h;
/// - [`Refusal::Pieces`]: more than [`LIST_PIECES`] pieces;
/// - [`Refusal::Outside`]: a byte is put outside memory.
///
/// [`LIST_END`]: numbers::LIST_END
/// [`LIST_MOVE`]: numbers::LIST_MOVE
/// [`LIST_BYTE`]: numbers::LIST_BYTE
/// [`LIST_FOUR`]: numbers::LIST_FOUR
/// [`LIST_COPIES`]: numbers::LIST_COPIES
/// [`LIST_PIECES`]: numbers::LIST_PIECES
pub fn load(memory: &mut [u8], list: &[u8]) -> Result<(), Refusal> {
    answers::refused(ffi::load(memory, list))
}

/// Loads two lists into memory together. No desk is asked. Each list is one of [`load`]: its place is 0 at first, and
/// it may have [`LIST_PIECES`] pieces of its own. Afterwards memory holds at each address the last byte that either
/// list puts there, and elsewhere the old byte. Where both put a byte at one address, their last bytes there must be
/// equal: else the lists clash. Only the last bytes count: what a list puts and then replaces itself is no clash. So
/// two lists that load leave the same memory when they are exchanged.
///
/// `scratch` is lent to find a clash before memory is changed: it must be as long as the memory, or longer. What it
/// holds before does not matter. After loading, and after a clash, all of it is zeros, the bytes past the memory's
/// length too; after every other refusal it is as it was.
///
/// The lists are only read, several times, and may be one and the same. The time grows with the lengths of memory,
/// scratch and lists and with the bytes put.
///
/// ```
/// use midesk::numbers::{LIST_BYTE, LIST_COPIES, LIST_END, LIST_FOUR, LIST_MOVE};
/// use midesk::{load_both, Refusal};
///
/// let mut memory = vec![0xFF; 512];
/// let mut scratch = vec![0xAA; 512];
///
/// // At 2 and 3 both put 7 last; the first list has put 9 at 3 before.
/// let first = [LIST_FOUR, 5, 6, 7, 9, LIST_MOVE, 0, 0, 0, 3, LIST_BYTE, 7, LIST_END];
/// let second = [LIST_MOVE, 0, 0, 0, 2, LIST_COPIES, 0, 4, 7, LIST_END];
/// load_both(&mut memory, &first, &second, &mut scratch)?;
/// assert_eq!(memory[..8], [5, 6, 7, 7, 7, 7, 0xFF, 0xFF]);
///
/// // Another byte at 3: nothing is put, and the scratch is zeros.
/// let other = [LIST_MOVE, 0, 0, 0, 3, LIST_BYTE, 8, LIST_END];
/// assert_eq!(load_both(&mut memory, &first, &other, &mut scratch), Err(Refusal::Clash));
/// assert_eq!(memory[..8], [5, 6, 7, 7, 7, 7, 0xFF, 0xFF]);
/// assert_eq!(scratch, [0; 512]);
/// # Ok::<(), Refusal>(())
/// ```
///
/// # Errors
///
/// The first of these that is so; memory is as it was:
///
/// - [`Refusal::Length`]: the memory length is not allowed;
/// - [`Refusal::Malformed`], [`Refusal::Pieces`], [`Refusal::Outside`] of the first list, as [`load`] has them and in
///   its order;
/// - the same three of the second list;
/// - [`Refusal::Scratch`]: the scratch is shorter than the memory;
/// - [`Refusal::Clash`]: an address at which both lists put a byte, and their last bytes there differ.
///
/// [`LIST_PIECES`]: numbers::LIST_PIECES
pub fn load_both(memory: &mut [u8], first: &[u8], second: &[u8], scratch: &mut [u8]) -> Result<(), Refusal> {
    answers::refused(ffi::load_both(memory, first, second, scratch))
}

const STATUS: usize = 64;
const MAP_BASE: usize = 68;
const MAP_LENGTH: usize = 72;
const SYSTEM_BLOCK: usize = 76;
const CONTROL_BLOCK: usize = 80;
const MARK: usize = 84;
const PENDING: usize = 88;

/// A desk: its whole state, held as 90 bytes. The memory is lent to each call and is no part of it.
///
/// Two desks are equal when their states are. Every content of the 90 bytes is a state.
#[derive(Clone, PartialEq, Eq, Hash)]
pub struct Desk {
    state: [u8; STATE_BYTES],
}

impl Desk {
    /// A fresh desk over this memory: zero registers except R15 = `start`, kernel mode, level 0, no map, nothing
    /// pending, running. `system` and `control` are the real addresses of the system block (256 bytes) and the control
    /// block (80 bytes). Of the memory only the length matters; `start` is not checked.
    ///
    /// # Errors
    ///
    /// [`Refusal::Length`], [`Refusal::SystemBlock`] or [`Refusal::ControlBlock`], tried in this order.
    pub fn fresh(memory: &[u8], system: u32, control: u32, start: u32) -> Result<Desk, Refusal> {
        let mut state = [0; STATE_BYTES];
        answers::refused(ffi::fresh(memory, system, control, start, &mut state))?;
        Ok(Desk { state })
    }

    /// One step: in user mode the highest pending level above the status level is entered and its pending bit cleared;
    /// otherwise one command runs. Desk and memory become what the manual says; the answer tells whether a command was
    /// carried out, the kernel was entered or the desk has stopped.
    ///
    /// # Errors
    ///
    /// [`Refusal::Length`] to [`Refusal::Status`] or [`Refusal::Stopped`], tried in this order; desk and memory are as
    /// they were.
    pub fn step(&mut self, memory: &mut [u8]) -> Result<Event, Refusal> {
        answers::stepped(ffi::step(memory, &mut self.state))
    }

    /// At most `n` steps, fewer only where the desk stops: exactly what that many calls of [`Desk::step`] leave. Answers
    /// how many it made, the stopping one and kernel entries included; entries do not end it. [`Desk::mark`] tells
    /// whether the desk has stopped, and with which number.
    ///
    /// # Errors
    ///
    /// As [`Desk::step`]; desk and memory are as they were. A run of 0 steps makes the same checks and, where they
    /// pass, answers 0.
    pub fn run(&mut self, memory: &mut [u8], n: u64) -> Result<u64, Refusal> {
        let (answer, steps) = ffi::run(memory, &mut self.state, n);
        answers::refused(answer)?;
        Ok(steps)
    }

    /// Requests an interrupt of a level from 1 to 15: sets its bit in the pending set, on a stopped desk too. It is
    /// entered by the first step in user mode at which it is the highest pending level and above the status level; that
    /// clears its bit.
    ///
    /// # Errors
    ///
    /// [`Refusal::Status`] or [`Refusal::Level`]; the desk is as it was.
    pub fn request(&mut self, level: u32) -> Result<(), Refusal> {
        answers::refused(ffi::request(&mut self.state, level))
    }

    /// The desk with this state. Every content is one; what cannot be used is refused by the calls.
    ///
    /// Each value stands highest byte first: R0 to R15, status, map base, map length, system block, control block, the
    /// number that the desk stopped with (FFFFFFFFh while it runs), four bytes each; the pending set, two bytes.
    pub fn from_bytes(state: [u8; STATE_BYTES]) -> Desk {
        Desk { state }
    }

    /// The state, as [`Desk::from_bytes`] takes it.
    pub fn to_bytes(&self) -> [u8; STATE_BYTES] {
        self.state
    }

    /// A register.
    ///
    /// # Panics
    ///
    /// If `i` is above 15.
    pub fn register(&self, i: usize) -> u32 {
        assert!(i < 16, "a desk has the registers 0 to 15");
        self.word(4 * i)
    }

    /// R0 to R15. R14 is the stack pointer, R15 the address of the next command.
    pub fn registers(&self) -> [u32; 16] {
        std::array::from_fn(|i| self.word(4 * i))
    }

    /// The status word: mode, level and flags (see [`numbers`]).
    pub fn status(&self) -> u32 {
        self.word(STATUS)
    }

    /// Whether the status word says kernel mode.
    pub fn is_kernel(&self) -> bool {
        self.status() & numbers::KERNEL != 0
    }

    /// The level of the status word, 0 to 15.
    pub fn level(&self) -> u32 {
        (self.status() & numbers::LEVEL) >> 4
    }

    /// The pending set: the bit of value 2^k stands for level k.
    pub fn pending(&self) -> u16 {
        u16::from_be_bytes([self.state[PENDING], self.state[PENDING + 1]])
    }

    /// The real address of the map.
    pub fn map_base(&self) -> u32 {
        self.word(MAP_BASE)
    }

    /// The map's length in entries of four bytes.
    pub fn map_length(&self) -> u32 {
        self.word(MAP_LENGTH)
    }

    /// The real address of the system block.
    pub fn system_block(&self) -> u32 {
        self.word(SYSTEM_BLOCK)
    }

    /// The real address of the control block.
    pub fn control_block(&self) -> u32 {
        self.word(CONTROL_BLOCK)
    }

    /// Running, or stopped with a number.
    pub fn mark(&self) -> Mark {
        Mark::of(self.word(MARK))
    }

    /// Whether the desk runs.
    pub fn is_running(&self) -> bool {
        self.mark() == Mark::Running
    }

    /// Sets a register.
    ///
    /// # Panics
    ///
    /// If `i` is above 15.
    pub fn set_register(&mut self, i: usize, value: u32) {
        assert!(i < 16, "a desk has the registers 0 to 15");
        self.put(4 * i, value);
    }

    /// Sets the status word.
    pub fn set_status(&mut self, status: u32) {
        self.put(STATUS, status);
    }

    /// Sets the pending set.
    pub fn set_pending(&mut self, levels: u16) {
        self.state[PENDING..].copy_from_slice(&levels.to_be_bytes());
    }

    /// Sets the map: its real address and its length in entries.
    pub fn set_map(&mut self, base: u32, length: u32) {
        self.put(MAP_BASE, base);
        self.put(MAP_LENGTH, length);
    }

    /// Sets the real addresses of system block and control block.
    pub fn set_blocks(&mut self, system: u32, control: u32) {
        self.put(SYSTEM_BLOCK, system);
        self.put(CONTROL_BLOCK, control);
    }

    /// Sets the mark. `Mark::Running` makes a stopped desk go on at R15; after an alarm that is the same command again.
    /// `Mark::Stopped(0xFFFF_FFFF)` cannot be told from `Mark::Running` and is that.
    pub fn set_mark(&mut self, mark: Mark) {
        self.put(MARK, mark.word());
    }

    fn word(&self, at: usize) -> u32 {
        let b = &self.state;
        u32::from_be_bytes([b[at], b[at + 1], b[at + 2], b[at + 3]])
    }

    fn put(&mut self, at: usize, value: u32) {
        self.state[at..at + 4].copy_from_slice(&value.to_be_bytes());
    }
}

impl From<[u8; STATE_BYTES]> for Desk {
    fn from(state: [u8; STATE_BYTES]) -> Desk {
        Desk::from_bytes(state)
    }
}

impl fmt::Debug for Desk {
    fn fmt(&self, f: &mut fmt::Formatter<'_>) -> fmt::Result {
        f.debug_struct("Desk")
            .field("registers", &format_args!("{:X?}", self.registers()))
            .field("status", &format_args!("{:#010X}", self.status()))
            .field("pending", &format_args!("{:#06X}", self.pending()))
            .field("map_base", &self.map_base())
            .field("map_length", &self.map_length())
            .field("system_block", &self.system_block())
            .field("control_block", &self.control_block())
            .field("mark", &self.mark())
            .finish()
    }
}
