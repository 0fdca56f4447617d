//! Numbers of the manual, `docs/MACHINE.md`: causes of a kernel entry, numbers of a stop, bits of the status word, what
//! the desk uses in memory, the commands of a load list, and how many breakpoints there may be.
//!
//! # Alarms
//!
//! In user mode each alarm is the cause of a kernel entry (or there is stop 16, where the system block's entry is not
//! valid). In kernel mode 8 and 12 to 15 are the number of a stop; 9 to 11 and 21 do not occur.
//!
//! Alarm 21 is the only one whose cause is not its number, and stands here by its cause, [`NO_FETCH`]: 21 is the cause
//! of an interrupt of level 5.
//!
//! # System block
//!
//! 256 bytes: for each cause of a kernel entry the R15 ([`system_pc`]) and the status word ([`system_status`]) with
//! which the kernel goes on. That status must have [`KERNEL`] and no undefined bit; otherwise the desk stops with 16
//! instead of entering. All words in memory stand highest byte first.
//!
//! # Control block
//!
//! 80 bytes: R0 to R15 from 0 on, status at 64, argument at 68, map base at 72, map length in entries at 76. A kernel
//! entry writes the first 72 bytes. It saves as R15 the address of the next command for a system call and an interrupt,
//! the command's own for an alarm. The argument is the value of a system call; the level of an interrupt; of alarms 8
//! to 11 and 21 the byte's address, of 12 and 13 the command byte, of 14 the operand's place from 1, of 15 zero.
//!
//! The command RESUME leads to user mode: it loads all but the argument from the block at its address, which becomes
//! the control block. A block that [`Refusal::ControlBlock`] or [`Refusal::Map`] would refuse, or a status with
//! [`KERNEL`] or an undefined bit, is alarm 14.
//!
//! # Map
//!
//! Used in user mode alone: page p, the addresses from 512 × p to 512 × p + 511, has the word at map base + 4 × p. In
//! an entry without [`MAP_PRESENT`] the other bits mean nothing. In one with it the five bits between
//! [`MAP_NO_FETCH`] and [`MAP_FRAME`] must be 0, and the frame must lie in memory; otherwise its use is alarm 10.
//!
//! From a page whose entry has [`MAP_NO_FETCH`] nothing is fetched, neither a command byte nor any of an operand's six
//! bytes: that is alarm 21, tried after 10. Its bytes are read like others, those of the stack and the words of forms 5
//! and 6 among them, and written where the entry has [`MAP_WRITABLE`].
//!
//! # Load lists
//!
//! [`load`] has the table of their commands; [`load_both`] takes two lists.
//!
//! [`load`]: crate::load
//! [`load_both`]: crate::load_both
//! [`Refusal::ControlBlock`]: crate::Refusal::ControlBlock
//! [`Refusal::Map`]: crate::Refusal::Map

/// Cause: a system call.
pub const SYSTEM_CALL: u32 = 1;

/// Alarm: the page is at or past the map length, or in kernel mode the byte lies past the memory.
pub const ADDRESS: u32 = 8;
/// Alarm: the map's entry is absent.
pub const ABSENT: u32 = 9;
/// Alarm: a present entry has a forbidden bit, or its frame lies past the memory.
pub const MAP_ENTRY: u32 = 10;
/// Alarm: a write meets an entry that isn't writable.
pub const READ_ONLY: u32 = 11;
/// Alarm: the command byte is unknown.
pub const COMMAND: u32 = 12;
/// Alarm: HALT or RESUME in user mode, or a system call in kernel mode.
pub const MODE: u32 = 13;
/// Alarm: an operand breaks a form rule, or RESUME's block cannot be used.
pub const OPERAND: u32 = 14;
/// Alarm: DIV by zero.
pub const DIVIDE: u32 = 15;
/// Cause of alarm 21: a command byte, or a byte of an operand, is fetched where the map's entry has [`MAP_NO_FETCH`].
pub const NO_FETCH: u32 = 2;

/// Cause: the interrupt of a level from 1 to 15.
pub const fn interrupt(level: u32) -> u32 {
    16 + level
}

/// Stop: the command HALT.
pub const HALT: u32 = 0;
/// Stop: the system block's entry holds no valid kernel status.
pub const SYSTEM_ENTRY: u32 = 16;

/// Status: kernel mode.
pub const KERNEL: u32 = 0x8000_0000;
/// Status: the level, times 16.
pub const LEVEL: u32 = 0xF0;
/// Status: flag N.
pub const N: u32 = 8;
/// Status: flag Z.
pub const Z: u32 = 4;
/// Status: flag V.
pub const V: u32 = 2;
/// Status: flag C.
pub const C: u32 = 1;

/// System block: where the new R15 for a cause stands.
pub const fn system_pc(cause: u32) -> usize {
    8 * cause as usize
}

/// System block: where the new status word for a cause stands.
pub const fn system_status(cause: u32) -> usize {
    8 * cause as usize + 4
}

/// Control block: where the status word stands. R0 to R15 stand before it.
pub const CONTROL_STATUS: usize = 64;
/// Control block: where the argument stands.
pub const CONTROL_ARGUMENT: usize = 68;
/// Control block: where the map base stands.
pub const CONTROL_MAP_BASE: usize = 72;
/// Control block: where the map length stands.
pub const CONTROL_MAP_LENGTH: usize = 76;

/// Map entry: present.
pub const MAP_PRESENT: u32 = 0x8000_0000;
/// Map entry: writable.
pub const MAP_WRITABLE: u32 = 0x4000_0000;
/// Map entry: nothing is fetched from the page, neither a command byte nor a byte of an operand.
pub const MAP_NO_FETCH: u32 = 0x2000_0000;
/// Map entry: the frame's number f, the 512 bytes from real address 512 × f.
pub const MAP_FRAME: u32 = 0x00FF_FFFF;

/// Load list: the command that ends it.
pub const LIST_END: u8 = 0x00;
/// Load list: the command that moves the place, with an address of four bytes.
pub const LIST_MOVE: u8 = 0x01;
/// Load list: the command that puts a byte.
pub const LIST_BYTE: u8 = 0x02;
/// Load list: the command that puts four bytes.
pub const LIST_FOUR: u8 = 0x03;
/// Load list: the command that puts copies, with their count of two bytes and the byte.
pub const LIST_COPIES: u8 = 0x04;
/// Load list: the pieces that it may have, its commands 02h, 03h and 04h.
pub const LIST_PIECES: usize = 4096;

/// Breakpoints that a run may have, armed or not.
pub const MAX_BREAKPOINTS: usize = 64;
