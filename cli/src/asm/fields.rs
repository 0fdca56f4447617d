//! The fields of a control block by name: `block.R15`, `block.argument`.

pub const STATUS: u32 = 64;
pub const ARGUMENT: u32 = 68;
pub const MAP: u32 = 72;
pub const LENGTH: u32 = 76;

/// The bytes of a control block, and of a system block.
pub const CONTROL_BLOCK: u32 = 80;
pub const SYSTEM_BLOCK: u32 = 256;

pub const FIELDS: &[(&str, u32)] = &[
    ("R0", 0),
    ("R1", 4),
    ("R2", 8),
    ("R3", 12),
    ("R4", 16),
    ("R5", 20),
    ("R6", 24),
    ("R7", 28),
    ("R8", 32),
    ("R9", 36),
    ("R10", 40),
    ("R11", 44),
    ("R12", 48),
    ("R13", 52),
    ("SP", 56),
    ("R14", 56),
    ("R15", 60),
    ("status", STATUS),
    ("argument", ARGUMENT),
    ("map", MAP),
    ("length", LENGTH),
];
