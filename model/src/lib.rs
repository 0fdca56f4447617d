//! A reference model of the MI desk, written from document 01, the requests of
//! document 02 and the named sections of document 000. Slow and byte by byte.

pub mod arith;
pub mod asm;
pub mod breakpoint_cover;
pub mod breakpoint_table;
pub mod breakpoints;
pub mod case;
pub mod cells;
pub mod checks;
pub mod code;
pub mod commands;
pub mod cover;
pub mod desk;
pub mod entry;
pub mod exact;
pub mod faults;
pub mod fetch_table;
pub mod flag_table;
pub mod float_table;
pub mod floats;
pub mod gen;
pub mod joint;
pub mod joint_table;
pub mod list_table;
pub mod load;
pub mod map;
pub mod notes;
pub mod operand;
pub mod pair;
pub mod points;
pub mod rng;
pub mod sequences;
pub mod shift_table;
pub mod state;
pub mod store;
pub mod table;
pub mod trace;
pub mod words;
pub mod work;

#[cfg(test)]
mod tests;
