//! Load lists: their commands, a memory loaded from one or from two, what is wrong with them, lists in words, and that of a
//! source. docs/MACHINE.md describes the format.

mod both;
mod commands;
mod covered;
mod last;
mod lines;
mod memory;
mod pack;
mod shared;
mod show;
mod show_both;
mod verb;
mod written;
mod wrong;

pub use both::{both, least_length_of_both, RefusedBoth, Which, Why};
pub use commands::{commands, Action, Command, Commands, Content, Malformed, Put, MOST_PIECES, SUMMARY};
pub use last::Putting;
pub use memory::{least_length, memory, Refused};
pub use pack::{packed, Packed};
pub use shared::{shared, Clash, Shared};
pub use show::show;
pub use show_both::show_both;
pub use verb::main;
pub use written::length as length_words;
pub use wrong::{find, Wrong};

/// What the name of a load list ends in.
pub const ENDING: &str = "load";
