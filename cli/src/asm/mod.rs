//! The assembler: a source in MI's notation into an image.
//!
//! `lexer` makes words, `parser` statements, `layout` addresses, `emit` bytes. `docs/MACHINE.md` describes the notation.

mod blocks;
mod columns;
mod commands;
mod cursor;
mod data;
mod directives;
mod emit;
mod errors;
pub mod fields;
mod floats;
mod layout;
mod lexer;
mod macros;
mod parser;
mod parts;
pub mod reference;
mod result;
mod sizes;
mod symbols;
mod syntax;
mod verb;

pub use cursor::{is_reserved, register};
pub use result::Assembled;
pub use verb::main;

use crate::image::Complaint;

/// Assembles a source; `file` is its name in the complaints.
pub fn assemble(file: &str, source: &str) -> Result<Assembled, Vec<Complaint>> {
    let mut errors = errors::Errors::new(file);
    let statements = parser::parse(source, &mut errors);
    let parsed_whole = errors.is_empty();
    let layout = layout::layout(&statements, &mut errors);
    if parsed_whole {
        result::check_overlaps(&statements, &layout, &mut errors);
    }
    let bytes = emit::emit(&statements, &layout, &mut errors);
    for (line, fault) in layout.symbols.given_twice() {
        errors.add(line, fault);
    }
    let assembled = result::assembled(source, &statements, &layout, bytes, &mut errors);
    match errors.is_empty() {
        true => Ok(assembled),
        false => Err(errors.into_complaints("errors")),
    }
}
