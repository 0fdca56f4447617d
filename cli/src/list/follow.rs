//! Where commands are: following the code from the start, from the entries of the system block and from the programs'
//! control blocks.

use super::ground::Ground;
use crate::decode::{self, Decoded, Trouble};
use crate::forms;
use crate::image::{Image, Program};
use crate::notation;
use crate::table::{Role, Size};
use crate::view;
use std::collections::{BTreeMap, BTreeSet};

/// In whose addresses a command counts.
#[derive(Clone, Copy, PartialEq, Eq, PartialOrd, Ord, Debug)]
pub enum Space {
    Kernel,
    /// The program at this place of the list.
    Program(usize),
}

/// A place that a command names.
#[derive(Clone, Copy, PartialEq, Eq, Debug)]
pub struct Reference {
    pub space: Space,
    pub address: u32,
    /// Of what is there; none for code.
    pub size: Option<Size>,
}

#[derive(Default)]
pub struct Code {
    /// By real address.
    pub commands: BTreeMap<u32, (Space, Decoded)>,
    pub references: Vec<Reference>,
    /// What the code leads to and is no command, by real address.
    pub troubles: BTreeMap<u32, Trouble>,
    /// The addresses that RESUME names.
    pub resumed: Vec<u32>,
    visited: BTreeSet<(Space, u32)>,
}

/// Places that are looked at; a memory full of one-byte commands is not listed to its end as code.
const MOST: usize = 1_000_000;

/// In a program zeros are hardly ever meant as commands: HALT is the kernel's.
const HALT: u8 = 0;

/// Real addresses of a space: the map of its program, or the addresses themselves.
pub fn real(image: &Image, programs: &[Program], space: Space, address: u32) -> Option<u32> {
    match space {
        Space::Kernel => ((address as usize) < image.memory.len()).then_some(address),
        Space::Program(place) => {
            let program = programs.get(place)?;
            view::real(&image.memory, program.map_base, program.map_length, address).ok().map(|(real, _)| real)
        }
    }
}

/// The byte at an address of a space, fetched for a command.
pub fn fetched_byte(image: &Image, programs: &[Program], space: Space, address: u32) -> Result<u8, Trouble> {
    let real = match space {
        Space::Kernel => address,
        Space::Program(place) => {
            let program = programs.get(place).ok_or(Trouble::Unreadable(address))?;
            view::real_to_fetch(&image.memory, program.map_base, program.map_length, address)?
        }
    };
    view::byte(&image.memory, real).ok_or(Trouble::Unreadable(address))
}

impl Code {
    /// Follows the code of a space from an address on.
    pub fn follow(&mut self, image: &Image, programs: &[Program], ground: &mut Ground, space: Space, from: u32) {
        let mut waiting = vec![from];
        while let Some(address) = waiting.pop() {
            if self.visited.len() >= MOST || !self.visited.insert((space, address)) {
                continue;
            }
            let Some(start) = real(image, programs, space, address) else { continue };
            let decoded = match decode::of_fetched(&|at| fetched_byte(image, programs, space, at), address) {
                Ok(decoded) if space != Space::Kernel && decoded.command.byte == HALT => continue,
                Ok(decoded) => decoded,
                Err(trouble) => {
                    if ground.is_free(start) {
                        self.troubles.entry(start).or_insert(trouble);
                    }
                    continue;
                }
            };
            let last = real(image, programs, space, decoded.next().wrapping_sub(1));
            let whole = last == start.checked_add(decoded.bytes.len() as u32 - 1);
            let known = self.commands.contains_key(&start);
            if whole && !known && !ground.take(start, decoded.bytes.len() as u32, space == Space::Kernel) {
                continue;
            }
            self.refer(space, &decoded);
            waiting.extend(decoded.jump_target());
            if decoded.falls_through() {
                waiting.push(decoded.next());
            }
            if whole && !known {
                self.commands.insert(start, (space, decoded));
            }
        }
    }

    /// A place that is known to be code.
    pub fn refer_to_code(&mut self, space: Space, address: u32) {
        self.references.push(Reference { space, address, size: None });
    }

    /// Notes the places that the operands name.
    fn refer(&mut self, space: Space, decoded: &Decoded) {
        if decoded.command.name == "RESUME" {
            self.resumed.extend(decoded.fixed_address(0));
        }
        for (place, (fields, rule)) in decoded.operands.iter().zip(decoded.command.operands).enumerate() {
            let is_address = rule.role == Role::Address;
            let indexed = (forms::BASE..=forms::INDIRECT_INDEX).contains(&fields.form) && notation::is_base(fields);
            let base = (indexed && !is_address).then_some(fields.z);
            if let Some(address) = decoded.fixed_address(place).or(base) {
                let size = if is_address { None } else { Some(rule.size) };
                self.references.push(Reference { space, address, size });
            }
        }
    }
}
