//! The labels of a listing, and the names that commands use for them.

use super::follow::{self, Code, Space};
use super::ground::Ground;
use crate::asm;
use crate::floats;
use crate::image::{Image, Program};
use crate::names::Names;
use crate::notation;
use crate::table::Size;
use crate::view;
use std::collections::{BTreeMap, BTreeSet};

#[derive(Default)]
pub struct Labels {
    /// By real address.
    at: BTreeMap<u32, Vec<String>>,
    /// The size with which a command uses a place, by real address.
    pub sizes: BTreeMap<u32, Size>,
    used: BTreeSet<String>,
    pub kernel: Names,
    pub programs: Vec<Names>,
    pub none: Names,
}

/// What labels are made from.
pub struct Sources<'a> {
    pub image: &'a Image,
    pub programs: &'a [Program],
    pub ground: &'a Ground,
    pub code: &'a Code,
    /// Control blocks and maps that the listing writes as such.
    pub blocks: &'a BTreeMap<u32, BlockName>,
}

/// The name of a block where it has none, and whether it is a control block, whose fields have names too.
pub struct BlockName {
    pub name: String,
    pub is_control: bool,
}

impl Labels {
    pub fn new(sources: &Sources) -> Labels {
        let mut labels = Labels::default();
        labels.of_source(sources);
        for (real, block) in sources.blocks {
            if labels.of(*real).is_empty() {
                labels.add(*real, &block.name);
            }
        }
        labels.of_references(sources);
        labels.name_spaces(sources);
        labels
    }

    pub fn of(&self, real: u32) -> &[String] {
        self.at.get(&real).map_or(&[], Vec::as_slice)
    }

    /// The first label behind an address.
    pub fn after(&self, real: u32) -> Option<u32> {
        self.at.range(real.checked_add(1)?..).next().map(|(at, _)| *at)
    }

    fn add(&mut self, real: u32, name: &str) {
        let is_written = |n: u64, name: &str| match u32::try_from(n) {
            Ok(n) => notation::hexadecimal(n) == name,
            Err(_) => floats::digits(n, Size::D) == name,
        };
        let is_written_number = |name: &str| notation::long(name).is_some_and(|n| is_written(n, name));
        let clashes = |name: &str| asm::is_reserved(name) || is_written_number(name);
        let mut unique = name.to_string();
        let mut number = 2;
        while clashes(&unique) || self.used.contains(&unique) {
            unique = format!("{name}_{number}");
            number += 1;
        }
        self.used.insert(unique.clone());
        self.at.entry(real).or_default().push(unique);
    }

    /// The names that the image brings. A field of a block has its name from the block.
    fn of_source(&mut self, sources: &Sources) {
        self.sizes.extend(sources.image.lines.iter().filter_map(|line| Some((line.address, line.size?))));
        let plain = |(name, _): &(&str, u32)| !name.contains('.');
        for (name, real) in sources.image.names.iter().filter(plain) {
            if sources.ground.is_boundary(real) && sources.ground.shown(real).is_none() {
                self.add(real, name);
            }
        }
        let mut seen = BTreeSet::new();
        for (place, program) in sources.programs.iter().enumerate() {
            for (name, address) in program.names.iter().filter(plain) {
                let Some(real) = follow::real(sources.image, sources.programs, Space::Program(place), address) else {
                    continue;
                };
                let fits = sources.ground.shift(real).map(|shift| real.wrapping_add(shift)) == Some(address);
                if fits && sources.ground.is_boundary(real) && seen.insert((name.to_string(), real)) {
                    self.add(real, name);
                }
            }
        }
    }

    fn of_references(&mut self, sources: &Sources) {
        for reference in &sources.code.references {
            let Some(real) = follow::real(sources.image, sources.programs, reference.space, reference.address) else {
                continue;
            };
            let shift = sources.ground.shift(real);
            let same_space = shift.is_some() == (reference.space != Space::Kernel);
            if !same_space || real.wrapping_add(shift.unwrap_or(0)) != reference.address {
                continue;
            }
            if let Some(size) = reference.size {
                self.sizes.entry(real).or_insert(size);
            }
            if sources.ground.is_boundary(real) && self.of(real).is_empty() {
                let code = sources.code;
                let is_code = code.commands.contains_key(&real) || code.troubles.contains_key(&real);
                self.add(real, &made(reference.space, sources.programs, reference.address, is_code));
            }
        }
    }

    /// The names as each space uses them.
    fn name_spaces(&mut self, sources: &Sources) {
        self.programs = vec![Names::none(); sources.programs.len()];
        for (real, names) in &self.at {
            for name in names {
                match sources.ground.shift(*real) {
                    None => {
                        self.kernel.add(name, *real);
                        if sources.blocks.get(real).is_some_and(|block| block.is_control) {
                            for (field, offset) in asm::fields::FIELDS {
                                self.kernel.add(&format!("{name}.{field}"), real + offset);
                            }
                        }
                    }
                    Some(shift) => {
                        let address = real.wrapping_add(shift);
                        for (program, names) in sources.programs.iter().zip(&mut self.programs) {
                            let memory = &sources.image.memory;
                            let leads = view::real(memory, program.map_base, program.map_length, address);
                            if leads.is_ok_and(|(there, _)| there == *real) {
                                names.add(name, address);
                            }
                        }
                    }
                }
            }
        }
    }
}

/// L20D for the kernel's code, D400 for its data, blockA_28 for places of program blockA.
fn made(space: Space, programs: &[Program], address: u32, is_code: bool) -> String {
    match space {
        Space::Kernel if is_code => format!("L{address:X}"),
        Space::Kernel => format!("D{address:X}"),
        Space::Program(place) => {
            let program = programs.get(place).map_or("P", |program| program.name.as_str());
            let plain: String = program.chars().filter(|c| c.is_ascii_alphanumeric()).collect();
            format!("{plain}_{address:X}")
        }
    }
}
