//! Places in the code: where --until and --break, and the prompt's words for them, hold a run.

use crate::code;
use crate::effect;
use crate::machine::{self, Known, Machine};
use crate::names::Names;
use crate::notation::hexadecimal;
use crate::options;
use midesk::Desk;
use std::collections::BTreeSet;

/// A value of R15; of a name also in which mode, and in user mode with which control block.
#[derive(Clone, PartialEq, Eq, Debug)]
pub struct Place {
    pub address: u32,
    pub mode: Option<Mode>,
}

#[derive(Clone, Copy, PartialEq, Eq, Debug)]
pub enum Mode {
    Kernel,
    User { control_block: u32 },
}

impl Place {
    /// A name of the kernel's, else of a program's, else a number.
    pub fn of(text: &str, known: &Known) -> Option<Place> {
        if let Some(address) = options::address(text, &Names::none()) {
            if known.real.address_of(text).is_none() {
                return Some(Place { address, mode: None });
            }
        }
        if let Some(address) = options::address(text, &known.real) {
            return Some(Place { address, mode: Some(Mode::Kernel) });
        }
        known.programs.iter().find_map(|program| {
            let address = options::address(text, &program.names)?;
            Some(Place { address, mode: Some(Mode::User { control_block: program.control_block }) })
        })
    }

    /// `the command at loop (20Dh) of program A`.
    pub fn words(&self, known: &Known) -> String {
        let of = |block: u32| known.programs.iter().find(|program| program.control_block == block);
        match self.mode {
            None => format!("the command at {}", hexadecimal(self.address)),
            Some(Mode::Kernel) => format!("the kernel's command at {}", known.real_place(self.address)),
            Some(Mode::User { control_block }) => match of(control_block) {
                Some(program) => {
                    let at = machine::place(&program.names, self.address);
                    format!("the command at {at} of program {}", program.name)
                }
                None => format!("the command at {}", hexadecimal(self.address)),
            },
        }
    }

    /// Where a desk is that is held at the place: `before the command at loop (20Dh)`.
    pub fn before(&self, known: &Known, desk: &Desk) -> String {
        match known.names(desk).name_of(self.address) {
            Some(name) => format!("before the command at {name} ({})", hexadecimal(self.address)),
            None => format!("before the command at {}", hexadecimal(self.address)),
        }
    }

    pub fn is_at(&self, desk: &Desk) -> bool {
        let mode = match self.mode {
            None => true,
            Some(Mode::Kernel) => desk.is_kernel(),
            Some(Mode::User { control_block }) => !desk.is_kernel() && desk.control_block() == control_block,
        };
        mode && desk.register(15) == self.address
    }

    /// Why there may be no command; none where one is known to begin. `code` has the real addresses of commands.
    pub fn doubt(&self, machine: &Machine, code: &BTreeSet<u32>) -> Option<&'static str> {
        let desks = self.desks(machine);
        let mut reals = desks.iter().filter_map(|desk| effect::real(desk, &machine.memory, self.address)).peekable();
        match (reals.peek(), self.mode) {
            (None, None) => Some("it is past the memory, and in no map"),
            (None, Some(Mode::Kernel)) => Some("it is past the memory"),
            (None, Some(Mode::User { .. })) => Some("the program's map has no page there"),
            _ => (!reals.any(|real| code.contains(&real))).then_some("no command is known to begin there"),
        }
    }

    /// The desk in each mode that the place can be of.
    fn desks(&self, machine: &Machine) -> Vec<Desk> {
        let kernel = self.mode.is_none_or(|mode| mode == Mode::Kernel).then(|| code::in_kernel(&machine.desk));
        let programs =
            machine.known.programs.iter().filter(|program| {
                self.mode.is_none_or(|mode| mode == Mode::User { control_block: program.control_block })
            });
        kernel.into_iter().chain(programs.map(|program| code::in_program(&machine.desk, program))).collect()
    }
}
