//! The ways to load a list, or two lists, that are compared, behind one call each.

use crate::plain;

#[derive(Clone, Copy, PartialEq, Eq, Debug)]
pub enum Loader {
    Proved,
    Plain,
}

pub const LOADERS: [Loader; 2] = [Loader::Proved, Loader::Plain];

impl Loader {
    pub const fn name(self) -> &'static str {
        match self {
            Loader::Proved => "proved",
            Loader::Plain => "plain",
        }
    }

    pub fn named(name: &str) -> Option<Loader> {
        LOADERS.into_iter().find(|loader| loader.name() == name)
    }

    /// Loads a list, or gives the number of the refusal.
    pub fn load(self, memory: &mut [u8], list: &[u8]) -> Result<(), u32> {
        match self {
            Loader::Proved => midesk::load(memory, list).map_err(|refusal| refusal.number()),
            Loader::Plain => plain::load(memory, list),
        }
    }

    /// Loads two lists, or gives the number of the refusal.
    pub fn load_both(self, memory: &mut [u8], first: &[u8], second: &[u8], scratch: &mut [u8]) -> Result<(), u32> {
        match self {
            Loader::Proved => midesk::load_both(memory, first, second, scratch).map_err(|refusal| refusal.number()),
            Loader::Plain => plain::load_both(memory, first, second, scratch),
        }
    }
}
