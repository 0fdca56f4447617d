//! The lists of breakpoints that the loops are measured with. None of them holds a run of a loop.

use crate::layout::PROGRAM;
use crate::loops::Kind;
use crate::programs::addresses;
use midesk::numbers::MAX_BREAKPOINTS;
use midesk::Breakpoint;

#[derive(Clone, Copy, PartialEq, Eq, Debug)]
pub enum Breakpoints {
    /// An empty list.
    Empty,
    /// As many as a list may have, at the loop's commands, all off.
    Off,
    /// One, at an address that no command of the loop equals modulo 64.
    One,
    /// One, at an address that the loop's first command equals modulo 64.
    Near,
    /// As many as a list may have, all residues modulo 64 among their addresses.
    Full,
}

pub const ALL: [Breakpoints; 5] =
    [Breakpoints::Empty, Breakpoints::Off, Breakpoints::One, Breakpoints::Near, Breakpoints::Full];

/// The proved desk compares R15 with the breakpoints only where one of them is equal to it modulo this number.
pub const MODULUS: u32 = 64;

/// From here on no loop has a command. A multiple of the modulus, between the program and the map.
const ELSEWHERE: u32 = 0x1_0000;
/// The distance of the addresses of `Full`, by which each has another residue.
const DISTANCE: u32 = 9 * MODULUS + 1;

fn armed(r15: u32) -> Breakpoint {
    Breakpoint { r15, armed: true }
}

impl Breakpoints {
    pub fn name(self) -> &'static str {
        match self {
            Breakpoints::Empty => "none",
            Breakpoints::Off => "off",
            Breakpoints::One => "one",
            Breakpoints::Near => "near",
            Breakpoints::Full => "64",
        }
    }

    /// The heading of its column beside plain Rust, if it has one.
    pub fn beside_plain(self) -> Option<&'static str> {
        match self {
            Breakpoints::One => Some("one/plain"),
            Breakpoints::Full => Some("64/plain"),
            _ => None,
        }
    }

    /// The lists that are named: one, or all.
    pub fn named(name: &str) -> Option<Vec<Breakpoints>> {
        if name == "all" {
            return Some(ALL.to_vec());
        }
        ALL.into_iter().find(|list| list.name() == name).map(|list| vec![list])
    }

    /// The list for a loop.
    pub fn points(self, kind: Kind) -> Vec<Breakpoint> {
        let commands = addresses(kind, PROGRAM);
        let free = |residue: &u32| commands.iter().all(|address| address % MODULUS != *residue);
        match self {
            Breakpoints::Empty => vec![],
            Breakpoints::Off => {
                let addresses = commands.iter().cycle().take(MAX_BREAKPOINTS);
                addresses.map(|address| Breakpoint { r15: *address, armed: false }).collect()
            }
            Breakpoints::One => {
                let residue = (0..MODULUS).find(free).expect("a loop has fewer commands than there are residues");
                vec![armed(ELSEWHERE + residue)]
            }
            Breakpoints::Near => vec![armed(ELSEWHERE + commands[0] % MODULUS)],
            Breakpoints::Full => (0..MAX_BREAKPOINTS as u32).map(|i| armed(ELSEWHERE + DISTANCE * i)).collect(),
        }
    }
}
