//! The loops that are measured: kinds and modes.

#[derive(Clone, Copy, PartialEq, Eq, Debug)]
pub enum Kind {
    Register,
    Memory,
    Small,
    Stack,
    Forms,
    Jumps,
    Three,
    Floats,
}

#[derive(Clone, Copy, PartialEq, Eq, Debug)]
pub enum Mode {
    Kernel,
    User,
}

/// A loop in a mode.
#[derive(Clone, Copy, PartialEq, Eq, Debug)]
pub struct Loop {
    pub kind: Kind,
    pub mode: Mode,
}

const KINDS: [Kind; 8] =
    [Kind::Register, Kind::Memory, Kind::Small, Kind::Stack, Kind::Forms, Kind::Jumps, Kind::Three, Kind::Floats];

/// The memory lengths of the table, in bytes.
pub const LENGTHS: [usize; 2] = [512 * 1024, 16 * 1024 * 1024];

/// All loops, in the order of the table.
pub fn all() -> impl Iterator<Item = Loop> {
    KINDS.into_iter().flat_map(|kind| [Mode::Kernel, Mode::User].map(|mode| Loop { kind, mode }))
}

impl Kind {
    /// As the table has it, and for the command line.
    fn names(self) -> (&'static str, &'static str) {
        match self {
            Kind::Register => ("register", "reg"),
            Kind::Memory => ("memory", "mem"),
            Kind::Small => ("B and H", "small"),
            Kind::Stack => ("stack", "stack"),
            Kind::Forms => ("forms", "forms"),
            Kind::Jumps => ("jumps", "jumps"),
            Kind::Three => ("three", "three"),
            Kind::Floats => ("floats", "floats"),
        }
    }

    pub fn title(self) -> &'static str {
        self.names().0
    }
}

impl Mode {
    pub fn name(self) -> &'static str {
        match self {
            Mode::Kernel => "kernel",
            Mode::User => "user",
        }
    }
}

impl Loop {
    pub fn name(self) -> String {
        format!("{}-{}", self.kind.names().1, self.mode.name())
    }

    /// The loops of these names, with commas between; a name without a mode is that of both.
    pub fn named(names: &str) -> Option<Vec<Loop>> {
        let one = |name: &str| {
            let named: Vec<Loop> = all().filter(|l| l.name() == name || l.kind.names().1 == name).collect();
            (!named.is_empty()).then_some(named)
        };
        Some(names.split(',').map(one).collect::<Option<Vec<_>>>()?.concat())
    }

    /// The memories that it is measured in.
    pub fn lengths(self) -> &'static [usize] {
        match self.kind {
            Kind::Register | Kind::Memory => &LENGTHS,
            _ => &LENGTHS[..1],
        }
    }

    pub fn commands_per_turn(self) -> u64 {
        match self.kind {
            Kind::Register => 4,
            Kind::Memory => 5,
            Kind::Forms => 6,
            Kind::Stack => 7,
            Kind::Small => 8,
            Kind::Three => 9,
            Kind::Jumps | Kind::Floats => 10,
        }
    }

    /// The steps of a whole run: the turns, HALT, and in user mode the kernel's HALT.
    pub fn steps(self, turns: u32) -> u64 {
        let end = if self.mode == Mode::User { 2 } else { 1 };
        self.commands_per_turn() * u64::from(turns) + end
    }
}

#[test]
fn names() {
    for which in all() {
        assert_eq!(Loop::named(&which.name()), Some(vec![which]));
        assert_eq!(Loop::named(which.kind.names().1).map(|named| named.len()), Some(2));
    }
    let names = all().map(|which| which.name()).collect::<Vec<_>>();
    assert_eq!(Loop::named(&names.join(",")), Some(all().collect()));
    for wrong in ["", "reg-user,", "reg-user,no", "reg user"] {
        assert_eq!(Loop::named(wrong), None);
    }
}
