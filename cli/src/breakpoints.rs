//! Breakpoints: an armed one holds a run before the command at its place.

use crate::machine::{self, Known};
use crate::place::Place;
use crate::report::End;
use midesk::Desk;

/// A breakpoint.
#[derive(Clone, Debug)]
pub struct Breakpoint {
    /// From 1 on.
    pub number: u32,
    pub place: Place,
    pub armed: bool,
    /// Why there may be no command at the place.
    pub doubt: Option<&'static str>,
}

impl Breakpoint {
    /// `breakpoint 1: the kernel's command at loop (214h)`.
    pub fn words(&self, known: &Known) -> String {
        let doubt = self.doubt.map(|words| format!("; {words}")).unwrap_or_default();
        format!("breakpoint {}: {}{doubt}", self.number, self.place.words(known))
    }

    /// The end of a run that it holds.
    pub fn end(&self, known: &Known, desk: &Desk) -> End {
        End::Breakpoint(self.number, self.place.before(known, desk))
    }
}

/// Breakpoints, lowest number first.
#[derive(Clone, Debug, Default)]
pub struct Breakpoints {
    list: Vec<Breakpoint>,
    /// The last number that was given; that of a deleted one is not given again (document 000, 5.2.1).
    last: u32,
}

impl Breakpoints {
    /// Sets one, armed.
    pub fn set(&mut self, place: Place, doubt: Option<&'static str>) -> Breakpoint {
        self.last += 1;
        let breakpoint = Breakpoint { number: self.last, place, armed: true, doubt };
        self.list.push(breakpoint.clone());
        breakpoint
    }

    /// Deletes the one of a number.
    pub fn delete(&mut self, number: u32) {
        self.list.retain(|breakpoint| breakpoint.number != number);
    }

    /// Arms the one of a number, or switches it off.
    pub fn arm(&mut self, number: u32, armed: bool) {
        for breakpoint in self.list.iter_mut().filter(|breakpoint| breakpoint.number == number) {
            breakpoint.armed = armed;
        }
    }

    pub fn iter(&self) -> std::slice::Iter<'_, Breakpoint> {
        self.list.iter()
    }

    pub fn len(&self) -> usize {
        self.list.len()
    }

    pub fn is_empty(&self) -> bool {
        self.list.is_empty()
    }

    /// The first that holds the desk before its next step; none where that is an interrupt.
    pub fn holding(&self, desk: &Desk) -> Option<&Breakpoint> {
        let holds = |breakpoint: &&Breakpoint| breakpoint.armed && breakpoint.place.is_at(desk);
        self.list.iter().find(holds).filter(|_| machine::due(desk).is_none())
    }

    /// As the library takes them. It compares R15 alone, and so may be held in another mode or program than a name's.
    pub fn of_library(&self) -> Vec<midesk::Breakpoint> {
        let of_library = |point: &Breakpoint| midesk::Breakpoint { r15: point.place.address, armed: point.armed };
        self.list.iter().map(of_library).collect()
    }

    /// Why a run ended and was not held; nothing where it was. `end` is that of a run from the start.
    pub fn not_held(&self, known: &Known, end: &End) -> Vec<String> {
        if self.list.is_empty() || !matches!(end, End::Stopped(_) | End::Limit) {
            return Vec::new();
        }
        let doubtful = self.list.iter().filter(|breakpoint| breakpoint.doubt.is_some());
        let none = "not held: no command that ran after the first one had a breakpoint".to_string();
        std::iter::once(none).chain(doubtful.map(|breakpoint| breakpoint.words(known))).collect()
    }
}
