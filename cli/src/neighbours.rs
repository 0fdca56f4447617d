//! Where an address that met an alarm lies to the pages that could have been used there.

use crate::access;
use crate::access::{Access, Step};
use crate::lists;
use crate::machine::Known;
use crate::notation::{self, hexadecimal};
use crate::view::{self, Rights};
use midesk::{numbers, Desk};

/// An address that is so many bytes past a page or before one has probably run out of it.
const NEAR: u32 = 64;
/// Runs of pages that are listed.
const MOST: usize = 4;
/// Pages that are looked at.
const MOST_PAGES: u32 = 65_536;

/// What an address is: what gave it, and where it lies to the pages that the cause asks for.
pub fn address(known: &Known, memory: &[u8], desk: &Desk, cause: u32, address: u32) -> Option<String> {
    let access = access::to(desk, memory, known.names(desk), address, cause == numbers::READ_ONLY);
    let lies = (!desk.is_kernel()).then(|| place(memory, desk, cause, address, access.as_ref())).flatten();
    match (access, lies) {
        (Some(access), Some(lies)) => Some(format!("{}; {lies}", given(&access, address))),
        // The command itself shows it.
        (Some(access), None) if access.fixed && access.address == address => None,
        (Some(access), None) => Some(given(&access, address)),
        (None, lies) => lies.map(|lies| format!("{}: {lies}", hexadecimal(address))),
    }
}

/// What gave an address.
fn given(access: &Access, address: u32) -> String {
    let shown = hexadecimal(address);
    match access.address == address {
        true if access.fixed => format!("{shown} is {}", access.words),
        true => format!("{shown} is from {}", access.words),
        false => {
            let (at, length) = (hexadecimal(access.address), access.length);
            format!("{shown} is one of the {length} bytes from {at} on, of {}", access.words)
        }
    }
}

/// The pages of a desk's map that a cause asks for.
struct Pages<'a> {
    memory: &'a [u8],
    desk: &'a Desk,
    wanted: Wanted,
}

/// What a page is wanted for.
#[derive(Clone, Copy, PartialEq, Eq)]
enum Wanted {
    Reading,
    Writing,
    Fetching,
}

impl Wanted {
    fn of(cause: u32) -> Wanted {
        match cause {
            numbers::READ_ONLY => Wanted::Writing,
            numbers::NO_FETCH => Wanted::Fetching,
            _ => Wanted::Reading,
        }
    }

    /// So many bytes past a page or before one are near it. Commands that run out of a page do so at its end.
    fn near(self) -> u32 {
        match self {
            Wanted::Reading | Wanted::Writing => NEAR,
            Wanted::Fetching => 1,
        }
    }

    fn allowed(self, rights: Rights) -> bool {
        match self {
            Wanted::Reading => true,
            Wanted::Writing => rights.write,
            Wanted::Fetching => rights.fetch,
        }
    }
}

impl Pages<'_> {
    fn fits(&self, page: u32) -> bool {
        let (base, length) = (self.desk.map_base(), self.desk.map_length());
        let Some(address) = page.checked_mul(512) else { return false };
        view::real(self.memory, base, length, address).is_ok_and(|(_, rights)| self.wanted.allowed(rights))
    }

    fn may(&self) -> &'static str {
        match self.wanted {
            Wanted::Reading => "which is there",
            Wanted::Writing => "which may be written",
            Wanted::Fetching => "which may be run",
        }
    }

    /// `page 1 (200h to 3FFh) and pages 4 to 6 (800h to DFFh)`.
    fn listed(&self) -> String {
        let mut runs: Vec<(u32, u32)> = Vec::new();
        for page in (0..self.desk.map_length().min(MOST_PAGES)).filter(|page| self.fits(*page)) {
            match runs.last_mut() {
                Some((_, last)) if *last + 1 == page => *last = page,
                _ => runs.push((page, page)),
            }
        }
        let more = runs.len().saturating_sub(MOST);
        let mut words: Vec<String> =
            runs.iter().take(MOST).map(|(first, last)| with_addresses(*first, *last)).collect();
        words.extend((more > 0).then(|| format!("{more} runs of pages more")));
        lists::and(&words)
    }
}

/// `page 2 (400h to 5FFh)`.
fn with_addresses(first: u32, last: u32) -> String {
    let addresses = format!("({} to {})", hexadecimal(first * 512), hexadecimal(last * 512 + 511));
    match first == last {
        true => format!("page {first} {addresses}"),
        false => format!("pages {first} to {last} {addresses}"),
    }
}

fn place(memory: &[u8], desk: &Desk, cause: u32, address: u32, access: Option<&Access>) -> Option<String> {
    let pages = Pages { memory, desk, wanted: Wanted::of(cause) };
    let down = access.is_some_and(|access| access.steps == Some(Step::Down));
    let near = match down {
        true => before(&pages, address, access).or_else(|| after(&pages, address, access)),
        false => after(&pages, address, access).or_else(|| before(&pages, address, access)),
    };
    let be = match pages.wanted {
        Wanted::Reading => return near,
        Wanted::Writing => "written",
        Wanted::Fetching => "run",
    };
    near.or_else(|| match pages.listed() {
        listed if listed.is_empty() => Some(format!("no page may be {be}")),
        listed => Some(format!("only {listed} may be {be}")),
    })
}

/// The address lies just past a page.
fn after(pages: &Pages, address: u32, access: Option<&Access>) -> Option<String> {
    let page = (address / 512).checked_sub(1).filter(|page| pages.fits(*page))?;
    let distance = address % 512;
    if distance >= pages.wanted.near() {
        return None;
    }
    let where_ = match distance {
        0 => "it is the first byte after".to_string(),
        _ => format!("it is {} bytes past the end of", distance + 1),
    };
    let ran = register(access, Step::Up).map(|name| format!("; {name} past its end")).unwrap_or_default();
    Some(format!("{where_} {}, {}{ran}", with_addresses(page, page), pages.may()))
}

/// The address lies just before a page.
fn before(pages: &Pages, address: u32, access: Option<&Access>) -> Option<String> {
    let page = (address / 512).checked_add(1).filter(|page| pages.fits(*page))?;
    let distance = 512 - address % 512;
    if distance > pages.wanted.near() {
        return None;
    }
    let where_ = match distance {
        1 => "it is the last byte before".to_string(),
        _ => format!("it is {distance} bytes before the start of"),
    };
    let ran = register(access, Step::Down).map(|name| format!("; {name} before its start")).unwrap_or_default();
    Some(format!("{where_} {}, {}{ran}", with_addresses(page, page), pages.may()))
}

/// `R1, which the command steps up, is`: the register that alone gave the address, unless it steps the other way.
fn register(access: Option<&Access>, way: Step) -> Option<String> {
    let access = access?;
    let name = notation::register(access.register.filter(|register| *register != 15)?);
    match access.steps {
        Some(step) if step != way => None,
        Some(Step::Up) => Some(format!("{name}, which the command steps up, is")),
        Some(Step::Down) => Some(format!("{name}, which the command steps down, goes")),
        None => Some(format!("{name} is")),
    }
}
