//! What a run shall do: its limit, requests, where it ends, what is shown. Read from the options of `desk run`.

use crate::breakpoints::Breakpoints;
use crate::code;
use crate::diagnose::Finding;
use crate::machine::{Known, Machine};
use crate::options::{self, Given};
use crate::place::Place;
use crate::report::End;
use crate::words;
use midesk::Desk;

/// Steps that a run makes at most if nothing is said.
pub const LIMIT: u64 = 1_000_000_000;
/// Bytes that a dump shows if nothing is said.
pub const DUMP: u32 = 64;

/// What a run shall do.
#[derive(Clone, Debug)]
pub struct Plan {
    pub limit: u64,
    /// Step and level, earliest first.
    pub requests: Vec<(u64, u32)>,
    pub until: Option<Until>,
    pub breakpoints: Breakpoints,
    pub trace: bool,
    pub json: bool,
    /// Address and count of each dump.
    pub dumps: Vec<(u32, u32)>,
}

/// Where a run ends.
#[derive(Clone, PartialEq, Eq, Debug)]
pub enum Until {
    /// After a kernel entry, of this cause if one is named.
    Entry(Option<u32>),
    /// Before the command at a place.
    Place(Place),
}

impl Plan {
    pub fn of(given: &Given, machine: &Machine) -> Result<Plan, String> {
        let mut requests = given.values("--request").map(request).collect::<Result<Vec<_>, _>>()?;
        requests.sort();
        Ok(Plan {
            limit: given.count("--steps")?.unwrap_or(LIMIT),
            requests,
            until: given.value("--until").map(|text| until(text, &machine.known)).transpose()?,
            breakpoints: breakpoints(given, machine)?,
            trace: given.has("--trace"),
            json: given.has("--json"),
            dumps: given.values("--dump").map(|text| dump(text, machine)).collect::<Result<_, _>>()?,
        })
    }
}

fn request(text: &str) -> Result<(u64, u32), String> {
    let parts = text.split_once('@').and_then(|(level, step)| options::count(level).zip(options::count(step)));
    match parts {
        Some((level @ 1..=15, step @ 1..)) => Ok((step, level as u32)),
        Some((1..=15, 0)) => Err("--request counts steps from 1".to_string()),
        Some((level, _)) => Err(format!("--request has the level {level}, and levels are 1 to 15")),
        None => Err(format!("--request needs LEVEL@STEP, such as 5@20, and '{}' is none", options::shown(text))),
    }
}

/// `entry`, `entry:11`, an address or a name.
pub fn until(text: &str, known: &Known) -> Result<Until, String> {
    if text == "entry" {
        return Ok(Until::Entry(None));
    }
    if let Some(cause) = text.strip_prefix("entry:") {
        let number = options::count(cause).and_then(|number| u32::try_from(number).ok());
        let cause = number.filter(|number| words::causes().any(|cause| cause == *number));
        let cause =
            cause.ok_or_else(|| format!("'{}' names no cause: 1, 2, 8 to 15 or 17 to 31", options::shown(text)))?;
        return Ok(Until::Entry(Some(cause)));
    }
    Place::of(text, known).map(Until::Place).ok_or_else(|| {
        let address = known.address_words(text);
        format!("'{}' is neither `entry` nor an address: {address}", options::shown(text))
    })
}

/// The breakpoints of a fresh machine.
fn breakpoints(given: &Given, machine: &Machine) -> Result<Breakpoints, String> {
    let mut breakpoints = Breakpoints::default();
    if given.has("--break") {
        let code = code::known(machine);
        for text in given.values("--break") {
            let place = Place::of(text, &machine.known);
            let place = place.ok_or_else(|| format!("--break: {}", machine.known.no_address(text)))?;
            let doubt = place.doubt(machine, &code);
            breakpoints.set(place, doubt);
        }
    }
    Ok(breakpoints)
}

fn dump(text: &str, machine: &Machine) -> Result<(u32, u32), String> {
    let (from, count) = match text.split_once(',') {
        Some((from, count)) => (from, options::count(count).and_then(|count| u32::try_from(count).ok())),
        None => (text, Some(DUMP)),
    };
    let address = machine.known.real_address(&machine.memory, from);
    let count = count.ok_or_else(|| format!("--dump {}: the count is no number such as 80", options::shown(text)))?;
    let no_address = || format!("--dump {}: {}", options::shown(text), machine.known.no_address(from));
    Ok((address.ok_or_else(no_address)?, count))
}

impl Until {
    /// Why a run ended and was not held; none where it was.
    pub fn not_held(&self, known: &Known, end: &End, finding: Option<Finding>) -> Option<String> {
        let became = match (end, finding) {
            (End::Held(_) | End::Breakpoint(..) | End::Refused(_), _) => return None,
            (End::Stopped(16), Some(Finding::Cause(cause, _))) => Some(cause),
            _ => None,
        };
        Some(match (self, became) {
            (Until::Entry(None), Some(came)) => {
                format!("not held: no kernel entry came; {} came, but as stop 16", words::event(came))
            }
            (Until::Entry(Some(cause)), Some(came)) if *cause == came => {
                format!("not held: {} came, but as stop 16, and not as a kernel entry", words::event(came))
            }
            (Until::Entry(None), None) => "not held: no kernel entry came".to_string(),
            (Until::Entry(Some(cause)), _) => format!("not held: no kernel entry of cause {cause} came"),
            (Until::Place(place), _) => format!("not held: no step led to {}", place.words(known)),
        })
    }

    pub fn words(&self, known: &Known, desk: &Desk) -> String {
        match self {
            Until::Entry(None) => "at a kernel entry".to_string(),
            Until::Entry(Some(cause)) => format!("at a kernel entry of cause {cause}"),
            Until::Place(place) => place.before(known, desk),
        }
    }
}
