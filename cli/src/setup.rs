//! From a file and options to a desk: what `run`, `debug`, `map` and `picture` share.

use crate::image::{self, Image};
use crate::load;
use crate::machine::Machine;
use crate::options::{self, Given};
use crate::{output, words};
use midesk::Refusal;
use std::path::Path;

/// The exit status of a refusal: 32 + its number.
pub fn refusal_status(refusal: Refusal) -> u8 {
    32 + refusal.number() as u8
}

/// The file that a verb is given.
pub fn file(given: &Given) -> &str {
    given.operands.first().map_or("", String::as_str)
}

/// It and, with --with, the second one.
pub fn files(given: &Given) -> Vec<&str> {
    std::iter::once(file(given)).chain(given.value("--with")).collect()
}

/// The second list that --with names: it and the file must be load lists by their names.
fn second(given: &Given) -> Result<Option<&Path>, String> {
    let Some(second) = given.value("--with") else { return Ok(None) };
    match files(given).into_iter().find(|file| image::ending(Path::new(file)) != load::ENDING) {
        None => Ok(Some(Path::new(second))),
        Some(other) => {
            let other = options::clean(other);
            Err(format!("--with takes load lists, and '{other}' is none: its name does not end in .{}", load::ENDING))
        }
    }
}

/// The image of the file, with memory, blocks and start as the options say; else the exit status, after a sentence.
pub fn image(verb: &str, given: &Given) -> Result<Image, u8> {
    let usage = |sentence: String| options::usage(verb, &sentence);
    let length = memory_length(given).map_err(usage)?;
    let second = second(given).map_err(usage)?;
    let read = image::load_into(Path::new(file(given)), second, length);
    let mut image = read.map_err(|complaints| output::complain(&complaints))?;
    output::warn(&image.warnings);
    apply(&mut image, given, length).map_err(usage)?;
    if let Some(words) = doubtful_start(&image).filter(|_| given.has("--start")) {
        output::err(&format!("desk {verb}: warning: {words}\n"));
    }
    if ["--memory", "--system", "--control", "--start"].iter().any(|option| given.has(option)) {
        image.make_names();
    }
    Ok(image)
}

/// What is said of a start where no program can be.
fn doubtful_start(image: &Image) -> Option<String> {
    let start = image.start;
    match image.memory.get(start as usize..) {
        None | Some([]) => {
            Some(format!("the start, {start:X}h, is past the memory of {:X}h bytes", image.memory.len()))
        }
        Some(from) if from.iter().take(16).all(|byte| *byte == 0) => {
            Some(format!("at the start, {start:X}h, are only zeros, which are HALTs"))
        }
        Some(_) => None,
    }
}

/// A fresh desk over the image of the file; else the exit status, after a sentence.
pub fn machine(verb: &str, given: &Given) -> Result<Machine, u8> {
    let image = image(verb, given)?;
    let (length, system, control) = (image.memory.len(), image.system, image.control);
    Machine::fresh(image).map_err(|refusal| {
        let what = match refusal {
            Refusal::Length => words::memory_length(length),
            Refusal::SystemBlock => format!("it is at {system:X}h with 256 bytes, the memory has {length:X}h"),
            _ => format!("it is at {control:X}h with 80 bytes, the memory has {length:X}h"),
        };
        refused(verb, refusal, &what)
    })
}

/// Tells a refusal and what it is about, and gives the exit status.
pub fn refused(verb: &str, refusal: Refusal, what: &str) -> u8 {
    output::err(&format!("desk {verb}: refusal {}: {refusal} ({what})\n", refusal.number()));
    refusal_status(refusal)
}

/// The length that --memory gives.
pub fn memory_length(given: &Given) -> Result<Option<usize>, String> {
    let Some(bytes) = given.count("--memory")? else { return Ok(None) };
    let length = usize::try_from(bytes).ok().filter(|length| *length <= image::LARGEST);
    length.map(Some).ok_or_else(|| format!("--memory can be at most {}", image::LARGEST))
}

fn apply(image: &mut Image, given: &Given, length: Option<usize>) -> Result<(), String> {
    let names = image.names.clone();
    if let Some(length) = length {
        if length < image.memory.len() {
            return Err(format!("--memory {length} is less than the {} bytes of the file", image.memory.len()));
        }
        image.memory.resize(length, 0);
    }
    image.system = given.address("--system", &names)?.unwrap_or(image.system);
    image.control = given.address("--control", &names)?.unwrap_or(image.control);
    image.start = given.address("--start", &names)?.unwrap_or(image.start);
    Ok(())
}
