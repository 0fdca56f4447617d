//! `desk picture FILE`: the memory as SVG. Frames are rows, programs are columns; a cell is a page of the program.

mod draw;
mod foot;
mod frames;
mod rows;
mod svg;

use crate::atlas::Atlas;
use crate::machine::Machine;
use crate::map;
use crate::options;
use crate::output;
use crate::setup;
use std::path::Path;

/// `desk picture FILE [OPTION]..`.
pub fn main(arguments: &[String]) -> u8 {
    let (fresh, machine, given) = match map::before_and_after("picture", arguments) {
        Ok(all) => all,
        Err(status) => return status,
    };
    let files = setup::files(&given);
    let names: Vec<String> = files.iter().map(|file| name(file)).collect();
    let picture = of(&machine, &fresh, &options::shown(&names.join(" with ")));
    match given.value("--output") {
        None => match output::out(&picture) {
            true => 0,
            false => output::CANNOT_WRITE,
        },
        Some(path) => output::write(&files, path, picture.as_bytes()),
    }
}

fn name(file: &str) -> String {
    let name = Path::new(file).file_name().map(|name| name.to_string_lossy().into_owned());
    name.unwrap_or_else(|| file.to_string())
}

/// The picture of a machine's memory.
pub fn of(machine: &Machine, fresh: &Machine, title: &str) -> String {
    draw::picture(machine, fresh, &Atlas::of(machine, fresh), title)
}
