//! `desk map FILE`: each program's map as a table in words.

use crate::atlas::{Atlas, Mapped, Page};
use crate::blocks::{self, Thing};
use crate::hints;
use crate::lists;
use crate::machine::Machine;
use crate::notation::hexadecimal;
use crate::options;
use crate::output;
use crate::setup;
use crate::view::Damage;
use crate::words;

/// Rows of one table; a map with more of them is cut.
const MOST_ROWS: usize = 1000;

/// `desk map FILE [OPTION]..`.
pub fn main(arguments: &[String]) -> u8 {
    let (fresh, machine) = match before_and_after("map", arguments) {
        Ok((fresh, machine, _)) => (fresh, machine),
        Err(status) => return status,
    };
    match output::out(&joined(&lines(&machine, &Atlas::of(&machine, &fresh)))) {
        true => 0,
        false => output::CANNOT_WRITE,
    }
}

/// The fresh machine, and the one after the steps that the options ask for.
pub fn before_and_after(verb: &str, arguments: &[String]) -> Result<(Machine, Machine, options::Given), u8> {
    let given = options::take(verb, arguments)?;
    let fresh = setup::machine(verb, &given)?;
    let steps = given.count("--steps").map_err(|sentence| options::usage(verb, &sentence))?.unwrap_or(0);
    let mut machine = fresh.clone();
    machine.steps = machine.desk.run(&mut machine.memory, steps).unwrap_or(0);
    Ok((fresh, machine, given))
}

pub fn joined(lines: &[String]) -> String {
    lines.iter().map(|line| format!("{}\n", line.trim_end())).collect()
}

/// All that `desk map` says.
pub fn lines(machine: &Machine, atlas: &Atlas) -> Vec<String> {
    let mut lines = vec![format!(
        "memory: {} bytes, {} frames{}",
        words::count(machine.memory.len() as u64),
        words::count(u64::from(atlas.frames)),
        if machine.steps > 0 { format!(", after {}", words::steps(machine.steps)) } else { String::new() }
    )];
    if atlas.programs.is_empty() {
        lines.extend([String::new(), "no programs: no RESUME of a control block was met".to_string()]);
    }
    for place in 0..atlas.programs.len() {
        lines.push(String::new());
        lines.extend(program(machine, atlas, place));
    }
    lines.push(String::new());
    lines.extend(blocks::entries(&machine.known, &machine.memory, machine.desk.system_block()));
    lines
}

/// The map of a program.
pub fn program(machine: &Machine, atlas: &Atlas, place: usize) -> Vec<String> {
    let Some(program) = atlas.programs.get(place) else { return Vec::new() };
    let known = &machine.known;
    let mut lines = vec![format!(
        "program {}: control block {}, {} with {}",
        program.name,
        known.real_place(program.control_block),
        hints::map_name(known, program.map_base),
        hints::pages(program.map_length)
    )];
    let rows = rows(machine, atlas, program);
    lines.extend(table(&rows));
    lines.push(format!("  {}", behind(program)));
    lines
}

/// What comes behind the last page.
fn behind(program: &Mapped) -> String {
    match u32::try_from(u64::from(program.map_length) * 512) {
        Ok(end) if program.pages.len() as u64 == u64::from(program.map_length) => {
            format!("from {} on: past the map, alarm 8", hexadecimal(end))
        }
        _ => "more entries are not shown: they are too many, or not in the memory".to_string(),
    }
}

/// A row: pages, addresses, frames, real addresses, rights, remarks.
type Row = [String; 6];

fn table(rows: &[Row]) -> Vec<String> {
    let head = ["page", "addresses", "frame", "real addresses", "may", "remarks"].map(str::to_string);
    let all: Vec<&Row> = std::iter::once(&head).chain(rows.iter().take(MOST_ROWS)).collect();
    let widths: Vec<usize> = (0..6).map(|i| all.iter().map(|row| row[i].len()).max().unwrap_or(0)).collect();
    let line = |row: &&Row| {
        let cells: Vec<String> = row.iter().zip(&widths).map(|(cell, width)| format!("{cell:width$}")).collect();
        format!("  {}", cells.join("  "))
    };
    let mut lines: Vec<String> = all.iter().map(line).collect();
    lines.extend((rows.len() > MOST_ROWS).then(|| format!("  and {} rows more", rows.len() - MOST_ROWS)));
    lines
}

/// The pages as rows; neighbours that say the same are one row.
fn rows(machine: &Machine, atlas: &Atlas, program: &Mapped) -> Vec<Row> {
    let things = blocks::things(machine, atlas);
    let mut rows = Vec::new();
    let mut run: Option<(&Page, &Page, String)> = None;
    for page in &program.pages {
        let remark = remark(atlas, &things, program, page);
        run = match run {
            Some((first, last, same)) if follows(last, page) && same == remark => Some((first, page, same)),
            before => {
                rows.extend(before.map(|(first, last, remark)| row(first, last, remark)));
                Some((page, page, remark))
            }
        };
    }
    rows.extend(run.map(|(first, last, remark)| row(first, last, remark)));
    rows
}

/// Whether a page continues the one before it: the next frame with the same rights, or the same trouble.
fn follows(last: &Page, page: &Page) -> bool {
    match (&last.leads, &page.leads) {
        (Ok((before, rights)), Ok((frame, same))) => before + 1 == *frame && rights == same,
        (Err(Damage::Absent { .. }), Err(Damage::Absent { .. })) => last.entry == page.entry,
        _ => false,
    }
}

fn row(first: &Page, last: &Page, remark: String) -> Row {
    let (frames, real, may) = match (&first.leads, &last.leads) {
        (Ok((from, rights)), Ok((to, _))) => (span(*from, *to), addresses(*from, *to), rights.words().to_string()),
        _ => ("-".to_string(), "-".to_string(), "nothing".to_string()),
    };
    [span(first.number, last.number), addresses(first.number, last.number), frames, real, may, remark]
}

fn span(first: u32, last: u32) -> String {
    match first == last {
        true => first.to_string(),
        false => format!("{first} to {last}"),
    }
}

/// The addresses of pages or frames.
fn addresses(first: u32, last: u32) -> String {
    let (from, to) = (u64::from(first) * 512, (u64::from(last) + 1) * 512 - 1);
    format!("{from:03X}h to {to:03X}h")
}

/// Who else reaches the page's frame, what of the kernel's lies in it, or what is wrong with the entry.
fn remark(atlas: &Atlas, things: &[Thing], program: &Mapped, page: &Page) -> String {
    let at = hexadecimal(program.map_base.wrapping_add(page.number.wrapping_mul(4)));
    match page.leads {
        Ok((frame, rights)) => {
            let mut remarks = sharers(atlas, program, page.number, frame);
            if rights.write {
                remarks.extend(endangered(things, frame));
            }
            remarks.join("; ")
        }
        Err(Damage::Absent { entry: 0, .. }) => "absent: alarm 9".to_string(),
        Err(Damage::Absent { entry, .. }) => format!("absent, though its entry at {at} is {entry:08X}h: alarm 9"),
        Err(Damage::ForbiddenBits { entry, .. }) => {
            format!("damaged: bits 28 to 24 must be 0, the entry at {at} is {entry:08X}h: alarm 10")
        }
        Err(Damage::PastMemory { frame, .. }) => {
            format!("damaged: frame {frame} is past the memory's {} (entry at {at}): alarm 10", atlas.frames)
        }
        Err(_) => "not in the memory".to_string(),
    }
}

/// Other pages and other programs that lead to a frame.
fn sharers(atlas: &Atlas, program: &Mapped, page: u32, frame: u32) -> Vec<String> {
    let (mut own, mut others) = (Vec::new(), Vec::new());
    for reach in atlas.reaches(frame) {
        let Some(other) = atlas.programs.get(reach.program) else { continue };
        if other.control_block != program.control_block {
            let write = if reach.rights.write { ", may write" } else { "" };
            others.push(format!("{} (page {}{write})", other.name, reach.page));
        } else if reach.page != page {
            own.push(format!("{}{}", reach.page, if reach.rights.write { " (may write)" } else { "" }));
        }
    }
    let mut remarks = Vec::new();
    if !own.is_empty() {
        remarks.push(format!("also its page {}", lists::and(&own)));
    }
    if !others.is_empty() {
        remarks.push(format!("shared with {}", lists::and(&others)));
    }
    remarks
}

/// What of the kernel's a writable frame holds.
fn endangered(things: &[Thing], frame: u32) -> Option<String> {
    let inside: Vec<&str> =
        things.iter().filter(|thing| thing.touches(frame)).map(|thing| thing.words.as_str()).collect();
    (!inside.is_empty()).then(|| format!("CAREFUL: it may write {}", lists::and(&inside)))
}
