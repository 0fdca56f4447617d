//! The rows of the picture: frames from 0 on, and runs of frames that look alike as one row.

use crate::atlas::{Atlas, Reach};
use crate::blocks::Thing;
use crate::machine::Machine;
use crate::view;
use std::collections::BTreeMap;

/// Memories of up to so many frames have a row for each frame that is not all zeros.
const FEW: u32 = 64;
/// Rows that are drawn at most.
const MOST_ROWS: usize = 300;

/// Frames that are drawn as one row.
#[derive(Clone, PartialEq, Eq, Debug)]
pub struct Row {
    pub first: u32,
    pub last: u32,
    /// Who reaches the first frame.
    pub reaches: Vec<Reach>,
    pub shared: bool,
    /// Blocks and maps that begin here or reach into the frames: their places in the list of things.
    pub things: Vec<usize>,
    /// Names of real addresses in the frames.
    pub names: Vec<String>,
    pub zeros: bool,
}

impl Row {
    pub fn frames(&self) -> u32 {
        self.last - self.first + 1
    }

    /// Whether a real address lies in it.
    pub fn holds(&self, real: u32) -> bool {
        (self.first..=self.last).contains(&(real / 512))
    }
}

/// The rows of a memory, and how many frames behind them are left out.
pub fn rows(machine: &Machine, atlas: &Atlas, things: &[Thing]) -> (Vec<Row>, u32) {
    let names = names(machine, atlas, things);
    let mut rows: Vec<Row> = Vec::new();
    for frame in 0..atlas.frames {
        let row = single(machine, atlas, things, &names, frame);
        let full = rows.len() == MOST_ROWS;
        match rows.last_mut() {
            Some(last) if continues(last, &row, atlas.frames > FEW) => last.last = frame,
            _ if full => return (rows, atlas.frames - frame),
            _ => rows.push(row),
        }
    }
    (rows, 0)
}

fn single(machine: &Machine, atlas: &Atlas, things: &[Thing], names: &NamesOfFrames, frame: u32) -> Row {
    let start = frame as usize * 512;
    let bytes = machine.memory.get(start..start + 512).unwrap_or_default();
    Row {
        first: frame,
        last: frame,
        reaches: atlas.reaches(frame).to_vec(),
        shared: atlas.shared(frame),
        things: (0..things.len()).filter(|i| things.get(*i).is_some_and(|thing| thing.touches(frame))).collect(),
        names: names.get(&frame).map(|names| names.values().cloned().collect()).unwrap_or_default(),
        zeros: bytes.iter().all(|byte| *byte == 0),
    }
}

/// For each frame the names of its real addresses.
type NamesOfFrames = BTreeMap<u32, BTreeMap<u32, String>>;

/// Names of real addresses, and of virtual ones by way of the maps; not those of blocks, maps and their parts.
fn names(machine: &Machine, atlas: &Atlas, things: &[Thing]) -> NamesOfFrames {
    let mut frames = NamesOfFrames::new();
    let mut add = |name: &str, at: u32| {
        if !name.contains('.') && things.iter().all(|thing| thing.at != at) {
            frames.entry(at / 512).or_default().entry(at).or_insert_with(|| name.to_string());
        }
    };
    for (name, at) in machine.known.real.iter() {
        add(name, at);
    }
    for program in &machine.known.programs {
        let map = atlas.programs.iter().find(|mapped| mapped.control_block == program.control_block);
        let Some((base, length)) = map.map(|mapped| (mapped.map_base, mapped.map_length)) else { continue };
        for (name, at) in program.names.iter() {
            if let Ok((real, _)) = view::real(&machine.memory, base, length, at) {
                add(name, real);
            }
        }
    }
    frames
}

/// Whether a frame can be drawn in one row with those before it: the same programs reach it by the next pages, and there is
/// nothing in it to tell it apart.
fn continues(row: &Row, next: &Row, many: bool) -> bool {
    let plain = |row: &Row| row.things.is_empty() && row.names.is_empty();
    let frames = row.frames();
    let alike = |(before, after): (&Reach, &Reach)| {
        before.program == after.program
            && before.rights == after.rights
            && before.page.checked_add(frames) == Some(after.page)
    };
    plain(row)
        && plain(next)
        && row.zeros == next.zeros
        && (row.zeros || many)
        && row.reaches.len() == next.reaches.len()
        && row.reaches.iter().zip(&next.reaches).all(alike)
}
