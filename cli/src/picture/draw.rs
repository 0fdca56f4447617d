//! The drawing: its measures and colours, the head, the links from control blocks to maps.

use super::rows::{self, Row};
use super::svg::{cut, Box, Style, Svg};
use crate::atlas::{Atlas, Mapped};
use crate::blocks::{self, Kind, Thing};
use crate::code;
use crate::hints;
use crate::machine::Machine;
use crate::notation::hexadecimal;
use crate::view;
use crate::words;

pub const INK: &str = "#1A1A1A";
pub const FAINT: &str = "#5A5A5A";
pub const LINE: &str = "#8A8A8A";
pub const PAPER: &str = "#FFFFFF";
pub const KERNEL: &str = "#E9E9E9";
pub const SHARED: &str = "#FFE7AE";
pub const SHARED_LINE: &str = "#8A5A00";
/// Bytes of commands, and others that are not zero.
pub const CODE: &str = "#1A1A1A";
pub const DATA: &str = "#8C8C8C";
/// A colour for each program; their shades differ in grey too.
pub const COLOURS: [&str; 6] = ["#005B96", "#A63C00", "#006B4F", "#7A3E87", "#5B4A00", "#2F4F4F"];

/// Programs that are drawn at most.
pub const MOST_PROGRAMS: usize = 12;

pub const MARGIN: i64 = 24;
pub const LABELS: i64 = 124;
pub const MEMORY: i64 = 352;
pub const GAP: i64 = 56;
pub const COLUMN: i64 = 168;
pub const REMARKS: i64 = 190;
pub const HEAD: i64 = 150;

pub const MEMORY_X: i64 = MARGIN + LABELS;
pub const CELLS_X: i64 = MEMORY_X + MEMORY + GAP;

/// A picture in the making.
pub struct Drawing<'a> {
    pub svg: Svg,
    pub machine: &'a Machine,
    pub atlas: &'a Atlas,
    pub things: Vec<Thing>,
    pub columns: usize,
    /// For each byte whether it belongs to a command.
    pub code: Vec<bool>,
    pub starts: Vec<Start>,
}

/// Where the desk or a program starts: its real address, and words.
pub struct Start {
    pub real: u32,
    pub words: String,
    pub program: Option<usize>,
}

/// The starts, as far as they lead anywhere; of programs only before the first step, since they move.
fn starts(machine: &Machine, fresh: &Machine, atlas: &Atlas) -> Vec<Start> {
    let start = fresh.desk.register(15);
    let words = format!("start of the desk: {}", fresh.known.real_place(start));
    let mut starts = vec![Start { real: start, words, program: None }];
    if machine.steps > 0 {
        return starts;
    }
    for (place, program) in atlas.programs.iter().enumerate() {
        let real = view::real(&machine.memory, program.map_base, program.map_length, program.start);
        if let Ok((real, _)) = real {
            let words = format!("start of {}: {}", program.name, hexadecimal(program.start));
            starts.push(Start { real, words, program: Some(place) });
        }
    }
    starts
}

/// The picture.
pub fn picture(machine: &Machine, fresh: &Machine, atlas: &Atlas, title: &str) -> String {
    let things = blocks::things(machine, atlas);
    let (rows, left_out) = rows::rows(machine, atlas, &things);
    let columns = atlas.programs.len().min(MOST_PROGRAMS);
    let (code, starts) = (code::bytes(fresh), starts(machine, fresh, atlas));
    let mut drawing = Drawing { svg: Svg::new(), machine, atlas, things, columns, code, starts };
    let width = CELLS_X + COLUMN * columns.max(1) as i64 + REMARKS + MARGIN;
    let mut y = HEAD;
    let mut tops = Vec::new();
    for row in &rows {
        tops.push(y);
        y += drawing.height(row);
    }
    let height = y + drawing.foot_height(left_out) + 120;
    drawing.svg.rect(Box { x: 0, y: 0, width, height }, PAPER, "none", "");
    drawing.head(title);
    for (row, top) in rows.iter().zip(&tops) {
        drawing.row(row, *top, width);
    }
    drawing.links(&rows, &tops);
    drawing.foot(y, left_out);
    drawing.legend(height - 108, width);
    let description = format!("Frames as rows, programs as columns. {}", subtitle(machine, atlas));
    drawing.svg.file(width, height, &format!("Memory of {title}"), &description)
}

fn subtitle(machine: &Machine, atlas: &Atlas) -> String {
    let programs = match atlas.programs.len() {
        0 => "no programs".to_string(),
        1 => "1 program".to_string(),
        many => format!("{many} programs"),
    };
    let steps = if machine.steps > 0 { format!(", after {}", words::steps(machine.steps)) } else { String::new() };
    let frames = words::count(u64::from(atlas.frames));
    format!("{} bytes in {frames} frames of 512 bytes, {programs}{steps}", words::count(machine.memory.len() as u64))
}

pub fn colour(program: usize) -> &'static str {
    COLOURS.get(program % COLOURS.len()).copied().unwrap_or(INK)
}

pub fn column_x(program: usize) -> i64 {
    CELLS_X + COLUMN * program as i64
}

impl Drawing<'_> {
    fn head(&mut self, title: &str) {
        let subtitle = subtitle(self.machine, self.atlas);
        self.svg.text(MARGIN, 38, Style::plain(22, INK).bold(), &format!("Memory of {title}"));
        self.svg.text(MARGIN, 60, Style::plain(13, FAINT), &subtitle);
        let label = Style::plain(12, FAINT);
        self.svg.text(MARGIN, HEAD - 12, label, "frame, address");
        self.svg.text(MEMORY_X, HEAD - 12, label, "what is there: bytes from left to right");
        for place in 0..self.columns {
            if let Some(program) = self.atlas.programs.get(place) {
                self.program_head(place, program);
            }
        }
        if self.columns == 0 {
            self.svg.text(CELLS_X, HEAD - 12, label, "no program reaches any frame");
        }
    }

    fn program_head(&mut self, place: usize, program: &Mapped) {
        let x = column_x(place) + 6;
        let width = COLUMN - 16;
        let known = &self.machine.known;
        self.svg.rect(Box { x, y: HEAD - 66, width: COLUMN - 12, height: 5 }, colour(place), "none", "");
        let name = cut(&format!("program {}", program.name), width, 13);
        self.svg.text(x, HEAD - 44, Style::plain(13, colour(place)).bold(), &name);
        let block = format!("control block {}", hexadecimal(program.control_block));
        let map = hints::map_name(known, program.map_base);
        self.svg.text(x, HEAD - 28, Style::plain(11, INK), &cut(&block, width, 11));
        self.svg.text(
            x,
            HEAD - 12,
            Style::plain(11, INK),
            &cut(&format!("{map}, {}", hints::pages(program.map_length)), width, 11),
        );
    }

    /// From each control block to its map.
    fn links(&mut self, rows: &[Row], tops: &[i64]) {
        for program in 0..self.columns {
            let from = self.line_of(rows, tops, program, Kind::Control);
            let to = self.line_of(rows, tops, program, Kind::Map);
            if let Some((from, to)) = from.zip(to) {
                let x = MEMORY_X + MEMORY;
                let out = x + 18 + 30 * (program as i64 + 1) / (self.columns as i64 + 1);
                let path = format!(
                    "M{x},{from} H{} Q{out},{from} {out},{} V{} Q{out},{to} {},{to} H{}",
                    out - 6,
                    from + 6 * (to - from).signum(),
                    to - 6 * (to - from).signum(),
                    out - 6,
                    x + 3
                );
                self.svg.path(&path, colour(program), r#"stroke-width="2" marker-end="url(#tip)""#);
            }
        }
    }

    /// The height of the text line of a program's block or map.
    fn line_of(&self, rows: &[Row], tops: &[i64], program: usize, kind: Kind) -> Option<i64> {
        let wanted = |i: &usize| self.things.get(*i).is_some_and(|t| t.kind == kind && t.program == Some(program));
        rows.iter().zip(tops).find_map(|(row, top)| {
            let line = row.things.iter().position(wanted)?;
            Some(top + 30 + 15 * line as i64)
        })
    }
}
