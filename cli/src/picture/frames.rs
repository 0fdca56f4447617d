//! A row of the picture: the frame with what is in it, the cells of the programs, what stands out.

use super::draw::{colour, column_x, Drawing, COLUMN, FAINT, INK, KERNEL, LINE, MARGIN, MEMORY, MEMORY_X};
use super::draw::{CODE, DATA, PAPER, REMARKS, SHARED, SHARED_LINE};
use super::rows::Row;
use super::svg::{cut, Box, Style};
use crate::atlas::{Mapped, Reach};
use crate::blocks::{Kind, Thing};
use crate::hints;
use crate::notation::hexadecimal;
use crate::view::Rights;
use crate::words;

/// Letters of a line in a frame, and lines of names.
const LETTERS: usize = 54;
const MOST_LINES: usize = 4;
/// Bold letters are as wide as plain ones of this size.
const BOLD: u32 = 13;

impl Drawing<'_> {
    /// The lines of text in a row's frame.
    fn row_lines(&self, row: &Row) -> Vec<(String, Style)> {
        let mut lines: Vec<(String, Style)> = Vec::new();
        for thing in row.things.iter().filter_map(|i| self.things.get(*i)) {
            let style = Style::plain(11, thing.program.map_or(INK, colour)).bold();
            lines.push((self.thing_words(thing), style));
        }
        let faint = Style::plain(11, FAINT);
        for start in self.starts.iter().filter(|start| row.holds(start.real)) {
            let style = Style::plain(11, start.program.map_or(INK, colour));
            lines.push((cut(&start.words, MEMORY - 12, 10), style));
        }
        if !row.names.is_empty() {
            let mut names = words::wrapped(&row.names.join(", "), LETTERS, 0, 0);
            if names.len() > MOST_LINES {
                names.truncate(MOST_LINES - 1);
                names.push("and more".to_string());
            }
            lines.extend(names.into_iter().map(|line| (cut(&line, MEMORY - 12, 10), faint)));
        } else if lines.is_empty() {
            lines.push((if row.zeros { "zeros" } else { "bytes without names" }.to_string(), faint));
        }
        lines
    }

    fn thing_words(&self, thing: &Thing) -> String {
        let known = &self.machine.known;
        let at = hexadecimal(thing.at);
        let name = known.real.name_of(thing.at).map(|name| format!(" {name}")).unwrap_or_default();
        let words = match thing.kind {
            Kind::System => format!("system block, {at}"),
            Kind::Control => format!("control block{name}, {at}"),
            Kind::Map => format!("map{name}, {at}: {}", hints::pages(thing.length / 4)),
        };
        cut(&words, MEMORY - 12, BOLD)
    }

    pub fn height(&self, row: &Row) -> i64 {
        let cells = row.reaches.iter().map(|reach| self.cell_lines(row, reach.program).len()).max().unwrap_or(0) as i64;
        let lines = self.row_lines(row).len() as i64;
        let remarks = self.remarks(row).len() as i64;
        (30 + 15 * lines).max(14 + 32 * cells).max(14 + 14 * remarks).max(48)
    }

    pub fn row(&mut self, row: &Row, y: i64, width: i64) {
        let height = self.height(row);
        if row.shared {
            let band = Box { x: MARGIN - 8, y: y + 2, width: width - 2 * MARGIN + 16, height: height - 4 };
            self.svg.rect(band, SHARED, SHARED_LINE, r#"stroke-width="2.5" rx="4""#);
        }
        self.frame_label(row, y);
        let place = Box { x: MEMORY_X, y: y + 4, width: MEMORY, height: height - 8 };
        let fill = if row.reaches.is_empty() { KERNEL } else { PAPER };
        let dashes = if row.frames() > 1 { r#"stroke-dasharray="6 3""# } else { "" };
        self.svg.rect(place, fill, LINE, dashes);
        self.strip(row, y + 8);
        for (i, (text, style)) in self.row_lines(row).iter().enumerate() {
            self.svg.text(MEMORY_X + 6, y + 34 + 15 * i as i64, *style, text);
        }
        for program in 0..self.columns {
            self.cells(row, program, y, height);
        }
        self.remark(row, y);
    }

    fn frame_label(&mut self, row: &Row, y: i64) {
        let start = format!("{:03X}h", u64::from(row.first) * 512);
        let name = match row.frames() {
            1 => format!("frame {}", row.first),
            _ => format!("frames {}-{}", row.first, row.last),
        };
        self.svg.text(MARGIN, y + 20, Style::plain(12, INK).bold(), &name);
        self.svg.text(MARGIN, y + 36, Style::plain(11, FAINT), &start);
    }

    /// The marks of a row that have bytes of commands, or that have none and bytes that are not zero.
    fn marks(&self, start: usize, unit: i64, code: bool) -> Vec<i64> {
        let marked = |i: &i64| {
            let from = start + (unit * i) as usize;
            let bytes = from..from + unit as usize;
            let commands = self.code.get(bytes.clone()).is_some_and(|code| code.contains(&true));
            let zeros = self.machine.memory.get(bytes).is_none_or(|bytes| bytes.iter().all(|byte| *byte == 0));
            if code {
                commands
            } else {
                !commands && !zeros
            }
        };
        (0..64).filter(marked).collect()
    }

    /// The bytes of a row in 64 marks: black for commands, grey for others that are not zero; above them the blocks and maps, to
    /// scale, and the starts.
    fn strip(&mut self, row: &Row, y: i64) {
        let start = row.first as usize * 512;
        let length = 512 * i64::from(row.frames());
        let (x, width) = (MEMORY_X + 6, MEMORY - 12);
        let scaled = |byte: i64| x + byte * width / length;
        self.svg.path(&format!("M{x},{} H{}", y + 10, x + width), "#C4C4C4", r#"stroke-width="1""#);
        for (code, stroke) in [(false, DATA), (true, CODE)] {
            let marks = self.marks(start, length / 64, code);
            let mark =
                |i: &i64| format!("M{},{} H{}", scaled(i * length / 64), y + 10, scaled((i + 1) * length / 64) - 1);
            if !marks.is_empty() {
                let path = marks.iter().map(mark).collect::<Vec<_>>().join(" ");
                self.svg.path(&path, stroke, r#"stroke-width="4""#);
            }
        }
        for real in self.starts.iter().map(|start| start.real).filter(|real| row.holds(*real)).collect::<Vec<_>>() {
            let at = scaled(i64::from(real) - start as i64);
            self.svg.path(&format!("M{},{} h6 l-3,5 z", at - 3, y + 1), INK, r#"stroke-width="2""#);
        }
        for thing in row.things.iter().filter_map(|i| self.things.get(*i).cloned()).collect::<Vec<_>>() {
            let from = (i64::from(thing.at) - start as i64).clamp(0, length);
            let to = (i64::from(thing.at) + i64::from(thing.length) - start as i64).clamp(0, length);
            let place = Box { x: scaled(from), y, width: (scaled(to) - scaled(from)).max(3), height: 6 };
            // A light edge keeps neighbours apart, in grey too.
            self.svg.rect(place, thing.program.map_or(INK, colour), PAPER, r#"stroke-width="0.8""#);
        }
    }

    /// The pages of a program that lead to the row's frames, in words, and what the program may do there.
    fn cell_lines(&self, row: &Row, program: usize) -> Vec<(String, Rights)> {
        let more = row.frames() - 1;
        let line = |reach: &Reach| {
            let from = hexadecimal(reach.page.wrapping_mul(512));
            let pages = match more {
                0 => format!("page {}, from {from}", reach.page),
                _ => format!("pages {}-{}, from {from}", reach.page, reach.page.saturating_add(more)),
            };
            (pages, reach.rights)
        };
        row.reaches.iter().filter(|reach| reach.program == program).map(line).take(3).collect()
    }

    fn cells(&mut self, row: &Row, program: usize, y: i64, height: i64) {
        let x = column_x(program) + 6;
        let lines = self.cell_lines(row, program);
        if lines.is_empty() {
            let middle = y + height / 2;
            let line = format!("M{},{middle} H{}", x + 70, x + 86);
            self.svg.path(&line, "#B5B5B5", r#"stroke-width="1.5""#);
            return;
        }
        let each = (height - 8) / lines.len() as i64;
        for (i, (pages, rights)) in lines.iter().enumerate() {
            let place = Box { x, y: y + 4 + each * i as i64, width: COLUMN - 12, height: each - 2 };
            let (fill, text) = if rights.write { (colour(program), PAPER) } else { (PAPER, INK) };
            self.svg.rect(place, fill, colour(program), r#"stroke-width="2" rx="3""#);
            let middle = place.y + place.height / 2;
            self.svg.text(x + 8, middle - 2, Style::plain(12, text).bold(), &cut(pages, COLUMN - 20, 11));
            self.svg.text(x + 8, middle + 12, Style::plain(11, text), rights.words());
            if !rights.fetch {
                self.no_fetch(x + COLUMN - 32, middle + 8, text);
            }
        }
    }

    /// The sign of a page without commands, a ring with a stroke through it.
    pub fn no_fetch(&mut self, x: i64, y: i64, stroke: &str) {
        let ring = format!("M{},{y} a6,6 0 1,0 12,0 a6,6 0 1,0 -12,0 M{},{} l8,-8", x - 6, x - 4, y + 4);
        self.svg.path(&ring, stroke, r#"stroke-width="1.5""#);
    }

    /// What stands out in a row.
    fn remarks(&self, row: &Row) -> Vec<(String, Style)> {
        let mut lines: Vec<(String, Style)> = Vec::new();
        let small = Style::plain(11, INK);
        if row.shared {
            lines.push(("shared".to_string(), Style::plain(13, INK).bold()));
            lines.extend(self.sharers(row, true).map(|words| (words, small)));
            lines.extend(self.sharers(row, false).map(|words| (words, small)));
        }
        if row.reaches.iter().any(|reach| reach.rights.write) && !row.things.is_empty() {
            let words = ["careful: a program may", "write a block or a map"];
            lines.extend(words.map(|words| (words.to_string(), small.bold())));
        }
        lines
    }

    fn remark(&mut self, row: &Row, y: i64) {
        let x = column_x(self.columns.max(1)) + 8;
        for (i, (text, style)) in self.remarks(row).iter().enumerate() {
            self.svg.text(x, y + 20 + 14 * i as i64, *style, &cut(text, REMARKS - 8, 11));
        }
    }

    /// The programs that may write a row's frame, or those that may only read it.
    fn sharers(&self, row: &Row, write: bool) -> Option<String> {
        let may = |program: usize| row.reaches.iter().any(|reach| reach.program == program && reach.rights.write);
        let reaches = |program: usize| row.reaches.iter().any(|reach| reach.program == program);
        let wanted = |(place, _): &(usize, &Mapped)| reaches(*place) && may(*place) == write;
        let programs = self.atlas.programs.iter().enumerate().filter(wanted);
        let names: Vec<&str> = programs.map(|(_, program)| program.name.as_str()).collect();
        let verb = if write { "may write" } else { "may read" };
        (!names.is_empty()).then(|| format!("{verb}: {}", names.join(", ")))
    }
}
