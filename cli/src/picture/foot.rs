//! Below the frames: where the memory ends, pages that lead nowhere, the legend.

use super::draw::{
    column_x, Drawing, CODE, COLOURS, COLUMN, DATA, FAINT, INK, KERNEL, LINE, MARGIN, MEMORY_X, PAPER, SHARED,
    SHARED_LINE,
};
use super::svg::{cut, Box, Style};
use crate::notation::hexadecimal;
use crate::view::Damage;
use crate::words;

/// Pages that lead nowhere and are listed under a program.
const MOST_NOWHERE: usize = 6;

impl Drawing<'_> {
    /// The pages of a program that lead nowhere.
    fn nowhere(&self, place: usize) -> Vec<String> {
        let Some(program) = self.atlas.programs.get(place) else { return Vec::new() };
        let troubled: Vec<String> = program
            .pages
            .iter()
            .filter_map(|page| match page.leads {
                Ok(_) => None,
                Err(Damage::Absent { .. }) => Some(format!("page {}: absent", page.number)),
                Err(_) => Some(format!("page {}: damaged", page.number)),
            })
            .collect();
        let more = troubled.len().saturating_sub(MOST_NOWHERE);
        let mut lines: Vec<String> = troubled.into_iter().take(MOST_NOWHERE).collect();
        lines.extend((more > 0).then(|| format!("and {more} more")));
        lines.push(format!("from {:X}h: past the map", u64::from(program.map_length) * 512));
        lines
    }

    pub fn foot_height(&self, left_out: u32) -> i64 {
        let lines = (0..self.columns).map(|place| self.nowhere(place).len()).max().unwrap_or(0);
        let left_out = i64::from(left_out > 0 || self.atlas.programs.len() > self.columns);
        20 + 15 * (lines as i64).max(2 * left_out)
    }

    pub fn foot(&mut self, y: i64, left_out: u32) {
        let style = Style::plain(11, FAINT);
        let end = hexadecimal(self.machine.memory.len() as u32);
        let mut lines = vec![format!("the memory ends at {end}")];
        if left_out > 0 {
            lines.insert(0, format!("{} frames more are not drawn", words::count(u64::from(left_out))));
        }
        let programs = self.atlas.programs.len().saturating_sub(self.columns);
        if programs > 0 {
            lines.push(format!("{programs} programs more are not drawn"));
        }
        for (i, line) in lines.iter().enumerate() {
            self.svg.text(MEMORY_X, y + 18 + 15 * i as i64, style, line);
        }
        for place in 0..self.columns {
            for (i, line) in self.nowhere(place).iter().enumerate() {
                self.svg.text(column_x(place) + 6, y + 18 + 15 * i as i64, style, &cut(line, COLUMN - 12, 11));
            }
        }
    }

    pub fn legend(&mut self, y: i64, width: i64) {
        let style = Style::plain(11, INK);
        self.svg.path(&format!("M{MARGIN},{y} H{}", width - MARGIN), LINE, r#"stroke-width="1""#);
        let mut item = |x: i64, row: i64, fill: &str, stroke: &str, more: &str, text: &str| {
            let top = y + 14 + 24 * row;
            self.svg.rect(Box { x, y: top, width: 26, height: 14 }, fill, stroke, more);
            self.svg.text(x + 34, top + 11, style, text);
        };
        let second = MARGIN + 230;
        let third = second + 250;
        item(MARGIN, 0, PAPER, COLOURS[0], r#"stroke-width="2" rx="3""#, "page to read and run");
        item(MARGIN, 1, COLOURS[0], COLOURS[0], r#"stroke-width="2" rx="3""#, "page to read, write and run");
        item(second, 0, SHARED, SHARED_LINE, r#"stroke-width="2.5" rx="4""#, "frame of several programs");
        item(second, 1, KERNEL, LINE, "", "frame of the kernel alone");
        item(MARGIN, 2, PAPER, LINE, r#"stroke-dasharray="6 3""#, "several frames, as one row");
        self.svg.rect(Box { x: third, y: y + 17, width: 26, height: 6 }, INK, "none", "");
        self.svg.text(third + 34, y + 25, style, "block or map, to scale; arrow: to its map");
        self.svg.path(&format!("M{third},{} h12", y + 45), CODE, r#"stroke-width="4""#);
        self.svg.path(&format!("M{},{} h12", third + 14, y + 45), DATA, r#"stroke-width="4""#);
        self.svg.text(third + 34, y + 49, style, "commands; other bytes that are not zero");
        self.svg.path(&format!("M{},{} h6 l-3,5 z", second + 10, y + 66), INK, r#"stroke-width="2""#);
        self.svg.text(second + 34, y + 73, style, "start of the desk or of a program");
        self.no_fetch(third + 13, y + 69, INK);
        self.svg.text(third + 34, y + 73, style, "page without commands, not to be run");
    }
}
