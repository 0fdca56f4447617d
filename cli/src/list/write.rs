//! The lines of a listing, from the lowest address to the highest.

use super::data;
use super::follow::{Code, Space};
use super::ground::Ground;
use super::labels::Labels;
use super::lines::Line;
use super::pages::{Group, Pages};
use super::{blocks, remarks, Block};
use crate::asm::fields;
use crate::decode::{Decoded, Trouble};
use crate::forms;
use crate::image::{Image, Program};
use crate::lists;
use crate::names::Names;
use crate::notation::{self, hexadecimal};
use crate::table::Size;
use std::collections::BTreeMap;

pub struct Parts<'a> {
    pub image: &'a Image,
    pub title: &'a str,
    pub programs: &'a [Program],
    pub ground: &'a Ground,
    pub pages: &'a Pages,
    pub code: &'a Code,
    pub blocks: &'a BTreeMap<u32, Block>,
    pub labels: &'a Labels,
}

struct Writer<'a> {
    parts: &'a Parts<'a>,
    lines: Vec<Line>,
    /// Where the segment in hand has got to, and what it adds to real addresses; none before the first.
    segment: Option<(u32, Option<u32>)>,
    remarks: BTreeMap<u32, String>,
    /// The group of frames whose heading was written last.
    headed: Option<Group>,
}

pub fn lines(parts: &Parts) -> Vec<Line> {
    let remarks = remarks::of_source(parts.image);
    let mut writer = Writer { parts, lines: Vec::new(), segment: None, remarks, headed: None };
    writer.heading();
    let end = parts.image.memory.len() as u32;
    let mut at = 0;
    while at < end {
        at = writer.item(at, end);
    }
    writer.ending();
    writer.lines
}

impl Writer<'_> {
    fn say(&mut self, remark: String) {
        self.lines.push(Line { remark, ..Line::default() });
    }

    fn heading(&mut self) {
        let image = self.parts.image;
        let (length, system) = (image.memory.len(), hexadecimal(image.system));
        let (control, start) = (hexadecimal(image.control), hexadecimal(image.start));
        let title = self.parts.title;
        self.say(format!(
            "{title}: {length} bytes; system block at {system}, control block at {control}, start at {start}"
        ));
        for program in self.parts.programs {
            let (name, block) = (&program.name, hexadecimal(program.control_block));
            let (base, pages) = (hexadecimal(program.map_base), program.map_length);
            self.say(format!(
                "program {name}: control block at {block}, map at {base} with {pages} page{}",
                if pages == 1 { "" } else { "s" }
            ));
        }
    }

    fn ending(&mut self) {
        let end = self.parts.image.memory.len() as u32;
        if !self.parts.labels.of(end).is_empty() {
            self.put(end, 0, vec![Line { real: Some(end), ..Line::default() }]);
        }
        self.lines.push(Line::default());
        if self.parts.image.start != 0x200 {
            let text = format!("START {}", notation::place(self.parts.image.start, &self.parts.labels.kernel));
            self.lines.push(Line { text, ..Line::default() });
        }
        let text = format!("MEMORY {}", hexadecimal(end));
        self.lines.push(Line { text, ..Line::default() });
    }

    /// Writes what stands at an address, and gives the address behind it.
    fn item(&mut self, at: u32, end: u32) -> u32 {
        let parts = self.parts;
        if let Some(block) = parts.blocks.get(&at) {
            return self.block(at, *block);
        }
        if let Some((space, decoded)) = parts.code.commands.get(&at) {
            return self.command(at, *space, decoded);
        }
        let mut until = parts.ground.free_until(at, end).max(at + 1);
        until = parts.labels.after(at).map_or(until, |label| until.min(label));
        until = parts.code.troubles.range(at + 1..).next().map_or(until, |(trouble, _)| until.min(*trouble));
        until = until.min(self.shown_alike(at, until));
        self.data(at, until)
    }

    /// Up to where the frames stand under one heading.
    fn shown_alike(&self, at: u32, until: u32) -> u32 {
        if let Some(group) = self.parts.pages.group(at) {
            return 512 * (group.last + 1);
        }
        let mut frame = at / 512 + 1;
        while frame * 512 < until && self.parts.pages.group(frame * 512).is_none() {
            frame += 1;
        }
        frame * 512
    }

    /// Whether the frames at an address have a heading of their own, still to be written.
    fn needs_heading(&self, at: u32) -> Option<Group> {
        self.parts.pages.group(at).filter(|group| self.headed != Some(*group))
    }

    /// Lines from an address on, of so many bytes: with SEG if it must be, with labels and with the source's remark.
    fn put(&mut self, at: u32, length: usize, mut lines: Vec<Line>) -> u32 {
        let behind = at + length as u32;
        let shift = self.parts.ground.shift(at);
        if self.segment != Some((at, shift)) || self.needs_heading(at).is_some() {
            self.begin_segment(at, shift);
        }
        self.segment = Some((behind, shift));
        let labels = self.parts.labels.of(at);
        if let Some((last, others)) = labels.split_last() {
            for label in others {
                let (real, shown) = (Some(at), shift.map(|shift| at.wrapping_add(shift)));
                self.lines.push(Line { real, shown, label: label.clone(), ..Line::default() });
            }
            if let Some(line) = lines.first_mut() {
                line.label = last.clone();
            }
        }
        let several = lines.len() > 1;
        for mut line in lines {
            let heads_a_block = several && line.bytes.is_empty();
            line.shown = line.real.and_then(|real| shift.map(|shift| real.wrapping_add(shift)));
            if line.remark.is_empty() && !heads_a_block {
                line.remark = line.real.and_then(|real| self.remarks.remove(&real)).unwrap_or_default();
            }
            self.lines.push(line);
        }
        behind
    }

    fn begin_segment(&mut self, at: u32, shift: Option<u32>) {
        self.lines.push(Line::default());
        if let Some(group) = self.needs_heading(at) {
            self.headed = Some(group);
            self.say(self.parts.pages.heading(group, self.parts.programs));
        }
        let at_virtual = shift.map_or(String::new(), |shift| format!(" AT {}", hexadecimal(at.wrapping_add(shift))));
        let text = format!("SEG {}{at_virtual}", hexadecimal(at));
        self.lines.push(Line { text, ..Line::default() });
    }

    fn block(&mut self, at: u32, block: Block) -> u32 {
        let (image, labels) = (self.parts.image, self.parts.labels);
        let program = |place: usize| self.parts.programs.get(place);
        let (length, lines) = match block {
            Block::System => (fields::SYSTEM_BLOCK, blocks::system_block(&image.memory, at, &labels.kernel)),
            Block::Control(place) => {
                let own = labels.programs.get(place).unwrap_or(&labels.none);
                let line = program(place).map(|program| {
                    let shown = matches!(self.parts.blocks.get(&program.map_base), Some(Block::Map(owner))
                        if self.parts.programs.get(*owner).is_some_and(|o| o.map_length == program.map_length));
                    blocks::control_block(&image.memory, program, own, labels, shown)
                });
                (fields::CONTROL_BLOCK, line.into_iter().collect())
            }
            Block::Map(place) => {
                let length = program(place).map_or(0, |program| program.map_length);
                (4 * length, blocks::map(&image.memory, at, length))
            }
        };
        self.put(at, length as usize, lines)
    }

    fn command(&mut self, at: u32, space: Space, decoded: &Decoded) -> u32 {
        let text = notation::written(decoded, self.names(at, space));
        let (first, operands) = decoded.bytes.split_at_checked(1).unwrap_or((&[], &[]));
        let mut bytes: String = first.iter().map(|byte| format!("{byte:02X}")).collect();
        for operand in operands.chunks(6) {
            let word: String = operand.iter().skip(2).map(|byte| format!("{byte:02X}")).collect();
            let pair: Vec<String> = operand.iter().take(2).map(|byte| format!("{byte:02X}")).collect();
            bytes.push_str(&format!("  {} {word}", pair.join(" ")));
        }
        let remark = if self.remarks.contains_key(&at) { String::new() } else { self.target(at, space, decoded) };
        let line = Line { real: Some(at), bytes, text, remark, ..Line::default() };
        self.put(at, decoded.bytes.len(), vec![line])
    }

    /// Where an operand leads that counts from R15.
    fn target(&self, at: u32, space: Space, decoded: &Decoded) -> String {
        let from_r15 = |place: &usize| decoded.operands.get(*place).is_some_and(|fields| fields.form == forms::BASE);
        let places = (0..decoded.operands.len()).filter(from_r15).filter_map(|place| decoded.fixed_address(place));
        let targets: Vec<String> = places.map(|address| notation::place(address, self.names(at, space))).collect();
        if targets.is_empty() {
            String::new()
        } else {
            format!("that is {}", lists::and(&targets))
        }
    }

    /// The names that a command may use: those of its space, where its own place is shown so.
    fn names(&self, at: u32, space: Space) -> &Names {
        let labels = self.parts.labels;
        match (space, self.parts.ground.shift(at)) {
            (Space::Kernel, None) => &labels.kernel,
            (Space::Program(place), Some(_)) => labels.programs.get(place).unwrap_or(&labels.none),
            _ => &labels.none,
        }
    }

    /// Data up to an address, or the first part of it; gives the address behind.
    fn data(&mut self, at: u32, until: u32) -> u32 {
        let bytes = self.parts.image.memory.get(at as usize..until as usize).unwrap_or(&[]);
        let named = !self.parts.labels.of(at).is_empty();
        let size = self.parts.labels.sizes.get(&at).copied();
        let zeros = data::zeros(bytes);
        if let Some(trouble) = self.parts.code.troubles.get(&at) {
            let (count, size) = match trouble {
                // What cannot be fetched is data, which stay together.
                Trouble::NoFetch(_) if zeros == 0 => (data::before_zeros(at, bytes, size).max(1), size),
                _ => (1, Some(Size::B)),
            };
            let first = bytes.get(..count).unwrap_or(bytes);
            let mut lines = data::rows(at, first, size);
            if let Some(line) = lines.first_mut().filter(|_| !self.remarks.contains_key(&at)) {
                line.remark = remarks::of_trouble(trouble);
            }
            return self.put(at, first.len(), lines);
        }
        if zeros == bytes.len() || zeros >= data::LONG {
            return self.zeros(at, zeros, if named { size } else { None });
        }
        let count = data::before_zeros(at, bytes, size).max(1);
        self.put(at, count, data::rows(at, bytes.get(..count).unwrap_or(bytes), size))
    }

    /// Zeros: a value that a command uses; a label over many; nothing, where nobody names them.
    fn zeros(&mut self, at: u32, count: usize, size: Option<Size>) -> u32 {
        if let Some(size) = size {
            let bytes = vec![0; count.min(size.bytes() as usize)];
            return self.put(at, bytes.len(), data::rows(at, &bytes, Some(size)));
        }
        let named = !self.parts.labels.of(at).is_empty();
        let continued = self.segment == Some((at, self.parts.ground.shift(at)));
        match (named, count >= data::LONG) {
            (true, false) => return self.put(at, count, data::rows(at, &vec![0; count], None)),
            (false, false) if continued => return self.put(at, count, vec![data::reserved(at, count, true)]),
            (true, true) => self.put(at, 0, vec![data::reserved(at, count, false)]),
            (false, _) if self.needs_heading(at).is_some() => {
                return self.put(at, count, vec![data::reserved(at, count, true)])
            }
            (false, _) => at,
        };
        at + count.max(1) as u32
    }
}
