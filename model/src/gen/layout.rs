//! Layouts of memory, blocks and map.

use super::float_values::any_number;
use super::maker::Maker;
use crate::code::Format;
use crate::map::{Reason, DATA};
use crate::rng::Rng;
use crate::state::*;

/// What a page's entry is.
#[derive(Clone, Copy, PartialEq, Eq, Debug)]
pub enum Kind {
    Writable,
    ReadOnly,
    /// Without commands, and writable.
    WritableData,
    /// Without commands, and not writable.
    ReadOnlyData,
    Absent,
    Forbidden,
    Past,
}

/// The kinds of pages without commands.
pub const DATA_KINDS: [Kind; 2] = [Kind::WritableData, Kind::ReadOnlyData];

/// The kinds of pages that can be used for a reason.
pub fn kinds_for(reason: Reason) -> &'static [Kind] {
    match reason {
        Reason::Fetch => &[Kind::Writable, Kind::ReadOnly],
        Reason::Read => &[Kind::Writable, Kind::ReadOnly, Kind::WritableData, Kind::ReadOnlyData],
        Reason::Write => &[Kind::Writable, Kind::WritableData],
    }
}

pub struct Layout {
    pub maker: Maker,
    pub kinds: Vec<Kind>,
    /// First frame that pages name.
    pub first_frame: u32,
    pub frames: u32,
}

/// An entry of a kind; `frame` is used where it names one.
pub fn entry_of(rng: &mut Rng, kind: Kind, frame: u32, frames: u32) -> u32 {
    let junk = if rng.chance(50) { rng.word() } else { 0 };
    // The writable bit and the one of pages without commands, both or one or none.
    let bits = rng.word() & 0x6000_0000;
    match kind {
        Kind::Writable => 0xC000_0000 | frame,
        Kind::ReadOnly => 0x8000_0000 | frame,
        Kind::WritableData => 0xC000_0000 | DATA | frame,
        Kind::ReadOnlyData => 0x8000_0000 | DATA | frame,
        Kind::Absent if rng.chance(40) => bits | frame,
        Kind::Absent => junk & 0x7FFF_FFFF,
        Kind::Forbidden => 0x8000_0000 | bits | 1 << (24 + rng.below(5)) | frame,
        Kind::Past => {
            let past = match rng.below(5) {
                0 | 1 => frames,
                2 => frames + rng.below(64),
                3 => 0x0001_0000 | frame,
                _ => frames.max(rng.word() & 0x00FF_FFFF),
            };
            0x8000_0000 | bits | past
        }
    }
}

/// A desk with the given page kinds: blocks and map in frames 0 and 1, kernel
/// code in frame 2 (and 3), the pages' frames after it. Started in user mode.
pub fn layout(mut rng: Rng, kinds: &[Kind], shared: bool) -> Layout {
    let named = kinds.len() as u32;
    let user_frames = if shared { named.min(3 + rng.below(2)) } else { named };
    let kernel_frames = 1 + rng.below(2);
    let first_frame = 2 + kernel_frames;
    let frames = first_frame + user_frames;
    let length = frames * FRAME_BYTES;
    // System block, control block and map in any order with gaps.
    let map_bytes = 4 * (named + 2);
    let mut sizes = [(0, 256), (1, 80), (2, map_bytes)];
    for i in (1..3).rev() {
        sizes.swap(i, rng.below(i as u32 + 1) as usize);
    }
    let mut places = [0; 3];
    let mut at = 4 * rng.below(8);
    for (which, size) in sizes {
        places[which] = at;
        at += size + 4 * rng.below(8);
    }
    let [system_block, control_block, map_base] = places;
    assert!(at <= 1024);
    let mut maker = Maker::new(rng, length as usize);
    // Data in the pages' frames.
    for frame in first_frame..frames {
        maker.ramp(frame * FRAME_BYTES, 512);
    }
    maker.kernel_next = 1024 + maker.rng.below(40);
    let mut state = State {
        registers: [0; 16],
        status: 0,
        pending: 0,
        map_base,
        map_length: named,
        system_block,
        control_block,
        mark: Mark::Running,
    };
    let offset = maker.rng.below(user_frames);
    for page in 0..named {
        let frame = first_frame + (page + offset) % user_frames;
        let entry = entry_of(&mut maker.rng, kinds[page as usize], frame, frames);
        maker.lay_word(map_base + 4 * page, entry);
    }
    // Two more entries past the map's end, which a longer map would use.
    for page in named..named + 2 {
        let frame = first_frame + page % user_frames;
        let data = maker.rng.pick(&[0, 0, DATA]);
        maker.lay_word(map_base + 4 * page, 0xC000_0000 | data | frame);
    }
    maker.lay_word(control_block + 72, map_base);
    maker.lay_word(control_block + 76, named);
    let flags = maker.rng.word() & FLAGS;
    let level = if maker.rng.chance(40) { maker.rng.word() & LEVEL } else { 0 };
    state.status = flags | level;
    maker.begin(state);
    Layout { maker, kinds: kinds.to_vec(), first_frame, frames }
}

impl Layout {
    /// Pages of the given kinds.
    pub fn pages(&self, wanted: &[Kind]) -> Vec<u32> {
        (0..self.kinds.len() as u32).filter(|page| wanted.contains(&self.kinds[*page as usize])).collect()
    }

    /// Fills the registers: R0 to R3 small, R4 to R9 addresses, the others anything.
    pub fn registers(&mut self) {
        let mut state = self.maker.state;
        for i in 0..15 {
            state.registers[i] = match i {
                0..=3 => self.maker.rng.below(12),
                4..=9 | 14 => self.address(self.maker.state.kernel(), 4, Reason::Write),
                _ if self.maker.rng.chance(40) => any_number(&mut self.maker.rng, Format::F) as u32,
                _ => value(&mut self.maker.rng, 4),
            };
        }
        self.maker.begin(state);
    }

    /// An address whose `size` bytes can be used for a reason, by the kind of its page.
    pub fn address(&mut self, kernel: bool, size: u32, reason: Reason) -> u32 {
        if kernel {
            let low = self.first_frame * FRAME_BYTES;
            return low + self.maker.rng.below(self.maker.length() - low - size + 1);
        }
        let pages = self.pages(kinds_for(reason));
        if pages.is_empty() {
            return self.maker.rng.below(4096);
        }
        let page = self.maker.rng.pick(&pages);
        let crossing = pages.contains(&(page + 1)) && self.maker.rng.chance(30);
        let offset =
            if crossing { 512 - self.maker.rng.below(size).min(7) } else { self.maker.rng.below(512 - size + 1) };
        page * 512 + offset
    }
}

/// A value of `size` bytes, often at the ends of its range.
pub fn value(rng: &mut Rng, size: u32) -> u32 {
    let bits = 8 * size;
    let top = if size == 4 { u32::MAX } else { (1 << bits) - 1 };
    let half = 1u32 << (bits - 1);
    let special = [0, 1, 2, 3, top, top - 1, half, half - 1, half + 1, 7, 0x10, top - 6];
    match rng.below(10) {
        0..=6 => rng.pick(&special),
        7 => rng.below(40),
        _ => rng.word() & top,
    }
}
