//! Coverage of load lists: what the stored cases reach, and its table.

use crate::asm::unended;
use crate::checks::{self, Broken};
use crate::cover::{add, Counts, Cover};
use crate::load::{self, Command};
use crate::table::Table;

#[derive(Default)]
pub struct Lists {
    /// Commands of lists that load; 0 is a list of its end alone.
    commands: Counts<u8>,
    /// Piece (2 to 4) and the command right before it (0: none), in lists that load.
    after: Counts<(u8, u8)>,
    /// Counts of 04h in lists that load.
    counts: Counts<u16>,
    /// What a piece does, and its command.
    pieces: Counts<(&'static str, u8)>,
    /// Number of pieces, and of which commands they are.
    numbers: Counts<(usize, &'static str)>,
    moves: Counts<&'static str>,
    unknown: Counts<u8>,
    /// Command that is cut short, and how many bytes of its operands are there.
    cuts: Counts<(u8, usize)>,
    ends: Counts<&'static str>,
    /// Why a list is refused, and another number that it breaks too.
    pairs: Counts<(&'static str, u32)>,
    /// Numbers that refuse lists whose pieces before would change memory.
    kept: Counts<u32>,
    pub calls: Counts<&'static str>,
}

fn byte_of(command: &Command) -> u8 {
    match command {
        Command::Move(_) => 1,
        Command::Byte(_) => 2,
        Command::Four(_) => 3,
        Command::Copies(_, _) => 4,
    }
}

/// Of which commands the pieces are.
fn mixture(commands: &[Command]) -> &'static str {
    let pieces: Vec<&Command> = commands.iter().filter(|command| command.is_piece()).collect();
    let all = |byte: u8| pieces.iter().all(|piece| byte_of(piece) == byte);
    if all(2) {
        "02h"
    } else if all(3) {
        "03h"
    } else if all(4) {
        "04h"
    } else {
        "all three"
    }
}

/// Reasons for a refusal; those of a list that is cut short inside a command are one.
fn reason(broken: &Broken) -> &'static str {
    match broken.number {
        1 => "1",
        18 => "18",
        19 => "19",
        _ if broken.reason.contains("cut short") => "17 cut short",
        _ => broken.reason,
    }
}

impl Lists {
    /// Counts a load; `earlier` are the bytes that loads of the case have put.
    pub fn load(&mut self, memory: &[u8], list: &[u8], earlier: &mut [bool]) -> Result<(), Broken> {
        let length = memory.len() as u64;
        let mut commands = Vec::new();
        let read = load::read(list, &mut commands);
        let placed = load::place(&commands);
        let tried = [checks::length(length), read, load::count(&commands), load::inside(length, &placed)];
        let broken: Vec<Broken> = tried.into_iter().filter_map(Result::err).collect();
        let pieces = commands.iter().filter(|command| command.is_piece()).count();
        if broken.first().is_none_or(|broken| broken.number == 18) {
            add(&mut self.numbers, (pieces, "any"));
            add(&mut self.numbers, (pieces, mixture(&commands)));
            if commands.len() > pieces + 100 {
                add(&mut self.numbers, (pieces, "with moves"));
            }
            if commands.iter().any(|command| matches!(command, Command::Copies(0, _))) {
                add(&mut self.numbers, (pieces, "with a count of 0"));
            }
        }
        let Some(first) = broken.first() else {
            self.loaded(length, &commands, earlier);
            return Ok(());
        };
        for other in &broken[1..] {
            add(&mut self.pairs, (reason(first), other.number));
        }
        let changes = |(place, piece): &(u64, Command)| {
            piece.bytes().iter().enumerate().any(|(i, byte)| {
                let old = memory.get(*place as usize + i);
                old.is_some_and(|old| old != byte)
            })
        };
        if placed.iter().any(changes) {
            add(&mut self.kept, first.number);
        }
        match first.number {
            17 => self.unread(first, &commands, list),
            19 => self.outside(length, &commands),
            _ => {}
        }
        Err(*first)
    }

    fn unread(&mut self, broken: &Broken, commands: &[Command], list: &[u8]) {
        let rest = &list[unended(commands).len()..];
        match reason(broken) {
            "unknown command" => add(&mut self.unknown, rest[0]),
            "17 cut short" => add(&mut self.cuts, (rest[0], rest.len() - 1)),
            "bytes after the end" => {
                let after = &rest[1..];
                if after.iter().all(|byte| *byte == 0) {
                    add(&mut self.ends, "00h alone after the end");
                } else if load::read(after, &mut Vec::new()).is_ok() {
                    add(&mut self.ends, "a whole list after the end");
                } else {
                    add(&mut self.ends, "other bytes after the end");
                }
            }
            other => add(&mut self.ends, other),
        }
    }

    /// The first put outside memory.
    fn outside(&mut self, length: u64, commands: &[Command]) {
        let placed = load::place(commands);
        let is_outside = |(place, piece): &&(u64, Command)| load::inside(length, &[(*place, *piece)]).is_err();
        let Some((place, piece)) = placed.iter().find(is_outside) else { return };
        let byte = byte_of(piece);
        let size = piece.bytes().len() as u64;
        let mut say = |what: &'static str, holds: bool| {
            if holds {
                add(&mut self.pieces, (what, byte));
            }
        };
        say("19: begins right past the end", *place == length);
        say("19: only its last byte outside", *place < length && place + size == length + 1);
        say("19: only its first byte inside", *place + 1 == length);
        say("19: begins far outside", *place > 2 * length);
        say("19: its end modulo 2^32 is inside", *place >= length && (place + size) % (1 << 32) <= length);
        say("19: its place modulo 65,536 is inside", *place >= 65_536 && place % 65_536 + size <= length);
    }

    fn loaded(&mut self, length: u64, commands: &[Command], earlier: &mut [bool]) {
        if commands.is_empty() {
            add(&mut self.commands, 0);
        }
        let mut put: Vec<Option<u8>> = vec![None; length as usize];
        let mut placed = load::place(commands).into_iter();
        let mut before = None;
        for (at, command) in commands.iter().enumerate() {
            let byte = byte_of(command);
            add(&mut self.commands, byte);
            if let Command::Move(address) = command {
                self.moved(length, u64::from(*address), before, &commands[at + 1..]);
            } else if let Some((place, piece)) = placed.next() {
                add(&mut self.after, (byte, before.map_or(0, byte_of)));
                self.put(length, place, &piece, &mut put, earlier);
            }
            before = Some(command);
        }
        for (old, new) in earlier.iter_mut().zip(&put) {
            *old |= new.is_some();
        }
    }

    fn moved(&mut self, length: u64, address: u64, before: Option<&Command>, rest: &[Command]) {
        let puts = |rest: &[Command]| rest.first().is_some_and(|next| !next.bytes().is_empty());
        let mut say = |what: &'static str, holds: bool| {
            if holds {
                add(&mut self.moves, what);
            }
        };
        say("to the last byte", address + 1 == length && puts(rest));
        say("to the memory's length", address == length);
        say("outside memory", address > length);
        say("near 2^32", address > u64::from(u32::MAX - 16));
        say("outside, as the list's last command", address >= length && rest.is_empty());
        say("outside, followed by one inside", address >= length && matches!(rest.first(), Some(Command::Move(_))));
        say("right after another", matches!(before, Some(Command::Move(_))));
        say("not followed by a put", rest.is_empty());
    }

    fn put(&mut self, length: u64, place: u64, piece: &Command, put: &mut [Option<u8>], earlier: &[bool]) {
        let byte = byte_of(piece);
        let bytes = piece.bytes();
        let size = bytes.len() as u64;
        let mut say = |what: &'static str, holds: bool| {
            if holds {
                add(&mut self.pieces, (what, byte));
            }
        };
        if let Command::Copies(count, _) = piece {
            add(&mut self.counts, *count);
        }
        say("puts none at the memory's length", size == 0 && place == length);
        say("puts none outside memory", size == 0 && place > length);
        say("puts none near 2^32", size == 0 && place > u64::from(u32::MAX - 16));
        if size == 0 {
            return;
        }
        let here = place as usize..(place + size) as usize;
        say("ends with the last byte", place + size == length);
        say("in two frames", place / 512 != (place + size - 1) / 512);
        say("at no multiple of 4", place & 3 != 0);
        say("over an earlier load", earlier[here.clone()].contains(&true));
        let over =
            put[here.clone()].iter().zip(&bytes).filter(|(old, new)| old.is_some_and(|old| old != **new)).count();
        say("all over earlier puts", over == bytes.len());
        say("partly over earlier puts", 0 < over && over < bytes.len());
        for (old, new) in put[here].iter_mut().zip(bytes) {
            *old = Some(new);
        }
    }
}

const PIECES: [u8; 3] = [2, 3, 4];

/// Rows of what pieces do, with the commands that can do it.
const DONE: [(&str, &[u8]); 15] = [
    ("ends with the last byte", &PIECES),
    ("in two frames", &[3, 4]),
    ("at no multiple of 4", &PIECES),
    ("all over earlier puts", &PIECES),
    ("partly over earlier puts", &[3, 4]),
    ("over an earlier load", &PIECES),
    ("puts none at the memory's length", &[4]),
    ("puts none outside memory", &[4]),
    ("puts none near 2^32", &[4]),
    ("19: begins right past the end", &PIECES),
    ("19: only its last byte outside", &[3, 4]),
    ("19: only its first byte inside", &[3, 4]),
    ("19: begins far outside", &PIECES),
    ("19: its end modulo 2^32 is inside", &PIECES),
    ("19: its place modulo 65,536 is inside", &PIECES),
];

fn row<K: Ord>(table: &mut Table, counts: &Counts<K>, name: &str, cells: Vec<(K, bool)>) {
    table.row(counts, "load list", name, 40, cells);
}

pub fn lists(cover: &Cover, table: &mut Table) {
    let lists = &cover.lists;
    println!("Load lists that load: their commands (the end alone, 01h to 04h)");
    row(table, &lists.commands, "command", (0..=4).map(|byte| (byte, true)).collect());
    for byte in PIECES {
        let cells = (0..=4).map(|before| ((byte, before), true)).collect();
        row(table, &lists.after, &format!("0{byte}h as the first, or right after each"), cells);
    }
    for count in [0, 1, 2, 255, 256, 257, 32_768, 65_535] {
        row(table, &lists.counts, &format!("04h of count {count}"), vec![(count, true)]);
    }
    println!("Puts of load lists (02h, 03h, 04h)");
    for (what, commands) in DONE {
        let cells = PIECES.map(|byte| ((what, byte), commands.contains(&byte))).to_vec();
        row(table, &lists.pieces, what, cells);
    }
    println!("  impossible: 02h puts one byte; only 04h puts none");
    println!("Moves of load lists that load");
    for what in [
        "to the last byte",
        "to the memory's length",
        "outside memory",
        "near 2^32",
        "outside, as the list's last command",
        "outside, followed by one inside",
        "right after another",
        "not followed by a put",
    ] {
        row(table, &lists.moves, what, vec![(what, true)]);
    }
    println!("Pieces of load lists: any 255, 256, 257, 4,095; then 4,096, which load, and 4,097, which don't");
    row(table, &lists.numbers, "any", [255, 256, 257, 4_095].map(|count| ((count, "any"), true)).to_vec());
    for what in ["02h", "03h", "04h", "all three", "with moves", "with a count of 0"] {
        row(table, &lists.numbers, what, [4_096, 4_097].map(|count| ((count, what), true)).to_vec());
    }
    let unknown = (5..=255).filter(|byte| lists.unknown.contains_key(byte)).count();
    for byte in 5..=255 {
        table.cell(&lists.unknown, byte, true, format!("load list, unknown command {byte:02X}h"));
    }
    println!("Unknown commands giving 17: {unknown} of the 251 bytes from 05h on");
    println!("Commands cut short, by the bytes of their operands that are there (0 to 3)");
    for (byte, operands) in [(1, 4), (2, 1), (3, 4), (4, 3)] {
        let cells = (0..4).map(|there| ((byte, there), there < operands)).collect();
        row(table, &lists.cuts, &format!("0{byte}h"), cells);
    }
    for what in
        ["empty list", "no end", "00h alone after the end", "a whole list after the end", "other bytes after the end"]
    {
        row(table, &lists.ends, what, vec![(what, true)]);
    }
    println!("Refused lists that break another number too (17, 18, 19)");
    for (what, others) in [
        ("1", &[17, 18, 19][..]),
        ("unknown command", &[18, 19]),
        ("17 cut short", &[18, 19]),
        ("no end", &[18, 19]),
        ("bytes after the end", &[18, 19]),
        ("18", &[19]),
    ] {
        let cells = [17, 18, 19].map(|other| ((what, other), others.contains(&other))).to_vec();
        row(table, &lists.pairs, what, cells);
    }
    println!("Refused lists whose pieces, as far as read, would change memory (1, 17, 18, 19)");
    row(table, &lists.kept, "memory stays", [1, 17, 18, 19].map(|number| (number, true)).to_vec());
    println!("Loads among other calls");
    for what in
        ["a load after a load", "a load after a refused load", "a run after a load", "a run after a refused load"]
    {
        row(table, &lists.calls, what, vec![(what, true)]);
    }
    println!();
}
