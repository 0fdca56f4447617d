//! Coverage of joint loading: what the stored cases reach, and its tables.

use crate::checks::{self, must, Broken};
use crate::cover::{add, Counts, Cover};
use crate::joint;
use crate::load::{self, Command};
use crate::pair::Pair;
use crate::table::Table;

/// What a pair can break, in the order in which it is tried.
const TRIED: [&str; 9] =
    ["1", "first's 17", "first's 18", "first's 19", "second's 17", "second's 18", "second's 19", "22", "23"];

#[derive(Default)]
pub struct Joint {
    /// Place in `TRIED` of what refuses a pair, and why.
    refusals: Counts<(usize, &'static str)>,
    /// What refuses a pair, and what it breaks, that included: places in `TRIED`.
    orders: Counts<(usize, usize)>,
    /// The answer, the scratch's length against the memory's, whether it is all zeros before.
    scratches: Counts<(u32, &'static str, bool)>,
    /// Commands of the last puts where both put an address, and whether they agree there.
    over: Counts<(u8, u8, bool)>,
    /// Who puts an address of a pair that loads, and what.
    bytes: Counts<(&'static str, &'static str)>,
    /// Puts before the last ones, at addresses that both put, and whether the last ones agree.
    earlier: Counts<(&'static str, bool)>,
    clashes: Counts<&'static str>,
    /// Bits in which a clash differs, where it is one alone.
    bits: Counts<u32>,
    /// Which list has how many pieces.
    pieces: Counts<&'static str>,
    /// Refusals of pairs whose pieces, as far as read, would change memory.
    kept: Counts<usize>,
    pub calls: Counts<&'static str>,
}

/// A list as far as it can be read.
struct Seen {
    commands: Vec<Command>,
    tried: [Result<(), Broken>; 3],
    /// At each address all its puts there, with their commands, in order.
    puts: Vec<Vec<(u8, u8)>>,
}

fn byte_of(command: &Command) -> u8 {
    match command {
        Command::Move(_) => 1,
        Command::Byte(_) => 2,
        Command::Four(_) => 3,
        Command::Copies(_, _) => 4,
    }
}

impl Seen {
    fn of(length: usize, list: &[u8]) -> Seen {
        let mut commands = Vec::new();
        let read = load::read(list, &mut commands);
        let placed = load::place(&commands);
        let mut puts = vec![Vec::new(); length];
        for (place, piece) in &placed {
            for (i, byte) in piece.bytes().iter().enumerate() {
                if let Some(puts) = puts.get_mut(*place as usize + i) {
                    puts.push((byte_of(piece), *byte));
                }
            }
        }
        let tried = [read, load::count(&commands), load::inside(length as u64, &placed)];
        Seen { commands, tried, puts }
    }

    fn pieces(&self) -> usize {
        self.commands.iter().filter(|command| command.is_piece()).count()
    }

    fn last(&self, at: usize) -> Option<(u8, u8)> {
        self.puts[at].last().copied()
    }

    /// Whether its place ends elsewhere than at 0.
    fn moved(&self) -> bool {
        let end = load::place(&[&self.commands[..], &[Command::Byte(0)]].concat());
        end.last().is_some_and(|(place, _)| *place != 0)
    }
}

impl Joint {
    /// Counts a joint load; `earlier` are the bytes that loads of the case have put.
    pub fn pair(&mut self, memory: &[u8], pair: &Pair, earlier: &mut [bool]) -> Result<(), Broken> {
        let length = memory.len();
        let two = [&pair.first, &pair.second].map(|list| Seen::of(length, list));
        let clashes: Vec<usize> = (0..length)
            .filter(|at| match two.each_ref().map(|seen| seen.last(*at)) {
                [Some((_, byte)), Some((_, against))] => byte != against,
                _ => false,
            })
            .collect();
        let mut tried = vec![checks::length(length as u64)];
        tried.extend(two.iter().flat_map(|seen| seen.tried));
        tried.push(joint::room(length, pair.scratch.length as usize));
        tried.push(must(clashes.is_empty(), 23, "two unequal last bytes"));
        let broken: Vec<usize> = (0..TRIED.len()).filter(|i| tried[*i].is_err()).collect();
        let first = broken.first().copied();
        for other in &broken {
            add(&mut self.orders, (broken[0], *other));
        }
        let judged = first.map_or(Ok(()), |i| tried[i]);
        let number = judged.map_or_else(|broken| broken.number, |()| 0);
        self.scratch(number, length, pair);
        match (first, judged) {
            (Some(i), Err(broken)) => {
                add(&mut self.refusals, (i, broken.reason));
                let changes = |seen: &Seen, at: usize| seen.last(at).is_some_and(|(_, byte)| byte != memory[at]);
                if (0..length).any(|at| two.iter().any(|seen| changes(seen, at))) {
                    add(&mut self.kept, i);
                }
                if i == 8 {
                    self.clash(memory, &two, &clashes);
                }
            }
            _ => self.loaded(memory, pair, &two, earlier),
        }
        self.counted(number, &two);
        judged
    }

    fn scratch(&mut self, number: u32, length: usize, pair: &Pair) {
        let room = pair.scratch.length as usize;
        let zeros = pair.scratch.bytes().iter().all(|byte| *byte == 0);
        let size = match room {
            _ if room > length => "longer",
            _ if room == length => "as long",
            _ if room + 1 == length => "one byte shorter",
            0 => "none",
            _ => "shorter",
        };
        add(&mut self.scratches, (number, size, zeros));
    }

    /// Numbers of pieces, where they are what matters.
    fn counted(&mut self, number: u32, two: &[Seen; 2]) {
        let counts = two.each_ref().map(Seen::pieces);
        let mut say = |what: &'static str, holds: bool| {
            if holds {
                add(&mut self.pieces, what);
            }
        };
        if number == 0 || number == 23 {
            say("4,096 of the first, few of the second", counts[0] == 4_096 && counts[1] < 100);
            say("few of the first, 4,096 of the second", counts[0] < 100 && counts[1] == 4_096);
            say("4,096 of each", counts == [4_096; 2]);
            say(
                "fewer of each, more than 4,096 together",
                counts[0].max(counts[1]) < 4_096 && counts[0] + counts[1] > 4_096,
            );
            say("more than 256 of the first", counts[0] > 256);
            say("more than 256 of the second", counts[1] > 256);
        } else if number == 18 {
            say("4,097 of the first, few of the second", counts[0] == 4_097 && counts[1] < 100);
            say("few of the first, 4,097 of the second", counts[0] < 100 && counts[1] == 4_097);
            say("4,097 of each", counts == [4_097; 2]);
        }
    }

    /// Addresses that both put: commands, and what was put there before.
    fn shared(&mut self, two: &[Seen; 2], at: usize) {
        let [Some(first), Some(second)] = two.each_ref().map(|seen| seen.last(at)) else { return };
        let same = first.1 == second.1;
        add(&mut self.over, (first.0, second.0, same));
        let before = two.each_ref().map(|seen| &seen.puts[at][..seen.puts[at].len() - 1]);
        let has = |i: usize, byte: u8| before[i].iter().any(|put| put.1 == byte);
        let hasnt = |i: usize, byte: u8| before[i].iter().any(|put| put.1 != byte);
        let mut say = |what: &'static str, holds: bool| {
            if holds {
                add(&mut self.earlier, (what, same));
            }
        };
        say("none by either", before[0].is_empty() && before[1].is_empty());
        say("another by the first alone", hasnt(0, first.1) && before[1].is_empty());
        say("another by the second alone", before[0].is_empty() && hasnt(1, second.1));
        say("others by both", hasnt(0, first.1) && hasnt(1, second.1));
        say("the second's last byte by the first", has(0, second.1));
        say("the first's last byte by the second", has(1, first.1));
        say("equal first puts", two[0].puts[at][0].1 == two[1].puts[at][0].1);
        say("unequal first puts", two[0].puts[at][0].1 != two[1].puts[at][0].1);
    }

    fn clash(&mut self, memory: &[u8], two: &[Seen; 2], clashes: &[usize]) {
        for at in 0..memory.len() {
            self.shared(two, at);
        }
        for at in clashes {
            let [Some((_, first)), Some((_, second))] = two.each_ref().map(|seen| seen.last(*at)) else { return };
            let change = first ^ second;
            let alone = clashes.len() == 1;
            if alone && change.count_ones() == 1 {
                add(&mut self.bits, change.trailing_zeros());
            }
            let mut say = |what: &'static str, holds: bool| {
                if holds {
                    add(&mut self.clashes, what);
                }
            };
            say("at one address alone", alone);
            say("at several addresses", !alone);
            say("at address 0 alone", alone && *at == 0);
            say("at the last address alone", alone && at + 1 == memory.len());
            say("at a frame's last byte alone", alone && at % 512 == 511 && at + 1 < memory.len());
            say("at a frame's first byte alone", alone && at % 512 == 0 && *at > 0);
            say("in the high half alone", alone && change & 0x0F == 0);
            say("in the low half alone", alone && change & 0xF0 == 0);
            say("in both halves", change & 0x0F != 0 && change & 0xF0 != 0);
            say("0 of the first", first == 0);
            say("0 of the second", second == 0);
            say("the first's byte is the memory's", alone && first == memory[*at]);
            say("the second's byte is the memory's", alone && second == memory[*at]);
            say(
                "between addresses that agree",
                alone
                    && (0..memory.len()).any(
                        |other| matches!(two.each_ref().map(|seen| seen.last(other)), [Some(a), Some(b)] if a.1 == b.1),
                    ),
            );
        }
    }

    fn loaded(&mut self, memory: &[u8], pair: &Pair, two: &[Seen; 2], earlier: &mut [bool]) {
        for (at, old) in memory.iter().enumerate() {
            self.shared(two, at);
            let (who, byte) = match two.each_ref().map(|seen| seen.last(at)) {
                [Some((_, byte)), None] => ("the first alone", byte),
                [None, Some((_, byte))] => ("the second alone", byte),
                [Some((_, byte)), Some(_)] => ("both", byte),
                [None, None] => continue,
            };
            add(&mut self.bytes, (who, if byte == 0 { "0" } else { "another" }));
            add(&mut self.bytes, (who, if byte == *old { "as the memory" } else { "changing the memory" }));
            if byte == 0 && *old != 0 {
                add(&mut self.bytes, (who, "0 over another"));
            }
            if earlier[at] {
                add(&mut self.bytes, (who, "over an earlier load"));
            }
            if at == 0 {
                add(&mut self.bytes, (who, "at address 0"));
            }
            if at + 1 == memory.len() {
                add(&mut self.bytes, (who, "at the last address"));
            }
            earlier[at] = true;
        }
        let mut say = |what: &'static str, holds: bool| {
            if holds {
                add(&mut self.calls, what);
            }
        };
        let shared = |at: usize| two.iter().all(|seen| seen.last(at).is_some());
        let puts = |seen: &Seen| (0..memory.len()).any(|at| seen.last(at).is_some());
        let [first, second] = two;
        say("a list with itself", pair.first == pair.second && puts(first));
        say("the end alone as the first", first.commands.is_empty() && puts(second));
        say("the end alone as the second", puts(first) && second.commands.is_empty());
        say("the end alone as both", first.commands.is_empty() && second.commands.is_empty());
        say("no address in common", puts(first) && puts(second) && !(0..memory.len()).any(shared));
        say("all of the memory", (0..memory.len()).all(|at| two.iter().any(|seen| seen.last(at).is_some())));
        let starts = |seen: &Seen| seen.commands.first().is_some_and(|command| !command.bytes().is_empty());
        say("the second starts at 0, the first ends elsewhere", first.moved() && starts(second));
    }
}

/// What missing cells are called, and the room for a row's name.
const SUBJECT: &str = "joint loading";
const ROOM: usize = 50;

fn row<K: Ord>(table: &mut Table, counts: &Counts<K>, name: &str, cells: Vec<(K, bool)>) {
    table.row(counts, SUBJECT, name, ROOM, cells);
}

pub fn pairs(cover: &Cover, table: &mut Table) {
    let joint = &cover.joint;
    println!("Joint loading: why a pair is refused, by the first list and by the second");
    for (number, reason) in [
        (17, "empty list"),
        (17, "no end"),
        (17, "01h cut short"),
        (17, "02h cut short"),
        (17, "03h cut short"),
        (17, "04h cut short in its count"),
        (17, "04h cut short before its byte"),
        (17, "unknown command"),
        (17, "bytes after the end"),
        (18, "more than 4,096 pieces"),
        (19, "02h outside memory"),
        (19, "03h outside memory"),
        (19, "03h across the memory's end"),
        (19, "04h outside memory"),
        (19, "04h across the memory's end"),
    ] {
        let cells = [number - 16, number - 13].map(|place| ((place, reason), true)).to_vec();
        row(table, &joint.refusals, &format!("{number} {reason}"), cells);
    }
    for (place, reason) in
        [(0, "length 0"), (0, "length no multiple of 512"), (7, "scratch too short"), (8, "two unequal last bytes")]
    {
        row(table, &joint.refusals, &format!("{} {reason}", TRIED[place]), vec![((place, reason), true)]);
    }
    println!("Joint loading: what refuses a pair (rows), and what else it breaks (columns 1, first's 17, 18, 19,");
    println!("second's 17, 18, 19, 22, 23; lists are judged as far as they can be read)");
    for (i, name) in TRIED.into_iter().enumerate() {
        row(table, &joint.orders, name, (0..TRIED.len()).map(|other| ((i, other), other >= i)).collect());
    }
    println!("  impossible: what is tried earlier refuses");
    row(table, &joint.kept, "would change memory, as far as read", (0..TRIED.len()).map(|i| (i, true)).collect());
    println!("Joint loading: the scratch against the memory, with bytes other than 0 and all zeros");
    println!("  columns: longer, as long, one byte shorter, none, shorter; each unclean and zeros");
    for number in [0, 1, 17, 18, 19, 22, 23] {
        let mut cells = Vec::new();
        for size in ["longer", "as long", "one byte shorter", "none", "shorter"] {
            for zeros in [false, true] {
                let fits = size == "longer" || size == "as long";
                let wanted = match number {
                    0 | 23 => fits,
                    22 => !fits,
                    _ => true,
                };
                cells.push(((number, size, zeros), wanted && (size != "none" || zeros)));
            }
        }
        row(table, &joint.scratches, &format!("answer {number}"), cells);
    }
    println!("  impossible: 22 refuses what is shorter before 23; no bytes count as zeros");
    println!("Joint loading: addresses that both put, by the commands of the last puts (02h, 03h, 04h of the second)");
    for (name, same) in [("equal bytes", true), ("unequal bytes", false)] {
        for first in 2..=4 {
            let cells = (2..=4).map(|second| ((first, second, same), true)).collect();
            row(table, &joint.over, &format!("0{first}h of the first, {name}"), cells);
        }
    }
    println!("Joint loading: puts there before the last ones, which agree or clash");
    for what in [
        "none by either",
        "another by the first alone",
        "another by the second alone",
        "others by both",
        "the second's last byte by the first",
        "the first's last byte by the second",
        "equal first puts",
        "unequal first puts",
    ] {
        row(table, &joint.earlier, what, [true, false].map(|same| ((what, same), true)).to_vec());
    }
    println!(
        "Joint loading: bytes of pairs that load (0, another; as the memory, changing it; 0 over another; over an"
    );
    println!("earlier load; at address 0; at the last address)");
    for who in ["the first alone", "the second alone", "both"] {
        let cells = [
            "0",
            "another",
            "as the memory",
            "changing the memory",
            "0 over another",
            "over an earlier load",
            "at address 0",
            "at the last address",
        ];
        row(table, &joint.bytes, who, cells.map(|what| ((who, what), true)).to_vec());
    }
    println!("Joint loading: clashes");
    let names = [
        "at one address alone",
        "at several addresses",
        "at address 0 alone",
        "at the last address alone",
        "at a frame's last byte alone",
        "at a frame's first byte alone",
        "in the high half alone",
        "in the low half alone",
        "in both halves",
        "0 of the first",
        "0 of the second",
        "the first's byte is the memory's",
        "the second's byte is the memory's",
        "between addresses that agree",
    ];
    table.column(&joint.clashes, SUBJECT, ROOM, &names);
    row(table, &joint.bits, "in one bit (of value 1 to 80h)", (0..8).map(|bit| (bit, true)).collect());
    println!("Joint loading: pieces of pairs that load or clash, and of pairs that 18 refuses");
    let names = [
        "more than 256 of the first",
        "more than 256 of the second",
        "4,096 of the first, few of the second",
        "few of the first, 4,096 of the second",
        "4,096 of each",
        "fewer of each, more than 4,096 together",
        "4,097 of the first, few of the second",
        "few of the first, 4,097 of the second",
        "4,097 of each",
    ];
    table.column(&joint.pieces, SUBJECT, ROOM, &names);
    println!("Joint loading: pairs that load, and pairs among other calls");
    let names = [
        "a list with itself",
        "the end alone as the first",
        "the end alone as the second",
        "the end alone as both",
        "no address in common",
        "all of the memory",
        "the second starts at 0, the first ends elsewhere",
        "a pair after a load",
        "a load after a pair",
        "a load after a refused pair",
        "a pair after a pair",
        "a pair after a refused pair",
        "a run after a pair",
        "a run after a refused pair",
    ];
    table.column(&joint.calls, SUBJECT, ROOM, &names);
    println!();
}
