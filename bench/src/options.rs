//! Arguments of the command.

use crate::breakpoints::{self, Breakpoints};
use crate::contender::Contender;
use crate::lists::{self, Lists};
use crate::loader::Loader;
use crate::loops::{self, Loop};
use crate::measure::Wanted;
use crate::pairs::{self, Pairs};

pub const USAGE: &str = "bench/run [ROUNDS] [--loop LOOPS] [--list LIST] [--pair PAIR]  the tables, of loops, a kind of list or a kind of pair alone where named (default: as many rounds as 3 minutes allow)
bench/run [ROUNDS] --breakpoints POINTS [--loop LOOPS]   the table of runs with breakpoints alone, of one list of them or all
bench/run --loop LOOP --count N [--desk DESK]   N commands of one desk, once, for a profiler
bench/run --loop LOOP --breakpoints POINTS --count N [--desk DESK]   N commands of one desk with breakpoints, once
bench/run --list LIST --count N [--desk DESK]   N loads by one desk, once, for a profiler
bench/run --pair PAIR --count N [--desk DESK]   N loads of two lists by one desk, once, for a profiler
LOOP: reg, mem, small, stack, forms, jumps, three or floats, and -kernel or -user; DESK: proved (default), bytewise, word, model
LOOPS: as LOOP or without the mode, which names both; several with commas between
POINTS: none, off, one, near or 64, in the table also all; DESK: as for LOOP
LIST: runs, pieces or again; DESK: proved (default), plain
PAIR: runs or pieces; DESK: proved (default), plain";

pub enum Options {
    Tables { wanted: Wanted, rounds: Option<usize> },
    Commands { which: Loop, breakpoints: Option<Breakpoints>, contender: Contender, count: u64 },
    Loads { kind: Lists, loader: Loader, count: usize },
    Calls { kind: Pairs, loader: Loader, count: usize },
}

/// What the arguments name.
#[derive(Default)]
struct Named {
    which: Option<Vec<Loop>>,
    kind: Option<Lists>,
    pair: Option<Pairs>,
    breakpoints: Option<Vec<Breakpoints>>,
    count: Option<u64>,
    desk: Option<String>,
    rounds: Option<usize>,
}

fn wrong(what: &str) -> String {
    format!("{what}\n{USAGE}")
}

fn read(mut arguments: impl Iterator<Item = String>) -> Result<Named, String> {
    let mut named = Named::default();
    while let Some(argument) = arguments.next() {
        let mut value = || arguments.next().ok_or_else(|| wrong(&format!("{argument} needs a value")));
        match argument.as_str() {
            "--loop" => named.which = Some(Loop::named(&value()?).ok_or_else(|| wrong("no such loop"))?),
            "--list" => named.kind = Some(Lists::named(&value()?).ok_or_else(|| wrong("no such list"))?),
            "--pair" => named.pair = Some(Pairs::named(&value()?).ok_or_else(|| wrong("no such pair"))?),
            "--breakpoints" => {
                let lists = Breakpoints::named(&value()?);
                named.breakpoints = Some(lists.ok_or_else(|| wrong("no such list of breakpoints"))?);
            }
            "--count" => named.count = Some(value()?.parse().map_err(|_| wrong("the count is a number"))?),
            "--desk" => named.desk = Some(value()?),
            number => match number.parse() {
                Ok(n) if n > 0 => named.rounds = Some(n),
                _ => return Err(wrong(&format!("not known: {number}"))),
            },
        }
    }
    Ok(named)
}

impl Named {
    /// All, or what is named. Loops that are named with breakpoints run with them only.
    fn wanted(self) -> Wanted {
        match self {
            Named { which: None, kind: None, pair: None, breakpoints: None, .. } => Wanted {
                loops: loops::all().collect(),
                lists: lists::ALL.to_vec(),
                pairs: pairs::ALL.to_vec(),
                breakpoint_loops: loops::all().collect(),
                breakpoints: breakpoints::ALL.to_vec(),
            },
            Named { which, kind, pair, breakpoints, .. } => {
                let (loops, breakpoint_loops) = match breakpoints {
                    Some(_) => (vec![], which.unwrap_or_else(|| loops::all().collect())),
                    None => (which.unwrap_or_default(), vec![]),
                };
                Wanted {
                    loops,
                    lists: kind.into_iter().collect(),
                    pairs: pair.into_iter().collect(),
                    breakpoint_loops,
                    breakpoints: breakpoints.unwrap_or_default(),
                }
            }
        }
    }

    /// So many commands, loads or calls, once.
    fn once(self, count: u64) -> Result<Options, String> {
        let name = self.desk.as_deref().unwrap_or("proved");
        let loader = || Loader::named(name).ok_or_else(|| wrong("no such desk"));
        match (self.which.as_deref(), self.kind, self.pair, self.breakpoints.as_deref()) {
            (Some(&[which]), None, None, None | Some([_])) => {
                let contender = Contender::named(name).ok_or_else(|| wrong("no such desk"))?;
                Ok(Options::Commands { which, breakpoints: self.breakpoints.map(|lists| lists[0]), contender, count })
            }
            (None, Some(kind), None, None) => Ok(Options::Loads { kind, loader: loader()?, count: count as usize }),
            (None, None, Some(kind), None) => Ok(Options::Calls { kind, loader: loader()?, count: count as usize }),
            _ => Err(wrong(
                "--count wants --loop with one loop, alone or with one list of breakpoints, or --list or --pair",
            )),
        }
    }
}

pub fn parse(arguments: impl Iterator<Item = String>) -> Result<Options, String> {
    let named = read(arguments)?;
    match named.count {
        Some(count) => named.once(count),
        None if named.desk.is_some() => Err(wrong("--desk wants --count")),
        None => Ok(Options::Tables { rounds: named.rounds, wanted: named.wanted() }),
    }
}
