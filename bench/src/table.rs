//! The tables: the loops, then the load lists, then the pairs of them, then the loops with breakpoints.

use crate::breakpoint_runs::{MeasuredBreakpoints, RUN};
use crate::breakpoints::Breakpoints;
use crate::contender::{Contender, CONTENDERS};
use crate::loader::LOADERS;
use crate::loops::LENGTHS;
use crate::measure::{Measured, MeasuredLists, MeasuredPairs, Results};
use crate::pairs;

/// The value at a part of the way through the sorted values.
fn quantile(values: &[f64], part: f64) -> f64 {
    let mut values = values.to_vec();
    values.sort_by(f64::total_cmp);
    let at = part * (values.len() - 1) as f64;
    let (low, high) = (values[at.floor() as usize], values[at.ceil() as usize]);
    low + (high - low) * at.fract()
}

fn best(speeds: &[f64]) -> String {
    let best = speeds.iter().copied().fold(0.0, f64::max);
    format!("{:.1}", best / 1e6)
}

/// The milliseconds of a call at the best speed.
fn shortest(speeds: &[f64]) -> String {
    let best = speeds.iter().copied().fold(0.0, f64::max);
    format!("{:.2}", 1e3 / best)
}

/// The median of the ratios within the rounds, with the quartiles.
fn ratio(ours: &[f64], theirs: &[f64]) -> String {
    let ratios: Vec<f64> = ours.iter().zip(theirs).map(|(a, b)| a / b).collect();
    format!("{:.2} ({:.2}-{:.2})", quantile(&ratios, 0.5), quantile(&ratios, 0.25), quantile(&ratios, 0.75))
}

fn size(length: usize) -> String {
    match length >> 10 {
        kib if kib < 1024 => format!("{kib} KiB"),
        kib => format!("{} MiB", kib >> 10),
    }
}

impl Measured {
    /// The speeds of a desk in the memory of this place in the loop's lengths.
    fn desk(&self, memory: usize, contender: Contender) -> &[f64] {
        let at = CONTENDERS.iter().position(|c| *c == contender).expect("every contender is measured");
        &self.desks[memory][at]
    }

    /// The faster simulator, by the median.
    fn faster(&self) -> Option<usize> {
        let median = |i: &usize| quantile(&self.simulators[*i], 0.5);
        (0..self.simulators.len()).max_by(|a, b| median(a).total_cmp(&median(b)))
    }

    fn row(&self, memory: usize, simulators: &[&str]) -> [String; COLUMNS] {
        let desk = |contender| self.desk(memory, contender);
        let proved = desk(Contender::Proved);
        let (simh, over_simh) = match self.faster() {
            Some(i) => (format!("{} {}", best(&self.simulators[i]), simulators[i]), ratio(proved, &self.simulators[i])),
            None => ("-".into(), "-".into()),
        };
        [
            self.which.kind.title().into(),
            self.which.mode.name().into(),
            size(self.which.lengths()[memory]),
            best(proved),
            best(desk(Contender::Bytewise)),
            best(desk(Contender::Word)),
            best(desk(Contender::Model)),
            simh,
            over_simh,
            ratio(proved, desk(Contender::Word)),
            ratio(proved, desk(Contender::Bytewise)),
        ]
    }
}

const COLUMNS: usize = 11;
const HEAD: [(&str, usize); COLUMNS] = [
    ("loop", 8),
    ("mode", 6),
    ("memory", 7),
    ("proved", 6),
    ("bytewise", 8),
    ("word", 5),
    ("model", 5),
    ("simh", 11),
    ("proved/simh", 16),
    ("proved/word", 16),
    ("proved/bytewise", 16),
];

impl MeasuredLists {
    fn row(&self, memory: usize) -> [String; LIST_COLUMNS] {
        let [proved, plain] = &self.loaders[memory];
        [self.kind.name().into(), size(LENGTHS[memory]), best(proved), best(plain), ratio(proved, plain)]
    }
}

const LIST_COLUMNS: usize = 2 + LOADERS.len() + 1;
const LIST_HEAD: [(&str, usize); LIST_COLUMNS] =
    [("lists", 6), ("memory", 7), (LOADERS[0].name(), 8), (LOADERS[1].name(), 8), ("proved/plain", 16)];

impl MeasuredPairs {
    fn row(&self) -> [String; LIST_COLUMNS] {
        let [proved, plain] = &self.loaders;
        [self.kind.name().into(), size(pairs::LENGTH), shortest(proved), shortest(plain), ratio(proved, plain)]
    }
}

const PAIR_HEAD: [(&str, usize); LIST_COLUMNS] =
    [("pairs", 6), ("memory", 7), (LOADERS[0].name(), 8), (LOADERS[1].name(), 8), ("proved/plain", 16)];

impl MeasuredBreakpoints {
    /// The lists with their headings beside plain Rust.
    fn beside_plain(&self) -> impl Iterator<Item = (Breakpoints, &'static str)> + '_ {
        self.kinds.iter().filter_map(|kind| Some((*kind, kind.beside_plain()?)))
    }

    fn head(&self) -> Vec<(&'static str, usize)> {
        let lists = self.kinds.iter().map(|kind| kind.name()).chain(self.beside_plain().map(|(_, name)| name));
        [("loop", 8), ("mode", 6), ("run", 6)].into_iter().chain(lists.map(|name| (name, 16))).collect()
    }

    fn row(&self) -> Vec<String> {
        let run = self.speeds(RUN);
        let proved = |kind| self.speeds((Contender::Proved, Some(kind)));
        let mut row = vec![self.which.kind.title().into(), self.which.mode.name().into(), best(run)];
        row.extend(self.kinds.iter().map(|kind| ratio(proved(*kind), run)));
        row.extend(
            self.beside_plain().map(|(kind, _)| ratio(proved(kind), self.speeds((Contender::Word, Some(kind))))),
        );
        row
    }
}

fn line(head: &[(&str, usize)], cells: &[String]) {
    let cells: Vec<String> = cells.iter().zip(head).map(|(cell, (_, width))| format!("{cell:>width$}")).collect();
    println!("| {} |", cells.join(" | "));
}

fn head_lines(head: &[(&str, usize)]) {
    line(head, &head.iter().map(|(name, _)| String::from(*name)).collect::<Vec<_>>());
    line(head, &head.iter().map(|(_, width)| "-".repeat(*width)).collect::<Vec<_>>());
}

/// The tables that have rows.
pub fn print_all(results: &Results, simulators: &[&str]) {
    let mut between = "";
    if !results.loops.is_empty() {
        print(&results.loops, simulators);
        between = "\n";
    }
    if !results.lists.is_empty() {
        print!("{between}");
        print_lists(&results.lists);
        between = "\n";
    }
    if !results.pairs.is_empty() {
        print!("{between}");
        print_pairs(&results.pairs);
        between = "\n";
    }
    if let Some(first) = results.breakpoints.first() {
        print!("{between}");
        print_breakpoints(&results.breakpoints, &first.head());
    }
}

fn print(loops: &[Measured], simulators: &[&str]) {
    let rounds = loops.first().map_or(0, |measured| measured.desks[0][0].len());
    println!("Million commands a second of CPU time, the best of {rounds} rounds.");
    println!("proved/..: the ratio of speeds within a round, median (quartiles); above 1 the proved desk is faster.");
    println!();
    head_lines(&HEAD);
    for measured in loops {
        for memory in 0..measured.desks.len() {
            line(&HEAD, &measured.row(memory, simulators));
        }
    }
    println!();
    print_growth(loops);
    println!("bytewise, word: plain Rust that looks up every byte, or a word once. model: the Rust model in model/.");
    match simulators {
        [] => println!("simh is not installed (Debian: apt-get install simh), so its columns are empty."),
        [one] => println!("simh: {one}; its mapping is on for user mode."),
        _ => println!(
            "simh: of {} the faster one on that loop; its mapping is on for user mode.",
            simulators.join(" and ")
        ),
    }
}

/// The loops that are measured in both memories.
fn print_growth(loops: &[Measured]) {
    let mut both = loops.iter().filter(|measured| measured.desks.len() == LENGTHS.len()).peekable();
    if both.peek().is_some() {
        println!("proved, {} against {}: the same ratio.", size(LENGTHS[1]), size(LENGTHS[0]));
    }
    for measured in both {
        let growth = ratio(measured.desk(1, Contender::Proved), measured.desk(0, Contender::Proved));
        println!("    {:<10} {growth}", measured.which.name());
    }
}

fn print_lists(lists: &[MeasuredLists]) {
    let rounds = lists.first().map_or(0, |measured| measured.loaders[0][0].len());
    println!("Load lists: million bytes put a second of CPU time, the best of {rounds} rounds.");
    println!(
        "proved/plain: the ratio of speeds within a round, median (quartiles); above 1 the proved load is faster."
    );
    println!();
    head_lines(&LIST_HEAD);
    for measured in lists {
        for memory in 0..LENGTHS.len() {
            line(&LIST_HEAD, &measured.row(memory));
        }
    }
    println!();
    println!("plain: safe Rust that judges the list in one pass and puts it in another, as the proved load does.");
}

fn print_pairs(pairs: &[MeasuredPairs]) {
    let rounds = pairs.first().map_or(0, |measured| measured.loaders[0].len());
    println!("Two load lists together: milliseconds of CPU time a call, the best of {rounds} rounds.");
    println!(
        "proved/plain: the ratio of speeds within a round, median (quartiles); above 1 the proved load is faster."
    );
    println!();
    head_lines(&PAIR_HEAD);
    for measured in pairs {
        line(&PAIR_HEAD, &measured.row());
    }
    println!();
    println!("plain: safe Rust that finds a clash in two rounds over the scratch, as the proved load does.");
}

fn print_breakpoints(loops: &[MeasuredBreakpoints], head: &[(&str, usize)]) {
    let rounds = loops.first().map_or(0, |measured| measured.speeds(RUN).len());
    println!("Runs with breakpoints that are not met, {} of memory, {rounds} rounds.", size(LENGTHS[0]));
    println!(
        "run: the proved desk without breakpoints, million commands a second of CPU time, the best of the rounds."
    );
    println!("The lists: the ratio to it of the proved desk's speed with breakpoints, median (quartiles).");
    println!("../plain: the ratio to plain Rust with the same list; above 1 the proved desk is faster.");
    println!();
    head_lines(head);
    for measured in loops {
        line(head, &measured.row());
    }
    println!();
    println!(
        "none: an empty list. off: 64, all off. one: an armed one. near: an armed one whose address is, modulo 64,"
    );
    println!(
        "that of a command of the loop. 64: 64 armed ones. plain: word, which searches the list before each step."
    );
}
