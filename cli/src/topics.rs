//! What the help says of all verbs: files, numbers, stops, the exit status.

use crate::verbs::Text::{self, Say, Show, Table};

/// A part of the help that is of no single verb.
#[derive(Debug)]
pub struct Topic {
    /// As in `desk help NAME`.
    pub name: &'static str,
    pub title: &'static str,
    /// Whether `desk help` shows it too; the man page has all.
    pub in_overview: bool,
    pub text: &'static [Text],
}

/// The topic of a name.
pub fn topic(name: &str) -> Option<&'static Topic> {
    TOPICS.iter().find(|topic| topic.name == name)
}

pub const TOPICS: &[Topic] = &[
    Topic {
        name: "files",
        title: "FILES",
        in_overview: true,
        text: &[
            Say("FILE is told by its ending:"),
            Table(&[
                (".mi", "a source in MI's notation; `desk help asm` tells of it"),
                (".hex", "bytes in hexadecimal digits, 64*00 for 64 times 00, remarks from # on"),
                (".load", "a load list, which the library loads into a memory of zeros, with --with together with a second one; `desk help load` tells of it"),
                ("others", "the bytes themselves, from real address 0 on; where they look like text the name must end in .bin"),
            ]),
            Say("Where the file does not say otherwise, the system block is at 0, the control block at 100h, and the desk starts at 200h in kernel mode, as under the repository's `trace`. The machine's manual is docs/MACHINE.md in the repository; `desk help memory` and `desk help stops` tell the most needed of it."),
        ],
    },
    Topic {
        name: "numbers",
        title: "NUMBERS",
        in_overview: true,
        text: &[Say("A number is decimal, or hexadecimal with h at its end: 410h, also 0x410 and H'410'. In what `desk` writes, a number that ends in h is hexadecimal, a row of eight digits too, and all before the bar of a listing but the number before `*`; any other is decimal.")],
    },
    Topic {
        name: "memory",
        title: "MEMORY, PAGES, MAPS",
        in_overview: false,
        text: MEMORY,
    },
    Topic {
        name: "stops",
        title: "STOPS, CAUSES, REFUSALS",
        in_overview: false,
        text: &[
            Say("In user mode an alarm is the cause of a kernel entry; its argument stands in the control block. In kernel mode an alarm stops the desk."),
            Table(STOPS),
            Say("The library refuses, with desk and memory as they were (a number up to 7 is of the desk, 17 to 19 of a load list, 20 of a run, 22 and 23 of two load lists):"),
            Table(REFUSALS),
        ],
    },
    Topic { name: "status", title: "EXIT STATUS", in_overview: true, text: &[Table(STATUSES)] },
    Topic {
        name: "examples",
        title: "EXAMPLES",
        in_overview: true,
        text: &[Say("The files are in the repository."), Show(
            "desk run examples/minimum.mi\n\
             desk run examples/user_mode.mi --trace\n\
             desk run examples/user_mode.mi --until entry:11 --dump 800h,4\n\
             desk run examples/factorial.mi --break one\n\
             desk debug examples/isolation.mi\n\
             desk map examples/isolation.mi\n\
             desk load examples/parts.load\n\
             desk run examples/lookup.load --with examples/table.load\n\
             desk picture examples/isolation.mi -o isolation.svg",
        )],
    },
];

/// Sizes, frames, pages and blocks, as the manual has them.
const MEMORY: &[Text] = &[
    Say("The sizes are B, 1 byte, H, 2 bytes, and W, a word of 4 bytes; floating numbers are F, 4 bytes, and D, 8 bytes, IEEE's binary32 and binary64. A value's highest byte comes first (big-endian): the word 01020304h is stored as 01 02 03 04. Commands and values may stand at any address."),
    Say("The memory is a row of frames of 512 bytes: frame f has the real addresses from 512 x f on. The kernel uses real addresses. A program uses virtual ones, in pages of 512 bytes, and its map says to which frame each page leads: page p has the addresses from 512 x p on, and the word at map base + 4 x p is its entry:"),
    Table(&[
        ("80000000h", "the page is there; without this bit the entry is absent, and the others mean nothing"),
        ("40000000h", "it may be written; every page that is there may be read"),
        ("20000000h", "no commands may be fetched from it; without this bit it may be run"),
        ("1F000000h", "these bits must be 0"),
        ("00FFFFFFh", "the frame's number"),
    ]),
    Say("The system block has 256 bytes: for cause c, at 8 x c, the R15 and the status word with which the kernel is entered. The status must have 80000000h and may have level and flags; with any other the desk stops with 16. A control block has 80 bytes: R0 to R15, the status (at 64), the argument of the last entry (68), map base (72) and map length in pages (76). A kernel entry saves the registers there, RESUME loads them."),
];

/// Stops, alarms and causes, as the manual has them.
const STOPS: &[(&str, &str)] = &[
    ("0", "stop: HALT"),
    ("1", "cause: a system call; argument: its value"),
    ("2", "cause: alarm 21"),
    ("8", "alarm: the page is past the map, or in kernel mode the byte past the memory; argument of 8 to 11: the byte's address"),
    ("9", "alarm: the page's map entry is absent"),
    ("10", "alarm: bits 28 to 24 of the map entry are not 0, or its frame is past the memory"),
    ("11", "alarm: a write to a page whose map entry has no right to write"),
    ("12", "alarm: an unknown command byte; argument: the byte"),
    ("13", "alarm: HALT or RESUME in user mode, a system call in kernel mode; argument: the byte"),
    ("14", "alarm: an operand breaks a rule of its form, or RESUME's block cannot be used; argument: the operand's place, from 1"),
    ("15", "alarm: DIV of B, H or W by zero; argument: 0"),
    ("16", "stop: an alarm, a system call or an interrupt came, and the system block has no valid kernel status for it"),
    ("17 to 31", "cause: an interrupt of level 1 to 15; argument: the level"),
    ("21", "alarm: a byte of a command is fetched from a page without commands, whose map entry has 20000000h; its cause is 2, since 21 is that of an interrupt; argument: the byte's address"),
];

const REFUSALS: &[(&str, &str)] = &[
    ("1", "the memory length is not a multiple of 512 from 512 to 16,777,216"),
    ("2", "the system block is not at a multiple of 4, or not in the memory with its 256 bytes"),
    ("3", "the control block is not at a multiple of 4, or not in the memory with its 80 bytes"),
    ("4", "the map is not at a multiple of 4, or not in the memory"),
    ("5", "the status has an undefined bit, or level 0 is pending"),
    ("6", "a requested level is 0 or above 15"),
    ("7", "the desk has stopped"),
    ("17", "a load list with an unknown command, cut short, or with bytes after its end"),
    ("18", "a load list with more than 4,096 pieces"),
    ("19", "a load list that puts a byte outside memory"),
    ("20", "a run with more than 64 breakpoints, armed or not"),
    ("22", "two load lists with a scratch that is shorter than the memory; `desk` lends one that is as long"),
    ("23", "two load lists that clash: at an address that both put, their last bytes differ"),
];

/// What the exit status tells.
const STATUSES: &[(&str, &str)] = &[
    ("0", "the program ended with HALT; of other verbs than run: it is done"),
    ("8, 12 to 16", "run: the program ended with the stop of that number"),
    (
        "32 + number",
        "the library refused: 33 to 39 for refusals 1 to 7, 49 to 52 for 17 to 20, 54 and 55 for 22 and 23",
    ),
    ("64", "the arguments do not fit"),
    ("65", "a file's content is not usable; messages say where"),
    ("66", "a file cannot be read"),
    ("70", "the script `desk`: the library or the command cannot be built"),
    ("74", "the output cannot be written"),
    ("123", "run: a breakpoint of --break is reached"),
    ("124", "run: the step limit is reached"),
    ("125", "run: what --until names is reached"),
];
