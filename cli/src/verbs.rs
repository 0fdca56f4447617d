//! The verbs of `desk` with their options and what `desk help` says of them: the one source of the parser in `options.rs`,
//! of the help and of the man page.

/// A verb.
#[derive(Debug)]
pub struct Verb {
    pub name: &'static str,
    /// Its operands as the help writes them.
    pub operands: &'static str,
    /// How many operands it takes, from and to.
    pub count: (usize, usize),
    /// What it does, as the end of a sentence that starts with its name.
    pub summary: &'static str,
    pub options: &'static [Opt],
    pub text: &'static [Text],
}

/// An option.
#[derive(Debug)]
pub struct Opt {
    pub name: &'static str,
    pub short: Option<&'static str>,
    /// What its value is called, where it takes one.
    pub value: Option<&'static str>,
    /// Whether it may be given several times.
    pub many: bool,
    pub text: &'static str,
}

/// A piece of help.
#[derive(Debug)]
pub enum Text {
    Say(&'static str),
    /// Rows of a word and what it means.
    Table(&'static [(&'static str, &'static str)]),
    /// Lines as they are.
    Show(&'static str),
}

use Text::{Say, Table};

/// The verb of a name.
pub fn verb(name: &str) -> Option<&'static Verb> {
    VERBS.iter().find(|verb| verb.name == name)
}

const fn flag(name: &'static str, text: &'static str) -> Opt {
    Opt { name, short: None, value: None, many: false, text }
}

const fn with(name: &'static str, value: &'static str, text: &'static str) -> Opt {
    Opt { name, short: None, value: Some(value), many: false, text }
}

const fn many(name: &'static str, value: &'static str, text: &'static str) -> Opt {
    Opt { name, short: None, value: Some(value), many: true, text }
}

const fn output(text: &'static str) -> Opt {
    Opt { name: "--output", short: Some("-o"), value: Some("FILE"), many: false, text }
}

const MEMORY: Opt =
    with("--memory", "BYTES", "the memory's length; without it that of FILE, in whole frames; of load lists up to the last byte that they put. The rest is zeros");
const WITH: Opt =
    with("--with", "SECOND.load", "a second load list, which is loaded together with FILE, a load list too");
const SYSTEM: Opt = with("--system", "ADDRESS", "where the system block is, if not where FILE has it");
const CONTROL: Opt = with("--control", "ADDRESS", "where the first control block is, if not where FILE has it");
const START: Opt = with("--start", "ADDRESS", "R15 of the fresh desk, if not as FILE has it");
const STEPS_BEFORE: Opt = with("--steps", "N", "first make N steps, and show what is then; without it nothing is run");

/// All verbs, in the order of a first acquaintance.
pub const VERBS: &[Verb] = &[
    Verb {
        name: "run",
        operands: "FILE",
        count: (1, 1),
        summary: "runs a program on a fresh desk and says in words how it ended",
        options: &[
            with("--steps", "N", "at most N steps; without it at most 1,000,000,000"),
            WITH,
            MEMORY,
            SYSTEM,
            CONTROL,
            START,
            many("--request", "LEVEL@STEP", "requests the interrupt level (1 to 15) just before that step, counted from 1"),
            flag("--trace", "shows each step: number, mode, address, command, flags, and what it changed"),
            with(
                "--until",
                "WHERE",
                "ends before the command at an address or name, or after a kernel entry: `entry`, or `entry:11` for one cause, which of alarm 21 is 2. An alarm for which the system block has no entry is stop 16, and no kernel entry",
            ),
            many(
                "--break",
                "PLACE",
                "sets a breakpoint: holds the run before the command at an address or name, but not before its first step; at most 64",
            ),
            many("--dump", "ADDRESS[,COUNT]", "shows COUNT bytes of memory (64) at the end, from a real address or a name on"),
            flag("--json", "a JSON object for each line of output"),
        ],
        text: &[
            Say("Without --trace the program runs at the library's full speed. On a terminal a run of more than a second shows its progress."),
            Say("The trace writes flags as letters, N Z V C, and `-` for those that are clear. A register or memory word that a step changed is shown with its old and its new value, and of a command with F or D the floating number that it gave. A kernel entry is shown with its cause and argument in words."),
            Say("Breakpoints are numbered from 1, in the order of the options. A name belongs to the kernel or to one program, the first that has it, and only that is held; a number is compared with R15 alone, whoever runs. Where an interrupt is due before the command, the kernel is entered first, and the run is held when the program comes back."),
            Say("With --json each step of --trace is an object, and the last object tells the end. The fields of a step:"),
            Table(&[
                ("step", "its number, from 1"),
                ("mode, address", "`kernel` or `user`, and R15 before the step"),
                ("command, bytes", "in MI's notation and as hexadecimal digits; null where there is no command, and for an interrupt"),
                ("event", "`done`, `entry` or `stop`"),
                ("number", "the cause of an entry or the number of a stop, else null"),
                ("cause, argument", "of an entry, and of the alarm or interrupt behind a stop, else null; the cause of alarm 21 is 2"),
                ("words", "an entry or a stop in words, else null"),
                ("r15, status, flags", "after the step"),
                ("registers", "those changed but R15: objects with name, old and new"),
                ("memory", "the bytes changed: objects with address (as the command used it), real (address), old and new, as hexadecimal digits; without what an entry saves"),
            ]),
            Say("The fields of the end:"),
            Table(&[
                ("end", "`stop`, `limit`, `until`, `break` or `refused`"),
                ("number", "of the stop, the breakpoint or the refusal, else null"),
                ("cause, argument", "of the alarm or interrupt behind a stop, else null"),
                ("words, hints", "the end in words, and a list of where to look"),
                ("exit", "the exit status"),
                ("steps", "the steps made"),
                ("entry", "the last kernel entry: an object with step, cause, argument, words and hints; or null"),
                ("mode, level, flags", "at the end"),
                ("registers, status", "a list of 16 numbers; the status word"),
                ("pending", "a list of levels"),
                ("map_base, map_length, system_block, control_block", "at the end"),
                ("not_made", "the requests whose step was not reached: a list of objects with step and level"),
                ("dumps", "a list of objects with address and bytes"),
            ]),
            Say("Where there is nothing to run, the one object has end, which is `error`, exit and words, the messages that are on standard error too."),
        ],
    },
    Verb {
        name: "debug",
        operands: "FILE",
        count: (1, 1),
        summary: "steps through a program at a prompt, forwards and backwards",
        options: &[
            with("--script", "SCRIPT", "takes the lines from this file instead of standard input"),
            flag("--echo", "writes each line that it takes, behind a prompt, where none is typed at a terminal"),
            WITH,
            MEMORY,
            SYSTEM,
            CONTROL,
            START,
        ],
        text: &[
            Say("Lines in, lines out; there is a prompt where standard input is a terminal. `rlwrap desk debug FILE` gives it a history. A line that starts with `--` or `#` is a remark; an empty one repeats the line before it. Ctrl-C ends all of desk, also in a long run. The commands:"),
            Table(crate::debug::COMMANDS),
            Say("An address is a number such as 410h, a name of the file, or a name and a distance, such as block+4. It is one of the present mode: in user mode a virtual one of the program that runs. `real` before it makes it a real one, and names of another mode lead to their real address; `list` shows those of a program with the program's addresses."),
            Say("A breakpoint holds `run`, `until` and `step` before its command, but not before the first step of each, so that they go on from where they are held; `desk help run` tells more of it. Breakpoints are numbered from 1, and the number of a deleted one is not given again. There are at most 64, armed or off. `undo` leaves them as they are."),
            Say("A script with a line that is not understood is carried on with, and the exit status is then 65."),
        ],
    },
    Verb {
        name: "list",
        operands: "FILE",
        count: (1, 1),
        summary: "lists a program: address, bytes, command and operands in MI's notation",
        options: &[
            output("writes the listing to FILE instead of standard output"),
            flag("--plain", "without the columns of addresses and bytes: for a source that is to be changed"),
            WITH,
            MEMORY,
            SYSTEM,
            CONTROL,
            START,
        ],
        text: &[
            Say("Code is found by following it from the start, from the entries of the system block and from the control blocks through their maps; everything else is data. `desk asm` takes the listing as a source and gives the same bytes."),
            Say("The columns before the bar are the real address, in a program's pages the virtual address too, and the bytes; all in hexadecimal without h, `16*00` is 16 times 00. `desk asm` goes by what stands behind the bar: to change the program, change that. It warns where the columns say something else."),
            Say("Names that the file does not bring are made: L207 is code of the kernel, D410 its data, blockA a control block and the program that it belongs to, mapA its map, blockA_400 its virtual address 400h. The other verbs know the same names."),
        ],
    },
    Verb {
        name: "asm",
        operands: "SOURCE",
        count: (1, 1),
        summary: "assembles a source in MI's notation",
        options: &[output("the file for the bytes; where its name ends in .load, for a load list that loads them")],
        text: &[
            Say("Errors come with line, column, what was found and what was expected, several in one go. In the repository docs/MACHINE.md tells more of the language, under Sources, and examples/ has programs."),
            Table(crate::asm::reference::LINES),
            Say("Operands. The destination is the last one."),
            Table(&crate::forms::SUMMARY),
            Say("Commands; s is the size: B, H or W, of 1, 2 or 4 bytes. f is the kind of floating numbers: F or D, of 4 or 8 bytes; a D takes two registers, R0 to R13 and the next."),
            Table(&crate::table::SUMMARY),
            Say("Data, places, blocks and maps."),
            Table(crate::asm::reference::DIRECTIVES),
            Say("A load list puts the bytes that the source gives, RES and ALI among them, part by part; zeros that it does not give are not put, but for the last byte of a memory that MEMORY makes longer. No list that puts the parts in this order, each byte once, has fewer pieces; where they would be more than 4,096, none is written. SOURCE may be commented hexadecimal too (.hex), of which the bytes are written as they are: for a FILE.load they must be a list."),
        ],
    },
    Verb {
        name: "load",
        operands: "FILE",
        count: (1, 1),
        summary: "says in words what a load list puts where, and what is wrong with it",
        options: &[
            with("--with", "SECOND.load", "a second load list: says what both put, and whether they load together"),
            with(
                "--memory",
                "BYTES",
                "the length of the memory that it is tried on; without it whole frames up to the last byte that is put",
            ),
        ],
        text: &[
            Say("A load list is a row of commands that put bytes into a memory; what they do not put stays. Each is a byte with what stands behind it, numbers highest byte first:"),
            Table(&crate::load::SUMMARY),
            Say("What is put goes to the place, which is 0 at the start and moves on behind it; a later put wins. The commands that put are the pieces, of which there may be 4,096. The library takes a list whole or refuses it, and then the memory is as it was: `desk help stops` has the numbers, 17 to 19."),
            Say("A line is the offset in the list, from 0, and the bytes, in hexadecimal as before the bar of a listing, and behind the bar what the command does, bytes behind a colon in hexadecimal too. Then come what all pieces put, the addresses, and what the library says to the list; the exit status is that of a refusal where it is refused."),
            Say("FILE is taken as a list whatever it is called, but for commented hexadecimal (.hex), whose bytes are the list. The other verbs take a FILE that ends in .load as a list and go on with the memory that it loads; `desk asm SOURCE -o FILE.load` makes one."),
            Say("With --with the library loads two lists together: at each address the memory gets the last byte that either list puts there. Where both put an address their last bytes there must be equal, else they clash, refusal 23; bytes that a list puts over itself do not count. Each list may have 4,096 pieces. `desk load FIRST --with SECOND` says what each puts, which addresses both put, whether they load together, and else which list is wrong or where they clash; `desk load FILE` shows the commands of each."),
        ],
    },
    Verb {
        name: "map",
        operands: "FILE",
        count: (1, 1),
        summary: "says in words which frames each program reaches, and what it may do there",
        options: &[STEPS_BEFORE, WITH, MEMORY, SYSTEM, CONTROL, START],
        text: &[
            Say("For each program: its control block and, page by page, the frame, whether the program may read, write and run it, who else reaches it, and what is wrong with a damaged entry. Then the kernel's entries from the system block."),
            Say("The programs are those that a source names. Of other files they are the blocks that RESUME names in the first 100,000 steps of a trial run."),
        ],
    },
    Verb {
        name: "picture",
        operands: "FILE",
        count: (1, 1),
        summary: "draws the memory as SVG: frames, blocks, maps, and which program reaches what",
        options: &[
            output("the file for the picture; without it standard output"),
            STEPS_BEFORE,
            WITH,
            MEMORY,
            SYSTEM,
            CONTROL,
            START,
        ],
        text: &[Say("Frames are rows and programs are columns; a cell is a page of the program. Frames that several programs reach stand out. Programs are found as `desk map` finds them.")],
    },
    Verb {
        name: "help",
        operands: "[VERB]",
        count: (0, 1),
        summary: "says what the verbs do; of a verb, its options",
        options: &[
            flag("--man", "writes the man page, as roff: `desk help --man > desk.1`"),
            flag("--version", "writes the versions of the command and of the proved library; also `desk --version`"),
        ],
        text: &[],
    },
];
