//! What `desk help asm` tells of the language, besides the tables of commands and forms.

pub const LINES: &[(&str, &str)] = &[
    ("name:", "a label: the name of the place that follows"),
    ("-- ..", "a remark, up to the line's end"),
    (";", "ends a statement, as the line's end does"),
    (
        "0200 7A |",
        "digits before a bar are the columns of a listing, and not assembled; a warning tells where they disagree",
    ),
    ("410h, 0x410, H'410'", "hexadecimal; FFFh is a number where no label is called so"),
    ("1040, -1, B'101', 'A'", "decimal, binary, a character"),
    ("list+4, end-list", "sums of numbers and names"),
    (
        "1.5, -2E10, 7F800000h",
        "a floating number, behind F and D alone: decimal, which becomes the nearest one, or its bits in hexadecimal, as infinities and NaNs need",
    ),
];

pub const DIRECTIVES: &[(&str, &str)] = &[
    ("SEG A", "the next bytes are at the real address A; what stands above the first SEG is at 200h and on"),
    ("s: SEG A", "a segment with a name: s.loop is the name loop in it, where several segments have one"),
    ("SEG A AT V", "and its names count from the virtual address V: a program's pages"),
    ("DD W 3,-1,list", "data of a size, B, H or W; a name is always a word"),
    ("DD F 1.5,-2E10, D 0.1", "floating numbers, of 4 and of 8 bytes"),
    ("DD 'text', (H 1,2)*3", "characters; a group, three times"),
    ("RES n, ALI n", "n zeros; zeros up to a multiple of 2^n"),
    ("EQU n = 5, slot = 8+!R3", "names for texts"),
    ("START A, MEMORY n", "where a fresh desk starts, if not at 200h; the memory's length"),
    ("SYSTEM BLOCK", "256 bytes, where it stands: write SEG 0 above it, which is where a file of bytes has it; below it:"),
    ("ON SYSTEM CALL TO p", "the entry of cause 1"),
    ("ON ALARM 8 TO p", "the entry of an alarm, 8 to 15 or 21; that of 21 is the entry of cause 2"),
    ("ON INTERRUPT 5 TO p", "the entry of a level; `, LEVEL 5` behind it is the kernel's level"),
    ("ON CAUSE 3 TO p, STATUS s", "any entry"),
    ("b: CONTROL BLOCK ..", "80 bytes: START p, MAP m, and R0 5, SP 600h, LEVEL n, STATUS s, ARGUMENT a as needed; b.R0, b.R15, b.status, b.argument, b.map and b.length are names of its fields"),
    ("m: MAP", "a map; below it:"),
    ("PAGE 0: FRAME 3, READ", "page 0 is frame 3, to be read and run"),
    ("PAGE 1: FRAME 4, WRITE", "to be read, written and run"),
    ("PAGE 1: .., NO FETCH", "behind READ or WRITE: no command may be fetched from it (alarm 21)"),
    ("PAGE 2 TO 5: FRAME 8, READ", "a row of pages on a row of frames"),
    ("PAGE 6: FRAME OF p, READ", "the frame in which the name p stands"),
    ("PAGE 7: ABSENT", "an absent entry, as pages without a line have"),
    ("PAGE 8: WORD 12345678h", "any entry"),
];
