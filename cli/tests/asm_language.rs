//! What the parts of the language give, byte by byte.

mod common;

use common::assembled;
use desk::asm::assemble;
use desk::image::Image;

/// The bytes of a source from an address on.
fn bytes_at(source: &str, at: usize) -> Vec<u8> {
    match assemble("source", source) {
        Ok(assembled) => assembled.bytes[at..].to_vec(),
        Err(complaints) => panic!("{}\n{source}", complaints[0]),
    }
}

fn bytes(source: &str) -> Vec<u8> {
    bytes_at(source, 0x200)
}

fn word(image: &Image, at: usize) -> u32 {
    u32::from_be_bytes(image.memory[at..at + 4].try_into().expect("four bytes"))
}

#[test]
fn numbers_are_decimal_hexadecimal_binary_or_characters() {
    assert_eq!(bytes("DD B 10,10h,0x10,H'10',B'10','A',-1,FFh"), [10, 16, 16, 16, 2, 65, 255, 255]);
    assert_eq!(bytes("DD W 'AB'-1,410h+4-1"), [0, 0, b'A', b'A', 0, 0, 4, 0x13]);
}

/// The examples of document 000, 2.7.
#[test]
fn data_as_mi_has_it() {
    assert_eq!(bytes("DD (12, H 17)*2, 35"), [0x0C, 0, 0x11, 0x0C, 0, 0x11, 0x23]);
    assert_eq!(bytes("m: DD 'Hans', m"), [b'H', b'a', b'n', b's', 0, 0, 2, 0]);
    assert_eq!(bytes("DD H (B 7,13)*2,100"), [7, 13, 7, 13, 0, 100]);
    assert_eq!(bytes("DD 127,128,-128,-129,32768"), [127, 0, 128, 0x80, 0xFF, 0x7F, 0, 0, 0x80, 0]);
    assert_eq!(bytes("W 1"), [0, 0, 0, 1]);
    assert_eq!(bytes("DD 'it''s'"), *b"it's");
}

#[test]
fn an_address_is_a_word_and_a_difference_a_number() {
    assert_eq!(bytes("a: DD B a,1"), [0, 0, 2, 0, 1]);
    assert_eq!(bytes("a: DD B e-a,2\ne:"), [2, 2]);
    assert_eq!(bytes("a: DD H a+4"), [0, 0, 2, 4]);
}

#[test]
fn space_and_alignment() {
    assert_eq!(bytes("DD B 1\nRES 2\nDD B 2"), [1, 0, 0, 2]);
    assert_eq!(bytes("DD B 1\nALI 2\nDD B 2\nALI 2"), [1, 0, 0, 0, 2, 0, 0, 0]);
    assert_eq!(bytes("EQU n = 3\nRES n\nDD B n"), [0, 0, 0, 3]);
}

#[test]
fn statements_end_with_the_line_or_a_semicolon() {
    assert_eq!(bytes("HALT; PUSHR;; POPR -- RET; RET\nRET"), [0, 1, 2, 0x7A]);
    assert_eq!(bytes("a: b:\r\nc: HALT\r\nDD W c-a\r\n"), [0, 0, 0, 0, 0]);
    assert_eq!(bytes("HALT\rPUSHR\r\nPOPR\n\rRET"), [0, 1, 2, 0x7A]);
    assert_eq!(bytes("HALT\nEND\nnonsense {"), [0]);
}

#[test]
fn what_stands_before_a_bar_is_not_read() {
    assert_eq!(bytes("0200  7A | RET\n0300 0004 12*00 .. | HALT\n | POPR"), [0x7A, 0, 2]);
    assert_eq!(bytes("DD 'a|b'"), *b"a|b");
}

#[test]
fn equ_puts_a_text_in_place_of_a_name() {
    let expected = bytes("MOVE W I 5,R3\nMOVE W 8+!R3,R3");
    assert_eq!(
        bytes("EQU five = I 5, index = R3\nEQU slot = 8+!index\nMOVE W five,index\nMOVE W slot,index"),
        expected
    );
}

#[test]
fn a_name_that_looks_like_a_number_is_a_name() {
    assert_eq!(bytes("JUMP FFFh")[3..], [0, 0, 0x0F, 0xFF]);
    assert_eq!(bytes("JUMP FFFh\nFFFh: HALT")[3..7], [0, 0, 2, 7]);
}

#[test]
fn names_are_looked_up_in_their_segment_first() {
    let source = "one: SEG 200h\na: JUMP a\ntwo: SEG 300h\na: JUMP a\nJUMP one.a\nb: JUMP two.b";
    let image = assembled("source", source);
    assert_eq!(
        [word(&image, 0x203), word(&image, 0x303), word(&image, 0x30A), word(&image, 0x311)],
        [0x200, 0x300, 0x200, 0x30E]
    );
}

#[test]
fn segments_count_real_or_virtual_addresses() {
    let source = "SEG 600h AT 0\nmain: JUMP next\nnext: SYSTEM CALL I 0\nSEG\nhere: DD W here,main,next";
    let image = assembled("source", source);
    assert_eq!(word(&image, 0x603), 7);
    assert_eq!([word(&image, 0x60E), word(&image, 0x612), word(&image, 0x616)], [0x60E, 0, 7]);
}

#[test]
fn a_system_block() {
    let source = "SEG 0\nSYSTEM BLOCK\nON SYSTEM CALL TO 300h\nON ALARM 8 TO a\nON INTERRUPT 5 TO a+1, LEVEL 5\n\
        ON CAUSE 3 TO 4, STATUS 7\nSEG 200h\na: HALT";
    let image = assembled("source", source);
    assert_eq!([word(&image, 8), word(&image, 12)], [0x300, 0x8000_0000]);
    assert_eq!([word(&image, 64), word(&image, 68)], [0x200, 0x8000_0000]);
    assert_eq!([word(&image, 168), word(&image, 172)], [0x201, 0x8000_0050]);
    assert_eq!([word(&image, 24), word(&image, 28)], [4, 7]);
    assert_eq!(image.system, 0);
}

/// Alarm 21 has the entry of cause 2; that of cause 21 is level 5's.
#[test]
fn alarm_21_has_the_entry_of_cause_2() {
    let block = |on: &str| assembled("source", &format!("SEG 0\nSYSTEM BLOCK\n{on}")).memory;
    let image = assembled("source", "SEG 0\nSYSTEM BLOCK\nON ALARM 21 TO 300h, LEVEL 2\nON INTERRUPT 5 TO 304h");
    assert_eq!([word(&image, 16), word(&image, 20)], [0x300, 0x8000_0020]);
    assert_eq!([word(&image, 168), word(&image, 172)], [0x304, 0x8000_0000]);
    assert_eq!(block("ON ALARM 21 TO 300h"), block("ON CAUSE 2 TO 300h"));
    assert_eq!(block("ON INTERRUPT 5 TO 300h"), block("ON CAUSE 21 TO 300h"));
    let entry = image.entries.iter().find(|line| line.line == 3).expect("the line");
    assert_eq!((entry.address, entry.text.as_str()), (16, "ON ALARM 21 TO 300h, LEVEL 2"));
}

#[test]
fn a_control_block_and_its_fields_by_name() {
    let source = "SEG 400h\nb: CONTROL BLOCK START p, MAP m, R0 5, SP 800h, LEVEL 3, ARGUMENT 9\nm: MAP\nPAGE 1: FRAME 4, WRITE\n\
        DD W b.R0,b.SP,b.R15,b.status,b.argument,b.map,b.length\nSEG 800h AT 200h\np: SYSTEM CALL I 1";
    let image = assembled("source", source);
    let fields: Vec<u32> = [0, 56, 60, 64, 68, 72, 76].iter().map(|at| word(&image, 0x400 + at)).collect();
    assert_eq!(fields, [5, 0x800, 0x200, 0x30, 9, 0x450, 2]);
    let named: Vec<u32> = (0..7).map(|i| word(&image, 0x458 + 4 * i)).collect();
    assert_eq!(named, [0x400, 0x438, 0x43C, 0x440, 0x444, 0x448, 0x44C]);
    assert_eq!((image.control, image.names.address_of("b.argument")), (0x400, Some(0x444)));
    let program = &image.programs[0];
    assert_eq!((program.name.as_str(), program.map_base, program.map_length), ("b", 0x450, 2));
    assert_eq!(program.names.address_of("p"), Some(0x200));
}

#[test]
fn maps() {
    let source =
        "SEG 200h\nMAP\nPAGE 0: FRAME 3, READ\nPAGE 1: FRAME OF data, WRITE\nPAGE 2: ABSENT\nPAGE 3: ABSENT, FRAME 6\n\
        PAGE 4 TO 6: FRAME 8, READ\nPAGE 7: WORD 12345678h\nMAP 2\nSEG A00h\ndata: DD W 0";
    let image = assembled("source", source);
    let entries: Vec<u32> = (0..10).map(|i| word(&image, 0x200 + 4 * i)).collect();
    let expected = [0x8000_0003, 0xC000_0005, 0, 6, 0x8000_0008, 0x8000_0009, 0x8000_000A, 0x1234_5678, 0, 0];
    assert_eq!(entries, expected);
}

#[test]
fn pages_without_commands() {
    let source = "SEG 200h\nMAP\nPAGE 0: FRAME 3, READ, NO FETCH\nPAGE 1: FRAME OF data, WRITE, NO FETCH\n\
        PAGE 2 TO 4: FRAME 8, READ, NO FETCH -- a row\nPAGE 5: FRAME 7, WRITE, NO FETCH; PAGE 6: FRAME 7, WRITE\nSEG A00h\ndata: DD W 0";
    let image = assembled("source", source);
    let entries: Vec<u32> = (0..7).map(|i| word(&image, 0x200 + 4 * i)).collect();
    let expected = [0xA000_0003, 0xE000_0005, 0xA000_0008, 0xA000_0009, 0xA000_000A, 0xE000_0007, 0xC000_0007];
    assert_eq!(entries, expected);
}

#[test]
fn frames_and_maps_by_a_distance_from_a_name() {
    let source = "SEG 200h\nm: MAP\nPAGE 0: FRAME OF p+512, READ\nPAGE 1: FRAME OF p-512, READ\n\
        CONTROL BLOCK MAP m+4, LENGTH 1\nSEG 600h AT 0\np: SYSTEM CALL I 1";
    let image = assembled("source", source);
    assert_eq!([word(&image, 0x200), word(&image, 0x204)], [0x8000_0004, 0x8000_0002]);
    assert_eq!([word(&image, 0x208 + 72), word(&image, 0x208 + 76)], [0x204, 1]);
}

#[test]
fn start_and_memory() {
    let image = assembled("source", "SEG 300h\ngo: HALT\nSTART go\nMEMORY 1000h");
    assert_eq!((image.start, image.memory.len()), (0x300, 0x1000));
    let plain = assembled("source", "HALT");
    assert_eq!((plain.start, plain.system, plain.control, plain.memory.len()), (0x200, 0, 0x100, 0x400));
}

/// MI's own minimum program, as document 000 prints it, needs no change.
#[test]
fn segments_and_end_as_mi_writes_them() {
    let source = "TEST:\n SEG\n MOVE W I H'10000',SP -- preset\n JUMP start\na0: DD W 3\nstart: MOVEA a0,R0\n EXPORT ALL\n HALT\n END\n";
    let image = assembled("source", source);
    assert_eq!(image.names.address_of("start"), Some(0x218));
    assert_eq!(image.names.address_of("TEST"), Some(0x200));
}

#[test]
fn pc_and_sp_are_registers() {
    assert_eq!(bytes("MOVE W PC,SP"), bytes("MOVE W R15,R14"));
}
