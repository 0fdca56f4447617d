//! Each kind of error with its line, its column and its sentence; and several in one go.

mod common;

use desk::asm::assemble;
use std::fmt::Write;

/// Sources, each with at least one error.
const CASES: &[&str] = &[
    // words and numbers
    "        MOVE W R1,{",
    "        MOVE W #5,R1",
    "        MOVE W $10,R1",
    "        DD \"text\"",
    "        MOVE W [R1],R2",
    "        MOVE W R1 | R2",
    "        MOVE W I 12ab,R1",
    "        MOVE W I 100000000h,R1",
    "        MOVE W I H'12G',R1",
    "        MOVE W I B'12',R1",
    "        DD 'abc",
    "        DD ''",
    "        DD 'ä'",
    // commands
    "        move W R1,R2",
    "        MOV W R1,R2",
    "        FROB R1",
    "        JMP 200h",
    "        ADD W I 1,R16",
    "        ADD W I 1,!R16",
    "        ADD W I 1,r3",
    "        mov W R1,R2",
    "        HALT ; the end, as others write it",
    "        HALT ; MOVE W R1",
    "        CHMK I 1",
    "        5 R1",
    "        MOVE R1,R2",
    "        OR F R1,R2",
    "        ADD D",
    "        MOVE W R1",
    "        ADD W R1",
    "        HALT R1",
    "        JUMP",
    "        SYSTEM I 1",
    "        MOVE W R1 R2",
    "        MOVE W R1,",
    "        MOVE W ,R1",
    // operands
    "        MOVE W !5,R1",
    "        MOVE W -!R15,R1",
    "        MOVE W !R15+,R1",
    "        MOVE W !R1+4,R1",
    "        MOVE W !R1/5/,R1",
    "        MOVE W !R1/R2,R1",
    "        MOVE W !(R1),R2",
    "        MOVE W !(4+!R1,R2",
    "        MOVE W 4+!R16,R2",
    "        MOVE W I R1,R2",
    "        MOVE W R1,I 5",
    "        ADD W R1,I 5",
    "        JUMP R1",
    "        CALL I 400h",
    "        MOVEA R1,R2",
    "        MOVE B I 256,R1",
    "        MOVE B I -129,R1",
    "        MOVE H I 65536,R1",
    "        MOVE W FFFFFFFFh+1,R1",
    // floating numbers
    "        ADD F I 1.,R0",
    "        ADD F I .5,R0",
    "        ADD F I 1.5E,R0",
    "        ADD F I 1E5x,R0",
    "        ADD F I 1.5h,R0",
    "        ADD F 1.5,R0",
    "        ADD W I 1.5,R0",
    "        JUMP 1E3",
    "        DD 1.5",
    "        DD W 1,2.0",
    "        RES 1E2",
    "        ADD F I R1,R0",
    "        ADD F I list,R0\nlist:   DD F 1.5",
    "        ADD F I 1.5+1,R0",
    "        ADD F I -7FC00000h,R0",
    "        ADD F I 1E39,R0",
    "        ADD F I -3.4028236E38,R0",
    "        DD D 1.8E308,-1E309",
    "        ADD F I 7FF8000000000000h,R0",
    "        DD F 7FF8000000000000h",
    "        DD D 10000000000000000h",
    "        DD W 7FF8000000000000h",
    "        DD D a-b\na:\nb:      HALT",
    "        DD F 'A'+1",
    "        DD D I 1.5",
    "        ADD D I 1.5,R0",
    "        MULT D I 2,R0,R2",
    "        ADD F R15,R0",
    "        MOVE F I 1.5,PC",
    "        ADD D SP,R0",
    "        MOVE D a,R15\na:      DD D 1.5",
    "        CMP D R13,R14",
    "        ADD F R0,I 1.5",
    "        ADD F !R15+,R0",
    "F:      HALT\nD:      HALT",
    // names
    "        JUMP nowhere",
    "start:  HALT\n        JUMP strat",
    "        JUMP a+b\na:      HALT\nb:      HALT",
    "MOVE:   HALT",
    "R1:     HALT",
    "a.b:    HALT",
    "a:      HALT\na:      HALT",
    "one:    SEG 200h\na:      HALT\ntwo:    SEG 300h\na:      HALT\n        SEG 400h\n        JUMP a",
    "        SEG 200h\na:      HALT\n        SEG 300h\na:      HALT\n        SEG 400h\n        JUMP a",
    "        SEG 200h\n        JUMP there\n        SEG 600h AT 0\nthere:  SYSTEM CALL I 1\n        JUMP here\n        SEG 400h\nhere:   DD W 0",
    "        EQU a",
    "        EQU 5 = 4",
    "        EQU MOVE = 4",
    "        EQU a =",
    "        EQU a = 1, a = 2",
    "        EQU a = 1\na:      HALT",
    // segments and data
    "        SEG 200h AT",
    "        SEG 200h 300h",
    "        SEG 1000001h",
    "        SEG a\na:      HALT",
    "        SEG 200h\n        RES 8\n        SEG 204h\n        DD W 1",
    "        SEG 204h\n        DD W 1\n        SEG 200h\n    RES 8",
    "        RES -1",
    "        RES 1000001h",
    "        SEG FFFFFFh\n        DD W 1",
    "        ALI 25",
    "        DD",
    "        DD B 256",
    "        DD H 1,",
    "        DD (B 1,2)",
    "        DD (B 1,2*3",
    "        DD b-a\na:\nb:      HALT",
    "        DD ((((((((((((((((((1)*1)*1)*1)*1)*1)*1)*1)*1)*1)*1)*1)*1)*1)*1)*1)*1)*1)*1",
    "        IMP",
    "        MEMORY 513",
    "        SEG 400h\n        DD W 1\n        MEMORY 400h",
    // blocks and maps
    "        SEG 2\n        SYSTEM BLOCK",
    "        SEG 0\n        SYSTEM BLOCK x",
    "        SEG 0\n        SYSTEM BLOCK\n        ON ALARM 7 TO 0",
    "        SEG 0\n        SYSTEM BLOCK\n        ON ALARM 16 TO 0",
    "        SEG 0\n        SYSTEM BLOCK\n        ON ALARM 20 TO 0",
    "        SEG 0\n        SYSTEM BLOCK\n        ON ALARM 22 TO 0",
    "        SEG 0\n        SYSTEM BLOCK\n        ON ALARM 2 TO 0",
    "        SEG 0\n        SYSTEM BLOCK\n        ON CAUSE 32 TO 0",
    "        SEG 0\n        SYSTEM BLOCK\n        ON INTERRUPT 0 TO 0",
    "        SEG 0\n        SYSTEM BLOCK\n        ON INTERRUPT 16 TO 0",
    "        SEG 0\n        SYSTEM BLOCK\n        ON INTERRUPT FFFFFFFFh TO 0",
    "        SEG 0\n        SYSTEM BLOCK\n        ON RAIN TO 0",
    "        SEG 0\n        SYSTEM BLOCK\n        ON ALARM 8 0",
    "        SEG 0\n        SYSTEM BLOCK\n        ON ALARM 8 TO 0, 5",
    "        SEG 0\n        SYSTEM BLOCK\n        ON ALARM 8 TO 0, LEVEL 16",
    "        SEG 0\n        SYSTEM BLOCK\n        ON ALARM 8 TO 0\n        ON ALARM 8 TO 4",
    "        SEG 0\n        SYSTEM BLOCK\n        ON ALARM 21 TO 0\n        ON CAUSE 2 TO 4",
    "        SEG 0\n        SYSTEM BLOCK\n        ON INTERRUPT 5 TO 0\n        ON ALARM 21 TO 4\n        ON CAUSE 21 TO 8",
    "        SEG 0\n        SYSTEM BLOCK\na:      ON ALARM 8 TO 0",
    "        ON ALARM 8 TO 0",
    "        SEG 0\n        SYSTEM BLOCK\n        ON ALARM 8 TO there\n        SEG 600h AT 0\nthere:  SYSTEM CALL I 1",
    "        CONTROL START 0",
    "here:   HALT\n        ALI 2\n        CONTROL BLOCK START here",
    "        CONTROL BLOCK FIRST 0",
    "        CONTROL BLOCK START 0, START 4",
    "        CONTROL BLOCK START 0, MAP 400h",
    "        CONTROL BLOCK START 0, MAP a\na:      DD W 0",
    "        PAGE 0: FRAME 3, READ",
    "        MAP\n        PAGE 0 FRAME 3, READ",
    "        MAP\n        PAGE 0: FRAM 3, READ",
    "        MAP\n        PAGE 0: FRAME 3",
    "        MAP\n        PAGE 0: FRAME 3, RUN",
    "        MAP\n        PAGE 0: FRAME 3, NO FETCH",
    "        MAP\n        PAGE 0: FRAME 3, READ NO FETCH",
    "        MAP\n        PAGE 0: FRAME 3, READ, FETCH",
    "        MAP\n        PAGE 0: FRAME 3, READ,",
    "        MAP\n        PAGE 0: FRAME 3, READ, NO",
    "        MAP\n        PAGE 0: FRAME 3, READ, NO READ",
    "        MAP\n        PAGE 0: FRAME 3, READ, NO FETCH, WRITE",
    "        MAP\n        PAGE 0: ABSENT, NO FETCH",
    "        MAP\n        PAGE 0: ABSENT, FRAME 3, NO FETCH",
    "        MAP\n        PAGE 0: WORD 3, NO FETCH",
    "NO:     HALT\nFETCH:  HALT",
    "        MAP\n        PAGE 0: FRAME 1000000h, READ",
    "        MAP\n        PAGE 0: FRAME OF 3, READ",
    "        MAP\n        PAGE 0: FRAME 3, READ\n        PAGE 0: FRAME 4, READ",
    "        MAP\n        PAGE 3 TO 1: FRAME 3, READ",
    "        MAP\n        PAGE 0 TO 1: FRAME FFFFFFh, READ",
    "        MAP 1\n        PAGE 1: FRAME 3, READ",
    "        MAP\n        PAGE -1: FRAME 3, READ",
    // several in one go, and one that brings no others
    "start:  MOVE W R1,\n        JUMP start\n        JUMP strt\n        MOVE B I 300,R1\n        halt",
    "start:  MOVE W R1,{\n        JUMP start",
];

#[test]
fn each_error_has_its_place_and_sentence() {
    let mut text = String::new();
    for case in CASES {
        let complaints = assemble("source", case).err().unwrap_or_else(|| panic!("no complaint about\n{case}"));
        for (number, line) in case.lines().enumerate() {
            let _ = writeln!(text, "{:2} {line}", number + 1);
            for complaint in complaints.iter().filter(|complaint| complaint.line == number + 1) {
                let _ = writeln!(text, "   {:>width$} {}", "^", complaint.sentence, width = complaint.column.max(1));
            }
        }
        let lines = case.lines().count();
        for complaint in complaints.iter().filter(|complaint| !(1..=lines).contains(&complaint.line)) {
            let _ = writeln!(text, "{complaint}");
        }
        text.push('\n');
    }
    common::golden("asm_errors.txt", &text);
}

#[test]
fn a_complaint_is_written_with_file_line_and_column() {
    let complaints = assemble("plan.mi", "\n  JUMP nowhere\n").err().expect("a complaint");
    assert_eq!(complaints[0].to_string(), "plan.mi:2:8: there is no name 'nowhere'");
}

#[test]
fn so_many_errors_are_cut_short() {
    let complaints = assemble("source", &"FROB\n".repeat(300)).err().expect("complaints");
    assert_eq!(complaints.len(), 101);
    assert_eq!(complaints[100].to_string(), "source: and 200 more errors");
}
