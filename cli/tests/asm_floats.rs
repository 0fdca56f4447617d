//! Floating numbers in sources and listings: constants byte by byte, and every pattern of bits there and back.

mod common;

use common::{assembled, Random};
use desk::asm::assemble;
use desk::decode::{decode, Trouble};
use desk::floats;
use desk::image::of_bytes;
use desk::list::listing;
use desk::names::Names;
use desk::notation::written;
use desk::table::Size;

/// The bytes of a source from 200h on.
fn bytes(source: &str) -> Vec<u8> {
    match assemble("source", source) {
        Ok(assembled) => assembled.bytes[0x200..].to_vec(),
        Err(complaints) => panic!("{}\n{source}", complaints[0]),
    }
}

fn words(source: &str) -> Vec<u32> {
    bytes(source).chunks(4).map(|word| u32::from_be_bytes(word.try_into().expect("a word"))).collect()
}

fn longs(source: &str) -> Vec<u64> {
    bytes(source).chunks(8).map(|long| u64::from_be_bytes(long.try_into().expect("eight bytes"))).collect()
}

#[test]
fn commands_have_their_bytes() {
    for (source, byte) in [
        ("ADD F R0,R1", 0x80),
        ("ADD D R0,R2", 0x81),
        ("ADD F R0,R1,R2", 0x84),
        ("ADD D R0,R2,R4", 0x85),
        ("SUB F R0,R1", 0x88),
        ("SUB D R0,R2,R4", 0x8D),
        ("MULT D R0,R2", 0x91),
        ("MULT F R0,R1,R2", 0x94),
        ("DIV F R0,R1", 0x98),
        ("DIV D R0,R2,R4", 0x9D),
        ("MOVE F R0,R1", 0xA0),
        ("MOVE D R0,R2", 0xA1),
        ("CMP F R0,R1", 0xA4),
        ("CMP D R0,R2", 0xA5),
    ] {
        assert_eq!(bytes(source)[0], byte, "{source}");
    }
    let expected = [0x81, 8, 0x10, 0, 0, 0, 0, 4, 0x23, 0, 0, 0, 8];
    assert_eq!(bytes("ADD D !R1+,8+!R2/R3/"), expected);
}

#[test]
fn registers_end_where_the_manual_says() {
    assert_eq!(bytes("MOVE F SP,R14")[1..3], [2, 0xE0]);
    assert_eq!(bytes("MOVE D R13,R0")[1..3], [2, 0xD0]);
}

/// A decimal number is a value, whole or not; hexadecimal and binary digits are the bits.
#[test]
fn constants_are_values_or_bits() {
    assert_eq!(
        words("DD F 1.5,-1.5,+1.5,1,-0,15E-1,1.5e0,0.15E+1"),
        [0x3FC0_0000, 0xBFC0_0000, 0x3FC0_0000, 0x3F80_0000, 0x8000_0000, 0x3FC0_0000, 0x3FC0_0000, 0x3FC0_0000]
    );
    assert_eq!(
        words("DD F 7FC00000h,FFC00001h,0x7F800000,H'7F800001',B'1',10h"),
        [0x7FC0_0000, 0xFFC0_0001, 0x7F80_0000, 0x7F80_0001, 1, 0x10]
    );
    assert_eq!(
        longs("DD D 1.5,-3.25E100,7FF8000000000000h,FFF0000000000001h,H'8000000000000000',1"),
        [
            0x3FF8_0000_0000_0000,
            (-3.25E100_f64).to_bits(),
            0x7FF8_0000_0000_0000,
            0xFFF0_0000_0000_0001,
            1 << 63,
            0x3FF0_0000_0000_0000
        ]
    );
    for (constant, z) in
        [("1.5", 0x3FC0_0000), ("-2E10", 0xD095_02F9), ("5", 0x40A0_0000), ("5h", 5), ("FF800000h", 0xFF80_0000)]
    {
        assert_eq!(bytes(&format!("ADD F I {constant},R0"))[3..7], u32::to_be_bytes(z), "{constant}");
    }
    assert_eq!(words("DD F 4294967296,16777217"), [0x4F80_0000, 0x4B80_0000]);
}

/// To the nearest number, of two the even one, from the decimal digits at once; too small ones to zero.
#[test]
fn decimal_numbers_are_rounded_once() {
    let ties = "DD F 16777217,16777219,1.00000005960464477539062500001,1.000000059604644775390625";
    assert_eq!(words(ties), [0x4B80_0000, 0x4B80_0002, 0x3F80_0001, 0x3F80_0000]);
    assert_eq!(words("DD F 1E-45,7E-46,-1E-60,3.4028235677E38"), [1, 0, 0x8000_0000, 0x7F7F_FFFF]);
    assert_eq!(
        longs("DD D 9007199254740993,0.1,1E-400,4.9E-324"),
        [(2_f64).powi(53).to_bits(), 0x3FB9_9999_9999_999A, 0, 1]
    );
}

/// As in document 000, 2.7: a kind holds up to the next; addresses are words and strings bytes whatever the kind is.
#[test]
fn kinds_in_data() {
    assert_eq!(words("DD F 1,2, W 1, F 1"), [0x3F80_0000, 0x4000_0000, 1, 0x3F80_0000]);
    assert_eq!(words("F 1.5"), [0x3FC0_0000]);
    assert_eq!(words("DD (F 1.5, W 7)*2"), [0x3FC0_0000, 7, 0x3FC0_0000, 7]);
    assert_eq!(words("a: DD D a,a+4\nDD F a,'abcd'"), [0x200, 0x204, 0x200, 0x6162_6364]);
    assert_eq!(bytes("DD B 1, D 2, B 3"), [1, 0x40, 0, 0, 0, 0, 0, 0, 0, 3]);
    assert_eq!(words("EQU half = 0.5, tiny = 1E-3\nDD F half,-half,tiny"), [0x3F00_0000, 0xBF00_0000, 0x3A83_126F]);
    assert_eq!(words("FFC00001h: DD F FFC00001h,0FFC00001h"), [0x200, 0xFFC0_0001]);
}

/// What is written after a constant, or looks like one, is still what it was.
#[test]
fn whole_numbers_are_as_before() {
    assert_eq!(words("DD W 1Eh-5,0x1E-5,1E5h"), [25, 25, 0x1E5]);
    assert_eq!(bytes("DD B 10-5,1-1"), [5, 0]);
}

/// The value of an F command as a listing writes it, assembled.
fn comes_back(bits: u32) {
    let mut command = vec![0xA0, 1, 0];
    command.extend(bits.to_be_bytes());
    command.extend([2, 0, 0, 0, 0, 0]);
    let decoded = decode(&|at| command.get(at as usize).copied(), 0).expect("a command");
    let text = written(&decoded, &Names::none());
    assert_eq!(bytes(&text), command, "{text}");
}

/// Each exponent with both signs and the mantissas at its ends, and random patterns.
#[test]
fn every_value_of_f_comes_back() {
    let mut random = Random(0xF0_0001);
    for high in 0..=0x1FF_u32 {
        for low in [0, 1, 0x3F_FFFF, 0x40_0000, 0x40_0001, 0x7F_FFFF, random.next() as u32 & 0x7F_FFFF] {
            comes_back(high << 23 | low);
        }
    }
    for _ in 0..20_000 {
        comes_back(random.next() as u32);
    }
    for _ in 0..1_000_000 {
        let bits = random.next() & 0xFFFF_FFFF;
        let text = floats::written(bits, Size::F);
        let back = floats::of_decimal(&text, Size::F).or_else(|| desk::notation::long(&text));
        assert_eq!(back, Some(bits), "{text}");
    }
}

/// Rows of F and D data with every kind of pattern, as a command uses them.
#[test]
fn data_of_both_kinds_come_back() {
    let mut random = Random(0xF0_0002);
    for number in 0..300 {
        let mut memory = vec![0; 1024];
        let (f, d) = (0x240 + random.below(8), 0x300 + random.below(8));
        memory[0x200..0x20D].copy_from_slice(&[0xA4, 0, 0, 0, 0, 2, f as u8, 0, 0, 0, 0, 2, f as u8]);
        memory[0x20D..0x21A].copy_from_slice(&[0xA5, 0, 0, 0, 0, 3, d as u8, 0, 0, 0, 0, 3, d as u8]);
        for at in (0x240..0x400).step_by(4) {
            let special = [0, 1, 0x7FF0_0000, 0xFFF8_0000, 0x7F80_0000, 0xFFC0_0001, 0x8000_0000, 0x3FF0_0000];
            let word = if random.below(2) == 0 { *random.pick(&special) } else { random.next() as u32 };
            memory[at..at + 4].copy_from_slice(&word.to_be_bytes());
        }
        let image = of_bytes(memory);
        let text = listing(&image, "data");
        assert!(text.contains("DD F ") && text.contains("DD D "), "{text}");
        assert!(assembled("listing", &text).memory == image.memory, "{number}\n{text}");
    }
}

/// A label that reads as the bits of a D that the listing writes gets another name.
#[test]
fn a_name_that_reads_as_bits_is_changed() {
    let image = assembled("source", "CMP D a,a\nHALT\nFFF8000000000001h: DD W 5\na: DD D 0FFF8000000000001h");
    let text = listing(&image, "source");
    assert!(text.contains("FFF8000000000001h_2: DD") && text.contains("DD D FFF8000000000001h\n"), "{text}");
    assert_eq!(assembled("listing", &text).memory, image.memory);
}

/// What would be alarm 14 at every run is no command for the decoder either.
#[test]
fn operands_that_a_kind_does_not_allow() {
    for (byte, form, x) in [(0x81, 1, 0), (0x81, 2, 14), (0x81, 2, 15), (0x80, 2, 15), (0xA5, 1, 0)] {
        let bytes = [byte, form, x << 4, 0, 0, 0, 0, 2, 0, 0, 0, 0, 0];
        let found = decode(&|at| bytes.get(at as usize).copied(), 0);
        assert!(matches!(found, Err(Trouble::Form { place: 1, .. })), "{bytes:02X?}");
    }
}
