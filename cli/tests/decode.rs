//! Bytes to a command, and how numbers are written and read.

use desk::decode::{decode, Decoded, Fields, Trouble};
use desk::names::Names;
use desk::notation::{hexadecimal, number, value, written};
use desk::table::Size;

fn at(bytes: &[u8], address: u32) -> Result<Decoded, Trouble> {
    decode(&|place| bytes.get(place.wrapping_sub(address) as usize).copied(), address)
}

#[test]
fn a_command_with_its_operands() {
    let bytes = [0x12, 4, 0x02, 0, 0, 0, 0, 2, 0x10, 0, 0, 0, 0, 0xFF];
    let decoded = at(&bytes, 0x246).expect("a command");
    assert_eq!((decoded.next(), decoded.bytes.len()), (0x253, 13));
    assert_eq!(decoded.operands[0], Fields { form: 4, x: 0, y: 2, z: 0 });
    assert_eq!(written(&decoded, &Names::none()), "MOVE W !R0/R2/,R1");
}

#[test]
fn what_is_no_command() {
    assert_eq!(at(&[0xFF], 0).err(), Some(Trouble::Unknown(0xFF)));
    assert_eq!(at(&[], 5).err(), Some(Trouble::Unreadable(5)));
    assert_eq!(at(&[0x70, 0, 0], 5).err(), Some(Trouble::Unreadable(8)));
    let fields = Fields { form: 2, x: 1, y: 0, z: 0 };
    assert_eq!(at(&[0x70, 2, 0x10, 0, 0, 0, 0], 5).err(), Some(Trouble::Form { place: 1, fields }));
    let fields = Fields { form: 1, x: 0, y: 0, z: 0x100 };
    assert_eq!(at(&[0x14, 1, 0, 0, 0, 1, 0], 5).err(), Some(Trouble::Form { place: 1, fields }));
}

#[test]
fn jumps_lead_somewhere() {
    let target = |bytes: &[u8], address| at(bytes, address).ok().and_then(|decoded| decoded.jump_target());
    assert_eq!(target(&[0x70, 0, 0, 0, 0, 2, 0x80], 0x200), Some(0x280));
    assert_eq!(target(&[0x70, 3, 0xF0, 0xFF, 0xFF, 0xFF, 0xF9], 0x200), Some(0x200));
    assert_eq!(target(&[0x79, 3, 0xF0, 0, 0, 0, 1], 0xFFFF_FFFF), Some(7));
    assert_eq!(target(&[0x70, 3, 0x10, 0, 0, 0, 1], 0x200), None);
    assert_eq!(target(&[0x05, 0, 0, 0, 0, 1, 0], 0x200), None);
}

#[test]
fn some_commands_do_not_go_on_behind_themselves() {
    let goes_on = |bytes: &[u8]| at(bytes, 0x200).expect("a command").falls_through();
    assert!(goes_on(&[0x01]) && goes_on(&[0x71, 0, 0, 0, 0, 0, 0]) && goes_on(&[0x79, 0, 0, 0, 0, 0, 0]));
    assert!(goes_on(&[0x03, 1, 0, 0, 0, 0, 0]));
    assert!(!goes_on(&[0x00]) && !goes_on(&[0x7A]) && !goes_on(&[0x70, 0, 0, 0, 0, 0, 0]));
    let to_r15 = [0x12, 0, 0, 0, 0, 0, 0, 2, 0xF0, 0, 0, 0, 0];
    let from_r15 = [0x12, 2, 0xF0, 0, 0, 0, 0, 0, 0, 0, 0, 0, 0];
    assert!(!goes_on(&to_r15) && goes_on(&from_r15));
}

#[test]
fn names_stand_for_addresses_and_not_for_values() {
    let mut names = Names::none();
    for (name, address) in [("list", 0x400), ("other", 0x400), ("small", 8)] {
        names.add(name, address);
    }
    let text = |bytes: &[u8]| written(&at(bytes, 0x200).expect("a command"), &names);
    assert_eq!(text(&[0x12, 0, 0, 0, 0, 4, 0, 2, 0, 0, 0, 0, 0]), "MOVE W list,R0");
    assert_eq!(text(&[0x12, 1, 0, 0, 0, 4, 0, 2, 0, 0, 0, 0, 0]), "MOVE W I 400h,R0");
    assert_eq!(text(&[0x12, 3, 0x10, 0, 0, 4, 0, 5, 0x10, 0, 0, 4, 0]), "MOVE W list+!R1,!(list+!R1)");
    assert_eq!(text(&[0x12, 3, 0x10, 0, 0, 0, 8, 3, 0xF0, 0, 0, 4, 0]), "MOVE W 8+!R1,400h+!R15");
    assert_eq!(names.nearest(0x405), Some(("list", 5)));
    assert_eq!((names.names_of(0x400).len(), names.address_of("other")), (2, Some(0x400)));
}

#[test]
fn numbers_are_read() {
    for (text, expected) in [
        ("410h", 0x410),
        ("410H", 0x410),
        ("0x410", 0x410),
        ("H'410'", 0x410),
        ("1040", 0x410),
        ("-1", 0xFFFF_FFFF),
        ("-1h", 0xFFFF_FFFF),
        ("FFFFFFFFh", 0xFFFF_FFFF),
        ("4294967295", 0xFFFF_FFFF),
        ("-2147483648", 0x8000_0000),
        ("0", 0),
        ("Ah", 10),
    ] {
        assert_eq!(number(text), Some(expected), "{text}");
    }
    for text in [
        "",
        "h",
        "-",
        "0x",
        "H''",
        "4294967296",
        "100000000h",
        "-2147483649",
        "12ab",
        "+1",
        "--1",
        "1 ",
        "0x-1",
        "H'-1'",
        "٣",
    ] {
        assert_eq!(number(text), None, "{text}");
    }
}

/// What is written is read again as the same number, for each size.
#[test]
fn numbers_come_back() {
    for (size, highest) in [(Size::B, 0xFF), (Size::H, 0xFFFF), (Size::W, 0xFFFF_FFFF)] {
        let around =
            [0, 0x7F, 0x80, 0xFF, 0x100, 0x7FFF, 0x8000, 0xFFFF, 0x1_0000, 0x7FFF_FFFF, 0x8000_0000, 0xFFFF_FFFF_u64];
        for z in around.into_iter().flat_map(|z| z.saturating_sub(200)..z + 200).filter(|z| *z <= highest) {
            let text = value(z as u32, size);
            assert_eq!(number(&text).map(|back| u64::from(back) & highest), Some(z), "{text}");
        }
    }
    for z in [0, 9, 10, 99, 0xFFF, 0xFF_FFFF, 0x100_0000, 0xB0B_0B0B, u32::MAX] {
        assert_eq!(number(&hexadecimal(z)), Some(z));
    }
}
