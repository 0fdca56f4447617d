//! Load lists that are refused: the number, its meaning, where, and the exit status, for every refusal and every way of 17.

mod support;

use support::{desk, golden, refused, said, text, written};

/// A list of so many pieces, each with its own byte.
fn of_pieces(count: usize) -> Vec<u8> {
    let mut list: Vec<u8> = (0..count).flat_map(|i| [2, i as u8]).collect();
    list.push(0);
    list
}

/// A list with the options that it is tried with, the number, and the sentence behind `refusal N: `.
struct Case {
    name: &'static str,
    list: Vec<u8>,
    options: &'static [&'static str],
    number: u32,
    sentence: &'static str,
}

fn cases() -> Vec<Case> {
    let case =
        |name, list: &[u8], options, number, sentence| Case { name, list: list.to_vec(), options, number, sentence };
    vec![
        case("unknown", &[2, 1, 2, 2, 2, 3, 2, 4, 2, 5, 2, 6, 7, 0], &[], 17, "an unknown command: byte 12 (Ch) of the list is 07h, and the commands are 00h to 04h"),
        case("unknown_first", &[0xFF], &[], 17, "an unknown command: byte 0 of the list is FFh, and the commands are 00h to 04h"),
        case("empty", &[], &[], 17, "a list cut short: it is empty, and has not even its end, the command 00h"),
        case("no_end", &[1, 0, 0, 2, 0, 3, 1, 2, 3, 4, 2, 1], &[], 17, "a list cut short: it stops at byte 12 (Ch), and its end, the command 00h, is missing there"),
        case("cut_move", &[2, 1, 1, 0, 0], &[], 17, "a list cut short inside a command: 01h (move), at byte 2 of the list, needs 4 bytes behind it, and the list has 2 more"),
        case("cut_byte", &[2], &[], 17, "a list cut short inside a command: 02h (put a byte), at byte 0 of the list, needs 1 byte behind it, and the list has 0 more"),
        case("cut_four", &[3, 0, 0, 0], &[], 17, "a list cut short inside a command: 03h (put four bytes), at byte 0 of the list, needs 4 bytes behind it, and the list has 3 more"),
        case("cut_copies", &[4, 0, 0], &[], 17, "a list cut short inside a command: 04h (put copies), at byte 0 of the list, needs 3 bytes behind it, and the list has 2 more"),
        case("after", &[2, 1, 0, 0], &[], 17, "bytes after the end: the list ends at byte 2 by the command 00h, and 1 byte stands after it, from byte 3 on"),
        case("after_many", &[vec![0], vec![9; 1500]].concat(), &[], 17, "bytes after the end: the list ends at byte 0 by the command 00h, and 1,500 bytes stand after it, from byte 1 on"),
        case("pieces", &of_pieces(5000), &[], 18, "more than 4,096 pieces: the list has 5,000, and the first too many is at byte 8,192 (2000h), 02h (put a byte)"),
        case("outside", &[2, 1, 1, 0, 0, 3, 0xFE, 3, 1, 2, 3, 4, 0], &["--memory", "1024"], 19, "a put outside memory: piece 2 of the list, at byte 7, 03h (put four bytes), puts 4 bytes at 3FEh to 401h, and the memory has 1,024 bytes (400h)"),
        case("outside_all", &[1, 0, 0xFF, 0xFF, 0xFF, 4, 0, 2, 9, 0], &[], 19, "a put outside memory: piece 1 of the list, at byte 5, 04h (put copies), puts 2 bytes at FFFFFFh to 01000000h, and the memory has 16,777,216 bytes (01000000h)"),
        case("no_wrap", &[1, 0xFF, 0xFF, 0xFF, 0xFF, 4, 0, 0, 1, 3, 1, 1, 1, 1, 0], &[], 19, "a put outside memory: piece 2 of the list, at byte 9, 03h (put four bytes), puts 4 bytes at FFFFFFFFh to 100000002h, and the memory has 16,777,216 bytes (01000000h)"),
        case("length", &[0], &["--memory", "1025"], 1, "the memory length is not allowed (it has 1025 bytes; allowed are multiples of 512, up to 16777216)"),
    ]
}

/// On standard error in one line, with the file; the status is 32 + the number.
#[test]
fn every_refusal_has_its_sentence() {
    for Case { name, list, options, number, sentence } in cases() {
        let file = written(&format!("refused_{name}.load"), &list);
        for verb in ["run", "debug", "list", "map", "picture"] {
            let arguments = [&[verb, &file], options].concat();
            let (said, status) = refused(&arguments);
            assert_eq!(said.lines().next(), Some(format!("{file}: refusal {number}: {sentence}").as_str()), "{verb}");
            assert_eq!(status, 32 + number as i32, "{verb} {name}");
            assert_eq!(said.contains("look at: "), number != 1, "{said}");
        }
    }
}

/// `desk load` shows the commands up to the damage, then the same sentence, in lines that fit.
#[test]
fn the_verb_shows_where() {
    for Case { name, list, options, number, sentence } in cases() {
        let file = written(&format!("shown_{name}.load"), &list);
        let output = desk(&[&["load", &file], options].concat());
        let shown = text(&output.stdout);
        let joined = shown.replace("\n  ", " ");
        assert!(joined.contains(&format!("refusal {number}: {sentence}")), "{name}: {shown}");
        assert_eq!((output.status.code(), output.stderr.len()), (Some(32 + number as i32), 0), "{name}");
        assert!(shown.lines().skip(1).all(|line| line.chars().count() <= 100), "{name}: {shown}");
    }
}

/// The lines at the damage itself.
#[test]
fn damage_has_a_line() {
    let line = |list: &[u8]| {
        let file = written("line.load", list);
        let shown = text(&desk(&["load", &file]).stdout);
        shown.split("\n\n").nth(1).expect("the commands").lines().last().expect("a line").to_string()
    };
    assert_eq!(line(&[2, 1, 7, 0]), "0002  07          | unknown command");
    assert_eq!(line(&[2, 1]), "0002              | no end");
    assert_eq!(line(&[2, 1, 1, 0, 0]), "0002  01 0000     | cut short");
    assert_eq!(line(&[4, 1, 0]), "0000  04 0100     | cut short");
    assert_eq!(line(&[0, 1, 2, 3, 4]), "0001  01020304    | 4 bytes after the end");
    assert_eq!(line(&[0, 1, 2, 3, 4, 5]), "0001  01020304 .. | 5 bytes after the end");
}

/// 17 goes before 18, and 18 before 19, wherever they stand in the list.
#[test]
fn the_order_is_that_of_the_numbers() {
    let outside = [1, 0xFF, 0xFF, 0xFF, 0xFF];
    let many = [&outside[..], &of_pieces(4097)].concat();
    let malformed = [&many[..], &[5]].concat();
    let number = |name: &str, list: &[u8]| refused(&["run", &written(name, list)]).1 - 32;
    assert_eq!(number("order_19.load", &[&outside[..], &of_pieces(4096)].concat()), 19);
    assert_eq!(number("order_18.load", &many), 18);
    assert_eq!(number("order_17.load", &malformed), 17);
}

#[test]
fn the_hints_say_where_to_look() {
    let hint = |name: &str, list: &[u8], options: &[&str]| {
        let file = written(name, list);
        let said = refused(&[&["run", &file], options].concat()).0;
        said.lines().nth(1).and_then(|line| line.split_once("look at: ")).expect("a hint").1.to_string()
    };
    assert!(hint("hint_text.load", b"# a remark\n00\n", &[]).starts_with("this is text; commented hexadecimal"));
    assert!(hint("hint_unknown.load", &[5], &[]).starts_with("the commands before it, which `desk load FILE` shows"));
    assert!(hint("hint_cut.load", &[3, 1], &[]).starts_with("the file's length"));
    assert!(hint("hint_after.load", &[0, 1], &[]).starts_with("the 00h"));
    assert!(hint("hint_many.load", &of_pieces(4097), &[]).starts_with("how bytes are put"));
    let far = [1, 1, 0, 0, 0, 2, 0, 0];
    assert_eq!(
        hint("hint_far.load", &far, &[]),
        "the place, since no memory is longer than 16,777,216 bytes (01000000h)"
    );
    let needs = [1, 0, 0, 4, 0, 2, 0, 0];
    assert_eq!(
        hint("hint_needs.load", &needs, &["--memory", "512"]),
        "--memory, since all that the list puts needs 1,536 bytes (600h)"
    );
}

/// What is no refusal: a move outside memory, no copies anywhere, exactly 4,096 pieces, a list of its end alone.
#[test]
fn edges_that_load() {
    for (name, list, length) in [
        ("moved.load", vec![2, 1, 1, 0xFF, 0xFF, 0xFF, 0xFF, 0], "512 bytes (200h)"),
        ("no_copies.load", vec![1, 0xFF, 0xFF, 0xFF, 0xFF, 4, 0, 0, 1, 0], "512 bytes (200h)"),
        ("most.load", of_pieces(4096), "4,096 bytes (1000h)"),
        ("end.load", vec![0], "512 bytes (200h)"),
        ("last.load", vec![1, 0, 0xFF, 0xFF, 0xFF, 2, 1, 0], "16,777,216 bytes (01000000h)"),
    ] {
        let (shown, status) = said(&["load", &written(name, &list)]);
        assert!(status == 0 && shown.contains(&format!("it loads into a memory of {length}, the shortest")), "{shown}");
    }
}

#[test]
fn a_damaged_list_is_shown_as_stored() {
    let mut list = std::fs::read(support::file("examples/parts.load")).expect("the list");
    list[0x83] = 6;
    let file = written("damaged.load", &list);
    let shown = text(&desk(&["load", &file]).stdout);
    golden("golden/load/damaged.txt", shown.split_once("\n\n").expect("a title").1);
}

/// With --json the one object has the words.
#[test]
fn json_has_the_words() {
    let output = desk(&["run", &written("json.load", &[5]), "--json"]);
    let line = text(&output.stdout);
    assert!(line.starts_with("{\"end\":\"error\",\"exit\":49,\"words\":\"") && line.contains("refusal 17"), "{line}");
}
