//! Two load lists that are refused: which of them it is, where it is wrong, where they clash, in which order, and the exit
//! status.

mod support;

use support::{desk, file, refused, said, text, written};

const VERBS: [&str; 5] = ["run", "debug", "list", "map", "picture"];

/// Two lists with the options that they are tried with, the number, what is told behind the file names, and which of the
/// files are named.
struct Case {
    name: &'static str,
    first: Vec<u8>,
    second: Vec<u8>,
    options: &'static [&'static str],
    number: u32,
    named: Named,
    sentence: &'static str,
    hint: &'static str,
}

#[derive(Clone, Copy)]
enum Named {
    First,
    Second,
    Both,
}

/// A list of so many pieces, each with its own byte.
fn of_pieces(count: usize) -> Vec<u8> {
    (0..count).flat_map(|i| [2, i as u8]).chain([0]).collect()
}

const FITS: &[u8] = &[2, 1, 0];
const UNKNOWN: &[u8] = &[2, 1, 7, 0];
const OUTSIDE: &[u8] = &[1, 0, 0, 2, 0, 2, 1, 0];
const SHORT: &[&str] = &["--memory", "512"];

fn cases() -> Vec<Case> {
    let case = |name, first: &[u8], second: &[u8], options, number, named, sentence, hint| Case {
        name,
        first: first.to_vec(),
        second: second.to_vec(),
        options,
        number,
        named,
        sentence,
        hint,
    };
    use Named::{Both, First, Second};
    vec![
        case("length", UNKNOWN, UNKNOWN, &["--memory", "1025"], 1, First, "refusal 1: the memory length is not allowed (it has 1025 bytes; allowed are multiples of 512, up to 16777216)", ""),
        case("unknown_first", UNKNOWN, FITS, &[], 17, First, "refusal 17 of the first list: an unknown command: byte 2 of the list is 07h, and the commands are 00h to 04h", "the commands before it, which `desk load FILE` shows: one may lack a byte or have one too many"),
        case("unknown_second", FITS, UNKNOWN, &[], 17, Second, "refusal 17 of the second list: an unknown command: byte 2 of the list is 07h, and the commands are 00h to 04h", "the commands before it, which `desk load FILE` shows: one may lack a byte or have one too many"),
        case("empty_first", &[], FITS, &[], 17, First, "refusal 17 of the first list: a list cut short: it is empty, and has not even its end, the command 00h", "the file's length: its end may be missing, or a command before it lack a byte"),
        case("empty_second", FITS, &[], &[], 17, Second, "refusal 17 of the second list: a list cut short: it is empty, and has not even its end, the command 00h", "the file's length: its end may be missing, or a command before it lack a byte"),
        case("after_second", FITS, &[0, 0], &[], 17, Second, "refusal 17 of the second list: bytes after the end: the list ends at byte 0 by the command 00h, and 1 byte stands after it, from byte 1 on", "the 00h: where it is no end, a command before it has a byte too many; two lists are two files, and --with takes the second"),
        case("pieces_second", FITS, &of_pieces(4097), &[], 18, Second, "refusal 18 of the second list: more than 4,096 pieces: the list has 4,097, and the first too many is at byte 8,192 (2000h), 02h (put a byte)", "how bytes are put: one 03h puts four bytes, one 04h up to 65,535 copies of a byte"),
        case("outside_second", FITS, OUTSIDE, SHORT, 19, Second, "refusal 19 of the second list: a put outside memory: piece 1 of the list, at byte 5, 02h (put a byte), puts 1 byte at 200h, and the memory has 512 bytes (200h)", "--memory, since all that the two lists put needs 1,024 bytes (400h)"),
        case("outside_first", OUTSIDE, &[1, 0, 0, 5, 0, 2, 1, 0], SHORT, 19, First, "refusal 19 of the first list: a put outside memory: piece 1 of the list, at byte 5, 02h (put a byte), puts 1 byte at 200h, and the memory has 512 bytes (200h)", "--memory, since all that the two lists put needs 1,536 bytes (600h)"),
        // The first list's 17 to 19 go before the second's, and each goes before a clash.
        case("first_19_second_17", OUTSIDE, UNKNOWN, SHORT, 19, First, "refusal 19 of the first list: a put outside memory: piece 1 of the list, at byte 5, 02h (put a byte), puts 1 byte at 200h, and the memory has 512 bytes (200h)", "--memory, since all that the two lists put needs 1,024 bytes (400h)"),
        case("first_18_second_17", &of_pieces(4097), UNKNOWN, &[], 18, First, "refusal 18 of the first list: more than 4,096 pieces: the list has 4,097, and the first too many is at byte 8,192 (2000h), 02h (put a byte)", "how bytes are put: one 03h puts four bytes, one 04h up to 65,535 copies of a byte"),
        case("second_17_and_clash", FITS, &[2, 2, 0, 0], &[], 17, Second, "refusal 17 of the second list: bytes after the end: the list ends at byte 2 by the command 00h, and 1 byte stands after it, from byte 3 on", "the 00h: where it is no end, a command before it has a byte too many; two lists are two files, and --with takes the second"),
        case("second_19_and_clash", FITS, &[2, 2, 1, 0, 0, 2, 0, 2, 1, 0], SHORT, 19, Second, "refusal 19 of the second list: a put outside memory: piece 2 of the list, at byte 7, 02h (put a byte), puts 1 byte at 200h, and the memory has 512 bytes (200h)", "--memory, since all that the two lists put needs 1,024 bytes (400h)"),
        // Clashes: at address 0, at the memory's last byte, behind an equal byte, over many addresses, with a zero.
        case("at_0", FITS, &[2, 2, 0], &[], 23, Both, "refusal 23: two unequal last bytes at one address: the first list puts 01h at 0, by 02h (put a byte) at byte 0 of it, and the second puts 02h there, by 02h (put a byte) at byte 0 of it; 1 address clashes", CLASH_HINT),
        case("at_the_end", &[1, 0, 0, 1, 0xFF, 2, 9, 0], &[1, 0, 0, 1, 0xFC, 3, 1, 1, 1, 8, 0], &[], 23, Both, "refusal 23: two unequal last bytes at one address: the first list puts 09h at 1FFh, by 02h (put a byte) at byte 5 of it, and the second puts 08h there, by 03h (put four bytes) at byte 5 of it; 1 address clashes", CLASH_HINT),
        case("later_put", &[2, 5, 1, 0, 0, 0, 0, 2, 6, 0], &[2, 5, 0], &[], 23, Both, "refusal 23: two unequal last bytes at one address: the first list puts 06h at 0, by 02h (put a byte) at byte 7 of it, and the second puts 05h there, by 02h (put a byte) at byte 0 of it; 1 address clashes", CLASH_HINT),
        case("many", &[4, 0xFF, 0xFF, 7, 0], &[2, 7, 4, 0x80, 0, 8, 0], &[], 23, Both, "refusal 23: two unequal last bytes at one address: the first list puts 07h at 1, by 04h (put copies) at byte 0 of it, and the second puts 08h there, by 04h (put copies) at byte 2 of it; 32,768 addresses clash", "which list has the right byte there: the other must put the same byte last, or none; `desk load FIRST --with SECOND` shows all addresses that clash"),
        case("zero", FITS, &[2, 0, 0], &[], 23, Both, "refusal 23: two unequal last bytes at one address: the first list puts 01h at 0, by 02h (put a byte) at byte 0 of it, and the second puts 00h there, by 02h (put a byte) at byte 0 of it; 1 address clashes", "which list has the right byte there: the other must put the same byte last, or none; a list that `desk asm` makes puts zeros for RES and ALI, and one for MEMORY"),
    ]
}

const CLASH_HINT: &str = "which list has the right byte there: the other must put the same byte last, or none";

impl Case {
    /// The files of the lists, for this test alone, and what is told of which of them.
    fn files(&self, test: &str) -> (String, String, String) {
        let first = written(&format!("{test}_two_{}_1.load", self.name), &self.first);
        let second = written(&format!("{test}_two_{}_2.load", self.name), &self.second);
        let named = match self.named {
            Named::First => first.clone(),
            Named::Second => second.clone(),
            Named::Both => format!("{first} and {second}"),
        };
        (first, second, named)
    }
}

/// On standard error, with the file that is wrong; the status is 32 + the number.
#[test]
fn every_refusal_has_its_sentence() {
    for case in cases() {
        let (first, second, named) = case.files("refused");
        let mut expected = format!("{named}: {}\n", case.sentence);
        if !case.hint.is_empty() {
            expected += &format!("{named}: look at: {}\n", case.hint);
        }
        for verb in VERBS {
            let arguments = [&[verb, &first, "--with", &second], case.options].concat();
            assert_eq!(refused(&arguments), (expected.clone(), 32 + case.number as i32), "{verb} {}", case.name);
        }
    }
}

/// `desk load` shows what each list puts, then the same sentence, in lines that fit.
#[test]
fn the_verb_shows_where() {
    for case in cases() {
        let (first, second, named) = case.files("shown");
        let output = desk(&[&["load", &first, "--with", &second], case.options].concat());
        let shown = text(&output.stdout);
        let joined = shown.replace("\n    ", " ").replace("\n  ", " ");
        assert!(joined.contains(&format!("{named}: {}", case.sentence)), "{}: {shown}", case.name);
        assert!(joined.contains(&format!("look at: {}", case.hint)) || case.hint.is_empty(), "{}: {shown}", case.name);
        assert_eq!((output.status.code(), output.stderr.len()), (Some(32 + case.number as i32), 0), "{}", case.name);
        assert!(shown.contains("\nthe first list: ") && shown.contains("\nthe second list: "), "{shown}");
        assert_eq!(shown.contains("they clash at "), case.number == 23, "{shown}");
    }
}

/// All ranges in which they clash, among those that both put.
#[test]
fn the_ranges_of_a_clash() {
    let first = written("ranges_1.load", &[4, 0, 8, 7, 1, 0, 0, 1, 0, 4, 0, 2, 0, 0]);
    let second = written("ranges_2.load", &[1, 0, 0, 0, 1, 3, 7, 8, 7, 9, 2, 9, 1, 0, 0, 1, 1, 2, 3, 0]);
    let (shown, status) = said(&["load", &first, "--with", &second]);
    let ranges = "both would put 6 addresses:\n  1 to 5: 5 bytes\n  101h: 1 byte\n\
                  they clash at 4 addresses:\n  2: 1 byte\n  4 to 5: 2 bytes\n  101h: 1 byte\n";
    assert!(status == 55 && shown.contains(ranges), "{shown}");
}

/// Files that are no load lists by their names: the usage status, and the name.
#[test]
fn both_must_be_lists() {
    let (list, source, hexadecimal) =
        (file("examples/parts.load"), file("examples/sum.mi"), file("examples/parts.hex"));
    for verb in VERBS {
        for (first, second, wrong) in [
            (&source, &list, &source),
            (&list, &source, &source),
            (&hexadecimal, &list, &hexadecimal),
            (&list, &hexadecimal, &hexadecimal),
            (&list, &String::new(), &String::new()),
        ] {
            let sentence = format!("desk {verb}: --with takes load lists, and '{wrong}' is none: its name does not end in .load; `desk help {verb}` tells more\n");
            assert_eq!(refused(&[verb, first, "--with", second]), (sentence, 64));
        }
        let (sentence, status) = refused(&[verb, &list, "--with"]);
        assert!(status == 64 && sentence.contains("--with needs a value, SECOND.load"), "{sentence}");
        let (sentence, status) = refused(&[verb, &list, "--with", &list, "--with", &list]);
        assert!(status == 64 && sentence.contains("--with is given twice"), "{sentence}");
    }
    assert_eq!(refused(&["asm", &source, "--with", &list, "-o", "c"]).1, 64);
}

/// `desk load` takes lists whatever they are called, commented hexadecimal too, but no sources.
#[test]
fn the_verb_takes_other_names() {
    let (list, source, hexadecimal) =
        (file("examples/lookup.load"), file("examples/lookup.mi"), file("examples/table.hex"));
    for (first, second) in [(&list, &source), (&source, &list)] {
        let sentence = format!("desk load: --with takes load lists, and '{source}' is a source; `desk asm` makes lists; `desk help load` tells more\n");
        assert_eq!(refused(&["load", first, "--with", second]), (sentence, 64));
    }
    let behind_title = |second: &str| {
        let (shown, status) = said(&["load", &list, "--with", second]);
        assert_eq!(status, 0);
        shown.split_once('\n').expect("a title").1.to_string()
    };
    assert_eq!(behind_title(&hexadecimal), behind_title(&file("examples/table.load")));
    assert_eq!(behind_title(&written("both_other.bin", &[0])).lines().count(), 7);
}

/// A list that cannot be read is named.
#[test]
fn files_that_cannot_be_read() {
    let list = file("examples/parts.load");
    for verb in [&VERBS[..], &["load"]].concat() {
        for (first, second) in [(list.as_str(), "no/such.load"), ("no/such.load", list.as_str())] {
            let (sentence, status) = refused(&[verb, first, "--with", second]);
            assert_eq!((sentence.as_str(), status), ("no/such.load: cannot be read: No such file or directory\n", 66));
        }
    }
}

/// With --json the one object has the words.
#[test]
fn json_has_the_words() {
    let (first, second) = (file("examples/lookup.load"), file("examples/table_clash.load"));
    let line = text(&desk(&["run", &first, "--with", &second, "--json"]).stdout);
    assert!(line.starts_with("{\"end\":\"error\",\"exit\":55,\"words\":\"") && line.contains("refusal 23"), "{line}");
}

/// The numbers are in the help.
#[test]
fn the_help_has_the_numbers() {
    let stops = said(&["help", "stops"]).0;
    assert!(
        stops.contains("  22 ") && stops.contains("  23 ") && stops.contains("two load lists that clash"),
        "{stops}"
    );
    assert!(said(&["help", "status"]).0.contains("54 and 55 for 22 and 23"));
    for verb in [&VERBS[..], &["load"]].concat() {
        assert!(said(&["help", verb]).0.contains("--with SECOND.load"), "{verb}");
    }
}
