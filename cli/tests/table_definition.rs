//! Holds the table of commands against the machine's definition, read as text: crates/machine/specs/Code.antt and, for floating
//! numbers, FloatCode.antt beside it.

mod common;

use desk::table::{command, commands, Command, Flow, Mode, Operand, Role, Size, SUMMARY};

fn specification(file: &str) -> String {
    std::fs::read_to_string(common::repository().join("crates/machine/specs").join(file)).expect(file)
}

fn is_floating(command: &Command) -> bool {
    command.size.is_some_and(Size::is_floating)
}

/// The rows of the definition.
#[test]
fn names_and_rows_are_those_of_the_definition() {
    let text = specification("Code.antt");
    let mut rows = 0;
    let mut bytes = Vec::new();
    for line in text.lines().map(|line| line.trim().trim_start_matches("∷ ")) {
        let mut words = line.splitn(3, ' ');
        let (Some(kind), Some(number), Some(rest)) = (words.next(), words.next(), words.next()) else { continue };
        let Some(byte) = number.strip_prefix("0x").and_then(|digits| u8::from_str_radix(digits, 16).ok()) else {
            continue;
        };
        let sizes: &[Option<Size>] = match kind {
            "one" => &[None],
            "sized" => &[Some(Size::B), Some(Size::H), Some(Size::W)],
            _ => continue,
        };
        rows += 1;
        for (size, byte) in sizes.iter().zip(byte..) {
            let found = command(byte).unwrap_or_else(|| panic!("byte {byte:02X} is not in the table"));
            assert_eq!((found.name, found.size), (name(rest).as_str(), *size), "{line}");
            assert_eq!(found.mode, mode(rest), "{line}");
            assert_eq!(found.operands, operands(&text, rest, *size).as_slice(), "{line}");
            bytes.push(byte);
        }
    }
    assert_eq!(rows, 39);
    let whole = commands().filter(|command| !is_floating(command));
    assert_eq!(bytes, whole.map(|command| command.byte).collect::<Vec<_>>());
}

/// The rows for F and D: `kinds 0x80 (gives ADD) two`. Both modes allow them, and the next command follows.
#[test]
fn floating_rows_are_those_of_the_definition() {
    let text = specification("FloatCode.antt");
    let mut bytes = Vec::new();
    for line in text.lines().map(|line| line.trim().trim_start_matches("∷ ")) {
        let Some((number, rest)) = line.strip_prefix("kinds 0x").and_then(|row| row.split_once(' ')) else { continue };
        let byte = u8::from_str_radix(number, 16).expect("a byte");
        let (title, roles) = rest.rsplit_once(' ').expect("a name and roles");
        for (size, byte) in [Size::F, Size::D].into_iter().zip(byte..) {
            let found = command(byte).unwrap_or_else(|| panic!("byte {byte:02X} is not in the table"));
            let name = name(title).to_ascii_uppercase();
            assert_eq!((found.name, found.size), (name.as_str(), Some(size)), "{line}");
            assert_eq!((found.mode, found.flow), (Mode::Both, Flow::Next), "{line}");
            let operands: Vec<Operand> = self::roles(&text, roles).map(|role| Operand { size, role }).collect();
            assert_eq!(found.operands, operands.as_slice(), "{line}");
            bytes.push(byte);
        }
    }
    assert_eq!(bytes.len(), 20);
    assert_eq!(
        bytes,
        commands().filter(|command| is_floating(command)).map(|command| command.byte).collect::<Vec<_>>()
    );
}

/// The roles of a list by its name: `two = Value ∷ Update ∷ []`.
fn roles<'a>(text: &'a str, list: &str) -> impl Iterator<Item = Role> + 'a {
    let start = format!("{list} = ");
    let roles =
        text.lines().find_map(|line| line.strip_prefix(&start)).unwrap_or_else(|| panic!("{list} is not defined"));
    roles.split('∷').map(str::trim).filter(|role| *role != "[]").map(|role| match role {
        "Value" => Role::Value,
        "Destination" => Role::Destination,
        "Update" => Role::Update,
        _ => panic!("{role}"),
    })
}

/// What the help says of a row is written as the row is: its name, s where it has sizes or f where it has kinds, and as many
/// operands.
#[test]
fn usages_are_those_of_the_rows() {
    let mut usages = Vec::new();
    for found in commands() {
        let size = match found.size {
            None => "",
            Some(Size::B) => " s",
            Some(Size::F) => " f",
            Some(_) => continue,
        };
        let operands = ["", " a", " a,b", " a,b,c"][found.operands.len()];
        usages.push(format!("{}{size}{operands}", found.name));
    }
    assert_eq!(SUMMARY.map(|(usage, _)| usage.to_string()).to_vec(), usages);
    assert!(SUMMARY.iter().all(|(_, does)| !does.is_empty()));
}

/// `(result MOVE) transport`: the name is the last word of the first part that is no size.
fn name(rest: &str) -> String {
    let part = first_part(rest);
    let plain: String = part.chars().map(|c| if "()".contains(c) { ' ' } else { c }).collect();
    let word = plain.split_whitespace().rfind(|word| Size::of_letter(word).is_none()).expect("a name");
    if word == "system_call" {
        "SYSTEM CALL".to_string()
    } else {
        word.to_string()
    }
}

fn mode(rest: &str) -> Mode {
    match first_part(rest) {
        part if part.contains("kernel_only") => Mode::Kernel,
        part if part.contains("user_only") => Mode::User,
        _ => Mode::Both,
    }
}

/// Up to the bracket that closes the first one, or the first word.
fn first_part(rest: &str) -> &str {
    let mut depth = 0;
    for (at, c) in rest.char_indices() {
        match c {
            '(' => depth += 1,
            ')' => depth -= 1,
            ' ' if depth == 0 => return &rest[..at],
            _ => {}
        }
    }
    rest
}

/// The operands behind the name: a list, or the name of one.
fn operands(text: &str, rest: &str, size: Option<Size>) -> Vec<Operand> {
    let list = rest[first_part(rest).len()..].trim();
    let list = list.trim_start_matches('(').trim_end_matches(')').trim_start_matches("λ s.").trim();
    let (list, size) = match list.split_whitespace().collect::<Vec<_>>()[..] {
        [named] if named != "[]" => (definition(text, named), size),
        [named, letter] if definition_of(text, named).is_some() => (definition(text, named), Size::of_letter(letter)),
        _ => (list.to_string(), size),
    };
    list.split('∷')
        .map(str::trim)
        .filter(|item| *item != "[]" && !item.is_empty())
        .map(|item| operand(item, size))
        .collect()
}

fn definition_of(text: &str, name: &str) -> Option<String> {
    text.lines().find_map(|line| line.strip_prefix(&format!("{name} s = ")).map(str::to_string))
}

fn definition(text: &str, name: &str) -> String {
    definition_of(text, name).unwrap_or_else(|| panic!("{name} is not defined"))
}

fn operand(item: &str, size: Option<Size>) -> Operand {
    let (role, letter) = item.split_once(' ').unwrap_or((item, "W"));
    let role = match role {
        "value" => Role::Value,
        "address" => Role::Address,
        "destination" => Role::Destination,
        "update" => Role::Update,
        _ => panic!("{item}"),
    };
    Operand { size: Size::of_letter(letter).or(size).expect("a size"), role }
}
