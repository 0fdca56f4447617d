//! JSON lines: each is a JSON object, and has the fields that the help names.

mod support;

use desk::verbs::{self, Text};
use support::{example, file, said, EXAMPLES};

/// A checker of JSON: what is left behind a value, if it is one.
fn value(text: &str) -> Option<&str> {
    match text.chars().next()? {
        '{' => items(&text[1..], '}', &|rest| value(string(rest)?.strip_prefix(':')?)),
        '[' => items(&text[1..], ']', &value),
        '"' => string(text),
        'n' => text.strip_prefix("null"),
        digit if digit.is_ascii_digit() => {
            let digits = text.chars().take_while(char::is_ascii_digit).count();
            (digits == 1 || digit != '0').then(|| &text[digits..])
        }
        _ => None,
    }
}

fn items<'a>(text: &'a str, end: char, item: &dyn Fn(&'a str) -> Option<&'a str>) -> Option<&'a str> {
    if let Some(rest) = text.strip_prefix(end) {
        return Some(rest);
    }
    let mut rest = item(text)?;
    loop {
        match rest.strip_prefix(',') {
            Some(more) => rest = item(more)?,
            None => return rest.strip_prefix(end),
        }
    }
}

fn string(text: &str) -> Option<&str> {
    let mut letters = text.strip_prefix('"')?.char_indices();
    while let Some((at, letter)) = letters.next() {
        match letter {
            '"' => return Some(&text[at + 2..]),
            '\\' => {
                let (_, escaped) = letters.next()?;
                if escaped == 'u' {
                    for _ in 0..4 {
                        letters.next().filter(|(_, digit)| digit.is_ascii_hexdigit())?;
                    }
                } else if !"\"\\/bfnrt".contains(escaped) {
                    return None;
                }
            }
            control if u32::from(control) < 32 => return None,
            _ => {}
        }
    }
    None
}

#[test]
fn the_checker_checks() {
    for good in ["{}", "[1,20,\"a\\\"b\\u00ff\",null,{\"x\":[]}]", "0"] {
        assert_eq!(value(good), Some(""), "{good}");
    }
    for bad in ["{", "[1,]", "{\"a\"}", "\"a", "\"\\x\"", "01", "{\"a\":}", "nul"] {
        assert_ne!(value(bad), Some(""), "{bad}");
    }
}

/// The fields of a step and of the end, from the two tables in the help of run.
fn documented() -> [Vec<String>; 2] {
    let tables = verbs::verb("run").expect("run").text.iter().filter_map(|piece| match piece {
        Text::Table(rows) => Some(rows.iter().flat_map(|(names, _)| names.split(", ")).map(str::to_string).collect()),
        _ => None,
    });
    tables.collect::<Vec<_>>().try_into().expect("two tables")
}

/// The names of the outermost fields of an object.
fn fields(line: &str) -> Vec<String> {
    let mut names = Vec::new();
    let mut rest = &line[1..];
    while let Some(after) = string(rest) {
        names.push(rest[1..rest.len() - after.len() - 1].to_string());
        rest = value(&after[1..]).expect("a value");
        rest = rest.strip_prefix(',').unwrap_or("");
    }
    names
}

#[test]
fn every_line_is_an_object_with_the_documented_fields() {
    let [step, end] = documented();
    let mut files: Vec<String> = EXAMPLES.iter().map(|name| example(name)).collect();
    files.extend([8, 12, 13, 14, 15, 16].map(|stop| file(&format!("tests/trace/stop_{stop}.hex"))));
    for file in files {
        let (out, _) = said(&["run", &file, "--trace", "--json", "--dump", "0,8", "--request", "3@2"]);
        let lines: Vec<&str> = out.lines().collect();
        for (place, line) in lines.iter().enumerate() {
            assert_eq!(value(line), Some(""), "{file}: {line}");
            assert_eq!(fields(line), if place + 1 < lines.len() { &step } else { &end }.as_slice(), "{file}: {line}");
        }
    }
}

#[test]
fn a_hold_has_the_number_of_its_breakpoint() {
    let (out, status) = said(&["run", &example("factorial"), "--json", "--break", "900h", "--break", "one"]);
    assert_eq!((status, value(out.trim_end())), (123, Some("")), "{out}");
    assert_eq!(fields(&out), documented()[1]);
    assert!(out.starts_with(r#"{"end":"break","number":2,"cause":null,"argument":null,"words":"held after 30 steps: "#));
    assert!(out.contains(r#""exit":123,"steps":30,"#), "{out}");
}

/// Alarm 21 is told by its cause, 2, with the byte's address, and by its own number in words.
#[test]
fn alarm_21_in_json() {
    let (out, _) = said(&["run", &example("no_fetch"), "--trace", "--json"]);
    let entries: Vec<&str> = out.lines().filter(|line| line.contains(r#""event":"entry","number":2,"#)).collect();
    assert_eq!(entries.len(), 2, "{out}");
    for (entry, address, argument) in [(entries[0], 0x206, 0x206), (entries[1], 0x1FF, 0x200)] {
        for words in [
            format!(r#""address":{address},"command":null,"bytes":null,"#),
            format!(r#""cause":2,"argument":{argument},"words":"alarm 21, a fetch from a page without commands, "#),
            r#""registers":[],"memory":[]"#.to_string(),
        ] {
            assert!(entry.contains(&words), "'{words}' is not in\n{entry}");
        }
    }
}

/// The causes of stops by number, requests not made, and errors as objects.
#[test]
fn stops_requests_and_errors_have_their_numbers() {
    let (out, status) = said(&["run", &file("tests/trace/stop_16.hex"), "--json", "--request", "3@99"]);
    assert_eq!(status, 16);
    assert!(out.contains(r#""end":"stop","number":16,"cause":"#) && !out.contains(r#""cause":null"#), "{out}");
    assert!(out.contains(r#""not_made":[{"step":99,"level":3}]"#), "{out}");
    for (arguments, exit, words) in [
        (&["run", "there/is/none.mi", "--json"][..], 66, "there/is/none.mi: cannot be read"),
        (&["run", "--json", "--fly"], 64, "there is no option '--fly'"),
        (&["run", &example("sum"), "--json", "--memory", "1025"], 33, "refusal 1"),
    ] {
        let output = support::desk(arguments);
        assert_eq!(output.status.code(), Some(exit));
        let line = support::text(&output.stdout);
        assert_eq!(value(line.trim_end()), Some(""), "{line}");
        assert!(
            line.starts_with(&format!(r#"{{"end":"error","exit":{exit},"words":""#)) && line.contains(words),
            "{line}"
        );
        assert!(support::text(&output.stderr).contains(words));
    }
}
