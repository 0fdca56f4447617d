//! The examples under `desk run`: the trace and the end as stored; the same end without a trace; the steps of `trace`.

mod support;

use support::{example, file, golden, said, written, EXAMPLES};

#[test]
fn traces_are_as_stored() {
    for name in EXAMPLES {
        let (out, status) = said(&["run", &example(name), "--trace"]);
        assert_eq!(status, 0, "{name}");
        golden(&format!("golden/run/{name}.txt"), &out);
    }
}

#[test]
fn json_is_as_stored() {
    let (out, _) = said(&["run", &example("user_mode"), "--trace", "--json", "--dump", "800h,4"]);
    golden("golden/run/user_mode.json", &out);
    let (out, _) = said(&["run", &example("no_fetch"), "--trace", "--json", "--dump", "A00h,4"]);
    golden("golden/run/no_fetch.json", &out);
}

#[test]
fn without_trace_the_end_is_the_same() {
    for name in EXAMPLES {
        let (traced, _) = said(&["run", &example(name), "--trace"]);
        let (plain, _) = said(&["run", &example(name)]);
        assert!(traced.ends_with(&format!("\n\n{plain}")), "{name}");
    }
}

/// Without the mark of its page of names the example ends at `ran`: by the RET that a name begins with, and by the CLEAR whose
/// operand lies there.
#[test]
fn the_example_of_pages_without_commands_can_fail() {
    let source = std::fs::read_to_string(example("no_fetch")).expect("the example");
    let fetched = source.replace("READ, NO FETCH", "READ");
    let second = fetched.replace("JUMP lane ", "JUMP behind1 ").replace("DD W rows ", "DD W rows+12 ");
    for (name, changed, word) in [("fetched_1.mi", &fetched, "00000001"), ("fetched_2.mi", &second, "00000000")] {
        assert_ne!(*changed, source);
        let (out, status) = said(&["run", &written(name, changed.as_bytes()), "--dump", "A00h,4"]);
        assert!(status == 12 && out.contains("command: the kernel at ran (2AEh)"), "{out}");
        assert!(out.contains(&format!("\n0A00h  {word}")), "{out}");
    }
    assert_ne!(fetched, second);
}

/// The trace of the paper's program `trace`, which is stored beside each example, has the same steps.
#[test]
fn steps_are_those_of_trace() {
    for name in EXAMPLES {
        let stored = std::fs::read_to_string(file(&format!("examples/{name}.txt"))).expect("the stored trace");
        let (json, _) = said(&["run", &example(name), "--trace", "--json"]);
        let mut lines: Vec<String> =
            json.lines().filter(|line| line.starts_with("{\"step\"")).map(paper_line).collect();
        lines.push("stop 0".to_string());
        assert_eq!(stored, lines.iter().map(|line| format!("{line}\n")).collect::<String>(), "{name}");
    }
}

fn paper_line(json: &str) -> String {
    let number = |field: &str| {
        let (_, rest) = json.split_once(&format!("\"{field}\":")).expect("the field");
        let digits: String = rest.chars().take_while(char::is_ascii_digit).collect();
        digits.parse::<u32>().expect("a number")
    };
    format!("{} {:08X} {:08X}", number("step"), number("r15"), number("status"))
}
