//! `--break PLACE` holds a run before the command at the place: the words, the exit status, JSON and the trace.

mod support;

use support::{desk, example, file, golden, refused, said, text, written};

/// The first line that a run says, and its status.
fn end(file: &str, options: &[&str]) -> (String, i32) {
    let (out, status) = said(&[&["run", file], options].concat());
    (out.lines().next().unwrap_or_default().to_string(), status)
}

#[track_caller]
fn held(file: &str, options: &[&str], words: &str) {
    assert_eq!(end(file, options), (format!("held after {words}"), 123), "{options:?}");
}

#[test]
fn the_first_of_two_that_is_reached() {
    let minimum = example("minimum");
    held(&minimum, &["--break", "loop"], "10 steps: at breakpoint 1, before the command at loop (274h)");
    held(&minimum, &["--break=fi", "--break=loop"], "10 steps: at breakpoint 2, before the command at loop (274h)");
    held(&minimum, &["--break", "fi"], "13 steps: at breakpoint 1, before the command at fi (29Bh)");
    // Of two at one place it is the first.
    held(&minimum, &["--break=274h", "--break=loop"], "10 steps: at breakpoint 1, before the command at loop (274h)");
}

/// A run is not held before its first step, but when it comes back there.
#[test]
fn the_second_time_round() {
    let round = written("round.mi", b" SEG 200h\nstart: ADD W I 1,R0\n JUMP start\n");
    held(&round, &["--break", "start"], "2 steps: at breakpoint 1, before the command at start (200h)");
    assert_eq!(end(&round, &["--break", "start", "--steps", "2"]).1, 124);
    held(&round, &["--break=start", "--steps=3"], "2 steps: at breakpoint 1, before the command at start (200h)");
    let (out, status) = said(&["run", &example("sum"), "--break", "200h"]);
    assert!(status == 0 && out.contains("\n  not held: no command that ran after the first one had a breakpoint\n"));
}

#[test]
fn places_are_numbers_names_and_distances() {
    let user_mode = example("user_mode");
    held(&user_mode, &["--break", "14h"], "7 steps: at breakpoint 1, before the command at 14h");
    held(&user_mode, &["--break", "program+20"], "7 steps: at breakpoint 1, before the command at 14h");
    held(&user_mode, &["--break", "skip"], "8 steps: at breakpoint 1, before the command at skip (235h)");
    held(&user_mode, &["--break", "program"], "1 step: at breakpoint 1, before the command at program (0)");
    let (sentence, status) = refused(&["run", &user_mode, "--break", "skip", "--break", "nowhere"]);
    let words =
        "desk run: --break: 'nowhere' is no address: one is a number such as 410h or a name of the file such as \
        block; `desk help run` tells more\n";
    assert_eq!((sentence.as_str(), status), (words, 64));
}

/// Two lists in one memory have the names that a listing makes.
#[test]
fn in_two_load_lists() {
    let (lookup, table) = (file("examples/lookup.load"), file("examples/table.load"));
    held(&lookup, &["--with", &table, "--break=L257"], "20 steps: at breakpoint 1, before the command at L257 (257h)");
}

/// 20Dh is `loop` of the program and `back` of the kernel.
#[test]
fn a_name_is_of_one_mode_and_a_number_of_all() {
    let ticks = file("cli/tests/scripts/ticks.mi");
    let request = "--request=5@8";
    held(&ticks, &[request, "--break=20Dh"], "2 steps: at breakpoint 1, before the command at loop (20Dh)");
    held(&ticks, &[request, "--break=loop"], "2 steps: at breakpoint 1, before the command at loop (20Dh)");
    held(&ticks, &[request, "--break=back"], "8 steps: at breakpoint 1, before the command at back (20Dh)");
}

/// Where an interrupt is due at a breakpoint, its kernel entry goes first. What is requested for the step that is not
/// made is pending.
#[test]
fn an_interrupt_that_is_due_goes_first() {
    let ticks = file("cli/tests/scripts/ticks.mi");
    let at_count = "at breakpoint 1, before the command at count (200h)";
    held(&ticks, &["--break", "count"], &format!("1 step: {at_count}"));
    for options in [&["--request=5@1"][..], &["--request=5@2"], &["--request=5@2", "--trace"]] {
        let (out, status) = said(&[&["run", &ticks, "--break", "count"], options].concat());
        assert!(status == 123 && out.contains(&format!("held after 3 steps: {at_count}\n")), "{out}");
        assert!(out.contains("\nlast kernel entry: step 2, cause 21: an interrupt of level 5, in program block\n"));
    }
    let (out, status) = said(&["run", &ticks, "--break=back", "--request=5@2", "--request=5@3", "--request=5@4"]);
    assert!(status == 123 && out.starts_with("held after 2 steps: at breakpoint 1"), "{out}");
    assert!(out.contains("\nkernel mode, level 0, flags ----, pending level 5\n"), "{out}");
    assert!(!out.contains("5@3") && out.contains("\nthe request 5@4 was not made"), "{out}");
}

#[test]
fn a_hold_is_as_stored() {
    for (name, options) in [("txt", &["--trace"][..]), ("json", &["--trace", "--json", "--dump", "DC0h,16"])] {
        let (out, status) = said(&[&["run", &example("factorial"), "--break", "one"], options].concat());
        assert_eq!(status, 123);
        golden(&format!("golden/run/factorial_break.{name}"), &out);
    }
}

/// With a trace the run is held at the same step, and its lines are the first ones of the whole trace.
#[test]
fn with_a_trace_the_end_is_the_same() {
    for (name, place) in
        [("factorial", "result"), ("isolation", "readonly"), ("fibonacci", "tell"), ("user_mode", "14h")]
    {
        let (plain, status) = said(&["run", &example(name), "--break", place]);
        let (traced, traced_status) = said(&["run", &example(name), "--break", place, "--trace"]);
        assert_eq!((status, traced_status), (123, 123), "{name}");
        let steps = traced.strip_suffix(&format!("\n{plain}")).expect("the same end");
        assert!(said(&["run", &example(name), "--trace"]).0.starts_with(steps), "{name}");
    }
}

#[test]
fn with_until_the_first_holds() {
    let minimum = example("minimum");
    held(&minimum, &["--until=fi", "--break=loop"], "10 steps: at breakpoint 1, before the command at loop (274h)");
    let until = ("held after 10 steps: before the command at loop (274h)".to_string(), 125);
    assert_eq!(end(&minimum, &["--until=loop", "--break=fi"]), until);
    assert_eq!(end(&minimum, &["--until=loop", "--break=loop"]), until);
}

/// A place without a command is allowed, and told where nothing is held.
#[test]
fn a_breakpoint_where_nothing_is() {
    let places = ["--break=15h", "--break=F000h", "--break=program+700h", "--break=start+9000h", "--break=900h"];
    let (out, status) = said(&[&["run", &example("user_mode")], &places[..]].concat());
    assert_eq!(status, 0);
    for words in [
        "not held: no command that ran after the first one had a breakpoint",
        "breakpoint 1: the command at 15h; no command is known to begin there",
        "breakpoint 2: the command at F000h; it is past the memory, and in no map",
        "breakpoint 3: the command at 700h of program block; the program's map has no page there",
        "breakpoint 4: the kernel's command at 9200h; it is past the memory",
        "breakpoint 5: the command at 900h; no command is known to begin there",
    ] {
        assert!(out.contains(&format!("\n  {words}\n")), "'{words}' is not in\n{out}");
    }
}

#[test]
fn at_most_64() {
    let minimum = example("minimum");
    let breaks = |n: usize| {
        let places = (1..n).map(|place| format!("--break={}", 2000 + place));
        places.chain(["--break=loop".to_string()]).collect::<Vec<_>>()
    };
    let options = breaks(64);
    let options: Vec<&str> = options.iter().map(String::as_str).collect();
    held(&minimum, &options, "10 steps: at breakpoint 64, before the command at loop (274h)");
    let options = breaks(65);
    let arguments: Vec<&str> = ["run", &minimum].into_iter().chain(options.iter().map(String::as_str)).collect();
    let words = "desk run: refusal 20: the run has more than 64 breakpoints (--break is given 65 times)";
    assert_eq!(refused(&arguments), (format!("{words}\n"), 52));
    let output = desk(&[&arguments[..], &["--json", "--trace"]].concat());
    let object = format!("{{\"end\":\"error\",\"exit\":52,\"words\":\"{words}\"}}\n");
    assert_eq!((text(&output.stdout), output.status.code()), (object, Some(52)));
}
