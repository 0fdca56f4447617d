//! The exit status tells the end, and bad input of every kind gets a sentence.

mod support;

use support::{example, file, refused, said, written};

fn status(arguments: &[&str]) -> i32 {
    said(arguments).1
}

#[test]
fn each_stop_is_the_status() {
    for stop in [8, 12, 13, 14, 15, 16] {
        let (out, status) = said(&["run", &file(&format!("tests/trace/stop_{stop}.hex"))]);
        assert_eq!(status, stop);
        assert!(out.starts_with(&format!("stop {stop} after ")), "{out}");
    }
    assert_eq!(status(&["run", &example("sum")]), 0);
}

#[test]
fn limits_and_until() {
    let example = example("user_mode");
    let (out, status) = said(&["run", &example, "--steps", "7"]);
    assert_eq!((status, out.lines().next()), (124, Some("still running after 7 steps, the limit")));
    let (out, status) = said(&["run", &example, "--until", "entry:11"]);
    assert_eq!((status, out.lines().next()), (125, Some("held after 8 steps: at a kernel entry of cause 11")));
    let (out, status) = said(&["run", &example, "--until", "entry"]);
    assert_eq!((status, out.lines().next()), (125, Some("held after 2 steps: at a kernel entry")));
    let (out, status) = said(&["run", &self::example("no_fetch"), "--until", "entry:2"]);
    assert_eq!((status, out.lines().next()), (125, Some("held after 6 steps: at a kernel entry of cause 2")));
    let words =
        "last kernel entry: step 6, cause 2: alarm 21, a fetch from a page without commands, address 206h (page 1), \
        in program block at lane (206h): (cannot be fetched: 206h) (line 81)\n";
    assert!(out.replace("\n    ", " ").contains(words), "{out}");
    let (out, _) = said(&["run", &example, "--until", "finish"]);
    assert_eq!(out.lines().next(), Some("held after 13 steps: before the command at finish (249h)"));
    let (out, _) = said(&["run", &example, "--until", "14h"]);
    assert_eq!(out.lines().next(), Some("held after 7 steps: before the command at 14h"));
    assert_eq!(self::status(&["run", &example, "--steps", "0"]), 124);
    assert_eq!(self::status(&["run", &example, "--until", "900h"]), 0);
}

/// An end that --until did not wait for is told; an alarm that becomes stop 16 is no kernel entry.
#[test]
fn an_until_that_did_not_hold_is_told() {
    let (user_mode, past_end) = (example("user_mode"), file("cli/tests/scripts/past_end.hex"));
    for (arguments, words) in [
        (&["run", &user_mode, "--until", "900h"][..], "not held: no step led to the command at 900h\n"),
        (
            &["run", &user_mode, "--until", "finish", "--steps", "3"],
            "not held: no step led to the kernel's command at finish (249h)\n",
        ),
        (&["run", &user_mode, "--until", "entry:9"], "not held: no kernel entry of cause 9 came\n"),
        (
            &["run", &past_end, "--until", "entry:11"],
            "not held: alarm 11 came, but as stop 16, and not as a kernel entry\n",
        ),
        (&["run", &past_end, "--until", "entry"], "not held: no kernel entry came; alarm 11 came, but as stop 16\n"),
        (&["run", &past_end, "--until", "entry:9"], "not held: no kernel entry of cause 9 came\n"),
    ] {
        let (out, _) = said(arguments);
        assert!(out.contains(words), "'{words}' is not in\n{out}");
    }
    assert!(!said(&["run", &user_mode, "--until", "finish"]).0.contains("not held"));
}

#[test]
fn refusals_are_told() {
    let example = example("sum");
    let (sentence, status) = refused(&["run", &example, "--memory", "1025"]);
    assert_eq!(
        (sentence.as_str(), status),
        ("desk run: refusal 1: the memory length is not allowed (it has 1025 bytes; allowed are multiples of 512, up to 16777216)\n", 33)
    );
    let (sentence, status) = refused(&["run", &example, "--system", "301h"]);
    assert!(
        sentence.starts_with("desk run: refusal 2: the system block's address is no multiple of 4") && status == 34
    );
    let (sentence, status) = refused(&["debug", &example, "--control", "3F0h"]);
    assert!(sentence.starts_with("desk debug: refusal 3: the control block's") && status == 35, "{sentence}");
}

#[test]
fn arguments_that_do_not_fit() {
    let example = example("sum");
    let question = refused(&["run", &example, "--stpes", "3"]).0;
    assert_eq!(question, "desk run: there is no option '--stpes'; did you mean --steps? `desk help run` tells more\n");
    let cases: [(&[&str], &str); 13] = [
        (&["--steps"], "--steps needs a value, N"),
        (&["--steps", "-3"], "--steps needs a number such as 1000 or 3E8h, and '-3' is none"),
        (&["--memory", "512"], "--memory 512 is less than the 1024 bytes of the file"),
        (&["--memory", "99999999"], "--memory can be at most 16777216"),
        (&["--request", "5"], "--request needs LEVEL@STEP, such as 5@20, and '5' is none"),
        (&["--request", "16@1"], "--request has the level 16, and levels are 1 to 15"),
        (&["--request", "5@0"], "--request counts steps from 1"),
        (&["--until", "nowhere"], "'nowhere' is neither `entry` nor an address: one is a number such as 410h or a name of the file such as loop"),
        (&["--until", "entry:7"], "'entry:7' names no cause: 1, 2, 8 to 15 or 17 to 31"),
        (&["--dump", "x,y"], "--dump x,y: the count is no number such as 80"),
        (&["--dump", "A00,8"], "--dump A00,8: 'A00' is no address: a hexadecimal number is written with h, A00h"),
        (&["--steps="], "--steps needs a value, N"),
        (&["--steps", "1,00"], "--steps needs a number such as 1000 or 3E8h, and '1,00' is none"),
    ];
    for (options, sentence) in cases {
        let mut arguments = vec!["run", &example];
        arguments.extend(options);
        let (said, status) = refused(&arguments);
        assert_eq!((said, status), (format!("desk run: {sentence}; `desk help run` tells more\n"), 64));
    }
}

#[test]
fn files_that_are_not_usable() {
    for verb in ["run", "debug", "map", "picture"] {
        let (sentence, status) = refused(&[verb, "there/is/no/such.mi"]);
        assert!(status == 66 && sentence.contains("cannot be read"), "{verb}: {sentence}");
        let bad = written("bad.hex", b"00 0g\n");
        let (sentence, status) = refused(&[verb, &bad]);
        assert!(status == 65 && sentence.contains(":1"), "{verb}: {sentence}");
        let (sentence, status) = refused(&[verb]);
        assert!(status == 64 && sentence.contains("it needs FILE"), "{sentence}");
    }
    let (sentence, status) = refused(&["picture", &example("sum"), "-o", "no/such/folder/x.svg"]);
    assert!(status == 74 && sentence.contains("cannot be written"), "{sentence}");
    let (sentence, status) = refused(&["debug", &example("sum"), "--script", "no/such/script"]);
    assert_eq!((sentence.as_str(), status), ("no/such/script: cannot be read: No such file or directory\n", 66));
}

#[test]
fn help_without_arguments() {
    let (overview, status) = said(&["help"]);
    assert!(status == 0 && overview.contains("desk run FILE"));
    assert_eq!(said(&["run", "--help"]), said(&["help", "run"]));
    assert_eq!(said(&["--help"]).0, overview);
    assert_eq!(said(&["--version"]), ("desk 3.2.2, over libmidesk 3.2.2\n".to_string(), 0));
    assert!(said(&["help", "stops"]).0.contains("17 to 31"));
    let lines = |topic: &str| said(&["help", topic]).0.split_whitespace().collect::<Vec<_>>().join(" ");
    assert!(lines("stops").contains("2 cause: alarm 21") && lines("stops").contains("21 alarm: a byte of a command"));
    assert!(lines("stops").contains("20 a run with more than 64 breakpoints, armed or not"));
    assert!(lines("status").contains("49 to 52 for 17 to 20") && lines("status").contains("123 run: a breakpoint"));
    assert!(lines("memory").contains("20000000h no commands may be fetched from it"));
    assert!(lines("memory").contains("1F000000h these bits must be 0"));
    assert!(lines("asm").contains("NO FETCH behind READ or WRITE") && lines("asm").contains("8 to 15 or 21"));
    let (sentence, status) = refused(&["help", "fly"]);
    assert!(status == 64 && sentence.contains("there is no verb 'fly'"), "{sentence}");
}

#[test]
fn dumps_of_names() {
    let example = example("isolation");
    let (out, _) =
        said(&["run", &example, "--dump", "private,4", "--dump", "codeB,4", "--dump", "count", "--dump", "FFCh,8"]);
    for words in [
        "memory from private (C00h)\n0C00h  0B0B0B0B",
        "memory from A00h\n0A00h  6601000B",
        "memory from count (420h)\n0420h  00000006",
        "0FFCh  00000000                             ....\nthe memory ends at 1000h\n",
    ] {
        assert!(out.contains(words), "'{words}' is not in\n{out}");
    }
}
