//! `desk debug` by scripts: each scripts/NAME.txt has a file in its first line, as a remark, and gives NAME.out.

mod support;

use std::io::Write;
use std::process::{Command, Stdio};
use support::{desk, example, file, golden, here, refused, text, written};

#[test]
fn scripts_answer_as_stored() {
    let mut scripts: Vec<_> = std::fs::read_dir(here().join("tests/scripts"))
        .expect("the scripts")
        .map(|entry| entry.expect("a script").path())
        .filter(|path| path.extension().is_some_and(|ending| ending == "txt"))
        .collect();
    scripts.sort();
    assert!(scripts.len() >= 6);
    for script in scripts {
        let lines = std::fs::read_to_string(&script).expect("a script");
        let words: Vec<&str> = lines.lines().next().expect("a line").split_whitespace().collect();
        let ["--", path, options @ ..] = words.as_slice() else { panic!("{}", script.display()) };
        let (path, script_path) = (file(path), script.display().to_string());
        let mut arguments = vec!["debug", &path, "--script", &script_path, "--echo"];
        arguments.extend(options);
        let output = desk(&arguments);
        assert_eq!(text(&output.stderr), "");
        let name = script.file_stem().expect("a name").to_string_lossy().into_owned();
        let status = output.status.code().expect("a status");
        // Messages name the script by the path that was given.
        let out = text(&output.stdout).replace(&script_path, "SCRIPT");
        golden(&format!("scripts/{name}.out"), &format!("{out}status {status}\n"));
    }
}

/// The same lines from standard input: no prompt, since that is no terminal.
#[test]
fn lines_from_standard_input() {
    let mut child = Command::new(env!("CARGO_BIN_EXE_desk"))
        .args(["debug", &example("user_mode")])
        .stdin(Stdio::piped())
        .stdout(Stdio::piped())
        .spawn()
        .expect("desk runs");
    child.stdin.take().expect("its input").write_all(b"step\n\nfly\nwhere").expect("lines");
    let output = child.wait_with_output().expect("its end");
    assert_eq!(output.status.code(), Some(65));
    let expected = "    1 kernel    200h  start: RESUME block                   ----   to user mode: program block goes on at program (0)\n\
        next: program block at program (0): SYSTEM CALL I 21 (line 44)\n\
        \x20   2 user      000h  program: SYSTEM CALL I 21             ----\n\
        \x20            kernel entry, cause 1: a system call, argument 15h (21); goes on at call (207h)\n\
        next: the kernel at call (207h): CMP W I 0,block.argument (line 27)\n\
        line 3: there is no command 'fly'; `help` lists them\n\
        2 steps made\n\
        next: the kernel at call (207h): CMP W I 0,block.argument (line 27)\n";
    assert_eq!(text(&output.stdout), expected);
}

/// A 65th breakpoint is refused; where one is deleted there is room again, and its number is not given anew.
#[test]
fn at_most_64_breakpoints() {
    let breaks: String = (0..65).map(|place| format!("break {}\n", 1000 + place)).collect();
    let script = written("breaks.txt", format!("{breaks}delete 64\nbreak 7\nbreak 8\n").as_bytes());
    let output = desk(&["debug", &example("sum"), "--script", &script]);
    let out = text(&output.stdout);
    let refused =
        |line| format!("{script}:{line}: refusal 20: a run has at most 64 breakpoints; `delete N` makes room");
    let number = "breakpoint 65: the command at 7; no command is known to begin there";
    let last: Vec<&str> = out.lines().skip(64).collect();
    assert_eq!(last, [&refused(65), "breakpoint 64 is deleted", number, &refused(68)]);
}

#[test]
fn a_closed_pipe_ends_it() {
    let mut child = Command::new(env!("CARGO_BIN_EXE_desk"))
        .args(["run", &file("tests/trace/end.hex"), "--trace", "--steps", "100000"])
        .stdout(Stdio::piped())
        .stderr(Stdio::piped())
        .spawn()
        .expect("desk runs");
    drop(child.stdout.take());
    let output = child.wait_with_output().expect("its end");
    assert_eq!((output.status.code(), text(&output.stderr)), (Some(74), String::new()));
}

#[test]
fn options_of_debug() {
    let (sentence, status) = refused(&["debug", &example("sum"), "--script"]);
    assert!(status == 64 && sentence.contains("--script needs a value, SCRIPT"), "{sentence}");
}
