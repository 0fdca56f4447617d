//! `--request LEVEL@STEP` requests just before that step, as a host would by the library's own calls.

mod support;

use desk::image;
use midesk::{Desk, Event};
use std::path::Path;
use support::{example, said, written};

/// The kernel entries of a run in which levels are requested before steps, by the library.
fn by_library(file: &str, requests: &[(u64, u32)], steps: u64) -> Vec<(u64, u32)> {
    let image = image::load(Path::new(file)).expect("the image");
    let mut memory = image.memory.clone();
    let mut desk = Desk::fresh(&memory, image.system, image.control, image.start).expect("a desk");
    let mut entries = Vec::new();
    for step in 1..=steps {
        for (_, level) in requests.iter().filter(|(at, _)| *at == step) {
            desk.request(*level).expect("a level");
        }
        match desk.step(&mut memory) {
            Ok(Event::Entered(cause)) => entries.push((step, cause)),
            Ok(Event::Stopped(_)) | Err(_) => break,
            Ok(_) => {}
        }
    }
    entries
}

/// A kernel that goes back to the program at every interrupt, and a program that counts without end.
const TICKS: &str = "
        SEG 0
        SYSTEM BLOCK
        ON INTERRUPT 5 TO back
        ON INTERRUPT 6 TO back
        SEG 100h
block:  CONTROL BLOCK START count, MAP map
        SEG 200h
start:  RESUME block
back:   RESUME block
        SEG 400h
map:    MAP
        PAGE 0: FRAME OF count, READ
        SEG 600h AT 0
count:  ADD W I 1,R0
        JUMP count
        MEMORY 800h
";

fn entries_of(json: &str) -> Vec<(u64, u32)> {
    let field = |line: &str, name: &str| {
        let (_, rest) = line.split_once(&format!("\"{name}\":")).expect("the field");
        rest.chars().take_while(char::is_ascii_digit).collect::<String>().parse::<u64>().expect("a number")
    };
    let entries = json.lines().filter(|line| line.contains("\"event\":\"entry\""));
    entries.map(|line| (field(line, "step"), field(line, "number") as u32)).collect()
}

#[test]
fn entries_come_where_the_library_has_them() {
    let file = written("ticks.mi", TICKS.as_bytes());
    let requests = [(1, 6), (20, 5), (21, 5), (21, 6), (40, 6)];
    let mut arguments = vec!["run".to_string(), file.clone(), "--trace".into(), "--json".into(), "--steps=60".into()];
    arguments.extend(requests.iter().map(|(step, level)| format!("--request={level}@{step}")));
    let arguments: Vec<&str> = arguments.iter().map(String::as_str).collect();
    let (json, status) = said(&arguments);
    assert_eq!(status, 124);
    let entries = entries_of(&json);
    assert_eq!(entries, by_library(&file, &requests, 60));
    assert_eq!(entries, [(2, 22), (20, 21), (22, 22), (24, 21), (40, 22)]);
}

/// In large pieces the requests come at the same steps: R0 counts the commands that were not interrupted.
#[test]
fn requests_in_a_long_run() {
    let file = written("ticks_long.mi", TICKS.as_bytes());
    let run = |requests: &[&str]| {
        let mut arguments = vec!["run", &file, "--json", "--steps", "3000000"];
        arguments.extend(requests.iter().flat_map(|request| ["--request", request]));
        said(&arguments).0
    };
    let r0 =
        |json: &str| json.split_once("\"registers\":[").expect("registers").1.split(',').next().map(str::to_string);
    assert_eq!(r0(&run(&[])), Some("1500000".to_string()));
    assert_eq!(r0(&run(&["5@2000000", "6@2500001"])), Some("1499998".to_string()));
}

/// A request for a step that the limit keeps from being made is not made either, in single steps and in pieces.
#[test]
fn a_request_behind_the_limit() {
    let file = written("ticks_limit.mi", TICKS.as_bytes());
    for (steps, request) in [("7", "5@8"), ("20000", "5@20001"), ("10000", "5@10001")] {
        let (out, status) = said(&["run", &file, "--steps", steps, "--request", request]);
        assert!(status == 124 && !out.contains("pending"), "{out}");
        assert!(out.contains(&format!("the request {request} was not made")), "{out}");
    }
    let (out, _) = said(&["run", &file, "--steps", "20000", "--request", "5@20000"]);
    assert!(out.contains("still running after 20,000 steps") && !out.contains("was not made"), "{out}");
    assert!(out.contains("next: the kernel at back"), "{out}");
}

#[test]
fn a_request_that_comes_too_late_is_told() {
    let (out, _) = said(&["run", &example("sum"), "--request", "5@20"]);
    assert!(out.contains("the request 5@20 was not made: the run ended before that step"), "{out}");
}
