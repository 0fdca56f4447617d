//! Random and damaged options: nothing panics, and what is not usable is said.

mod support;

use desk::machine::Machine;
use desk::options::{self, Asked};
use desk::plan::Plan;
use desk::verbs::VERBS;
use support::{images, Random};

const WORDS: [&str; 34] = [
    "a.mi",
    "--steps",
    "--steps=",
    "--steps=7",
    "--memory",
    "--with",
    "--with=b.load",
    "--request",
    "5@20",
    "5@",
    "@",
    "--until",
    "entry",
    "entry:",
    "entry:11",
    "--break",
    "--break=200h",
    "--dump",
    "0,",
    ",",
    "410h,8",
    "--json",
    "--trace",
    "-o",
    "--output=x",
    "--",
    "-",
    "--=",
    "",
    "--help",
    "\u{0}",
    "0x",
    "h",
    "99999999999999999999999",
];

#[test]
fn no_options_panic() {
    let mut random = Random(3);
    let machine = Machine::fresh(images::random(&mut random)).expect("a desk");
    let mut plans = 0;
    for _ in 0..50_000 {
        let verb = random.pick(VERBS);
        let arguments: Vec<String> = (0..random.below(6)).map(|_| random.pick(&WORDS).to_string()).collect();
        match options::read(verb, &arguments) {
            Ok(Asked::Do(given)) if verb.name == "run" => plans += usize::from(Plan::of(&given, &machine).is_ok()),
            Ok(_) => {}
            Err(sentence) => assert!(sentence.len() > 5),
        }
    }
    assert!(plans > 100, "{plans}");
}
