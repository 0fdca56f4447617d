//! Prints what the stored cases reach: `coverage FILE`. Ends with 1 if
//! anything that document 01 or a request of document 02 names isn't reached.

use model::cover::Cover;
use model::{
    breakpoint_table, fetch_table, flag_table, float_table, joint_table, list_table, shift_table, store, table,
};

fn main() {
    let path = std::env::args().nth(1).expect("usage: coverage FILE");
    let cases = store::read(&std::fs::read(path).expect("read"));
    let mut cover = Cover::default();
    for (case, _) in &cases {
        cover.play(case);
    }
    let mut all = table::Table::default();
    table::commands(&cover, &mut all);
    table::forms(&cover, &mut all);
    table::rules(&cover, &mut all);
    table::alarms(&cover, &mut all);
    table::entries(&cover, &mut all);
    table::refusals(&cover, &mut all);
    list_table::lists(&cover, &mut all);
    joint_table::pairs(&cover, &mut all);
    flag_table::levels(&cover, &mut all);
    flag_table::flags(&cover, &mut all);
    shift_table::shifts(&cover, &mut all);
    fetch_table::fetches(&cover, &mut all);
    float_table::floats(&cover, &mut all);
    breakpoint_table::breakpoints(&cover, &mut all);
    println!("{} cells to reach, {} missing, {} impossible by the rules", all.cells, all.missing.len(), all.impossible);
    for name in &all.missing {
        println!("missing: {name}");
    }
    if !all.missing.is_empty() {
        std::process::exit(1);
    }
}
