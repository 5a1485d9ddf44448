// Runs every row on both sides, compares them, and lets callgrind count; or reports what it counted.
mod callgrind;
mod calls;
#[cfg(feature = "ours")]
#[allow(dead_code)]
#[path = "../../bindings/scionwheel.rs"]
mod ours;
mod report;
mod rows;
mod twin;

use callgrind::counted;
use calls::{Input, Lent, Side, SIDES};
use rows::Row;
use std::ffi::CString;
use std::process::ExitCode;

// The dump of no call: what the counting itself costs.
const NOTHING: &str = "nothing";

fn dump_name(side: &str, row: &str) -> String {
    format!("{side} {row}")
}

// Calls once to warm up, and once to be counted.
fn run(side: &Side, row: &Row) -> (i64, Lent) {
    let name = |word: &str| CString::new(dump_name(word, &row.name())).expect("a name");
    side.call(row.clocks, &row.input, &mut Lent::new(row.clocks), &name("warm"));
    let mut lent = Lent::new(row.clocks);
    (side.call(row.clocks, &row.input, &mut lent, &name(side.name)), lent)
}

// No refusal, the text or the states that the row is named for.
fn as_named(row: &Row, answer: i64, lent: &Lent) -> bool {
    match row.input {
        Input::Walk { .. } => answer >= 0 && lent.counts[1] == row.size as u64,
        Input::Print { .. } => !lent.text.starts_with(b"REFUSED"),
        Input::Rewrite { ref bytes } => answer == row.size as i64 && lent.bytes.starts_with(bytes),
        _ => answer >= 0,
    }
}

fn check(row: &Row) -> Result<(), String> {
    let runs: Vec<(i64, Lent)> = SIDES.iter().map(|side| run(side, row)).collect();
    if runs.iter().any(|run| *run != runs[0]) {
        return Err(format!("{}: the sides differ, answers {:?}", row.name(), runs.iter().map(|run| run.0).collect::<Vec<_>>()));
    }
    if !as_named(row, runs[0].0, &runs[0].1) {
        return Err(format!("{}: not what the row is named for, answer {}", row.name(), runs[0].0));
    }
    Ok(())
}

fn measure() -> Result<bool, String> {
    let nothing = CString::new(NOTHING).expect("a name");
    counted(&nothing, || ());
    let rows = rows::all();
    rows.iter().try_for_each(check)?;
    println!("{} rows, {} sides, no difference", rows.len(), SIDES.len());
    Ok(true)
}

fn main() -> ExitCode {
    let words: Vec<String> = std::env::args().skip(1).collect();
    let done = match words.iter().map(String::as_str).collect::<Vec<_>>()[..] {
        [] => measure(),
        ["report", folder] => report::print(folder).map(|_| true),
        ["report", folder, "--strict"] => report::print(folder),
        _ => Err("bench | bench report DIR [--strict]".to_string()),
    };
    match done {
        Ok(true) => ExitCode::SUCCESS,
        Ok(false) => ExitCode::FAILURE,
        Err(why) => {
            eprintln!("{why}");
            ExitCode::FAILURE
        }
    }
}
