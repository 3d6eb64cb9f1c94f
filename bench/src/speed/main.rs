//! What the calls cost, in the proved library and in Rust with the same algorithm. `bench/speed` says how it is run.

mod cases;
mod clock;
mod faster;
mod plain;
mod report;
mod same;
mod side;

use cases::{cases, Case};
use side::{measured, Call, CALLS, SIDES};
use std::process::ExitCode;

/// Prints what is to be counted: the number of a case, a call and a side in each line.
fn list(cases: &[Case]) {
    for (i, case) in cases.iter().enumerate() {
        for call in CALLS.into_iter().filter(|call| case.has(*call)) {
            for side in SIDES.iter().filter(|side| side.has(call)) {
                println!("{i} {} {}", call.name(), side.name);
            }
        }
    }
}

/// Makes the calls of one such line, to be counted.
fn make(cases: &[Case], words: &[String]) -> Option<()> {
    let case = cases.get(words.first()?.parse::<usize>().ok()?)?;
    let call: Call = CALLS
        .into_iter()
        .find(|call| Some(call.name()) == words.get(1).map(String::as_str))?;
    let side = SIDES
        .iter()
        .find(|side| Some(side.name) == words.get(2).map(String::as_str))?;
    std::hint::black_box(measured(side, call, case, &mut call.before(case)));
    Some(())
}

/// The two sides compared, then measured; the counted instructions are read from a file.
fn report(cases: &[Case], words: &[String]) -> Result<(), String> {
    let path = words.first().ok_or("report needs the file of counts")?;
    let counts = std::fs::read_to_string(path).map_err(|error| format!("{path}: {error}"))?;
    report::print(cases, &counts)
}

fn main() -> ExitCode {
    let words: Vec<String> = std::env::args().skip(1).collect();
    let cases = cases();
    let done = match words.first().map(String::as_str) {
        Some("same") => cases.iter().try_for_each(same::same),
        Some("list") => {
            list(&cases);
            Ok(())
        }
        Some("make") => make(&cases, &words[1..]).ok_or("make CASE CALL SIDE, as list prints them".to_string()),
        Some("report") => report(&cases, &words[1..]),
        _ => Err("same | list | make CASE CALL SIDE | report COUNTS".to_string()),
    };
    match done {
        Ok(()) => ExitCode::SUCCESS,
        Err(what) => {
            eprintln!("{what}");
            ExitCode::FAILURE
        }
    }
}
