//! Compares the proved watcher with an evaluator of the meaning and a plain rewriting: compare [COUNT] [SEED] [FIRST].

mod broken;
mod case;
mod chance;
mod check;
mod claims;
mod codes;
mod counts;
mod ends;
mod faults;
mod form;
mod handed;
mod layout;
mod lists;
mod meaning;
mod plain;
mod readings;
mod rewriting;
mod rules;
mod shrink;
mod signals;
mod state;

use counts::Counts;
use std::process::exit;

const USUAL_COUNT: u64 = 300_000;
const USUAL_SEED: u64 = 1;
/// From so many cases on, no count may be zero.
const ENOUGH: u64 = 20_000;

fn main() {
    let [count, seed, first] = arguments();
    println!("{count} cases of seed {seed}, from case {first} on");
    let mut counts = Counts::new();
    let mut differences = cases(count, seed, first, &mut counts);
    counts.print();
    if differences == 0 {
        differences += layout_differs() as u64;
    }
    let zeros = counts.zeros();
    if count >= ENOUGH {
        println!("Counts that are zero, where none may be: {}", zeros.len());
        zeros.iter().for_each(|name| println!("  {name}"));
    } else {
        println!(
            "Counts may be zero, since there are fewer than {ENOUGH} cases: {} are",
            zeros.len()
        );
    }
    println!("{count} cases, {differences} differences");
    if differences > 0 || count >= ENOUGH && !zeros.is_empty() {
        exit(1);
    }
}

/// Checks the cases, shows the first that differs, and says how many do.
fn cases(count: u64, seed: u64, first: u64, counts: &mut Counts) -> u64 {
    let mut differences = 0;
    for number in first..first.saturating_add(count) {
        let case = case::by_chance(seed, number);
        if let Err(difference) = check::check(&case, counts) {
            differences += 1;
            if differences == 1 {
                show(&case, seed, number, &difference);
            }
        }
    }
    differences
}

fn arguments() -> [u64; 3] {
    let mut numbers = [USUAL_COUNT, USUAL_SEED, 0];
    let given: Vec<String> = std::env::args().skip(1).collect();
    for (place, word) in given.iter().enumerate() {
        match (numbers.get_mut(place), word.parse()) {
            (Some(number), Ok(value)) => *number = value,
            _ => {
                eprintln!("compare [COUNT] [SEED] [FIRST]: at most three numbers");
                exit(2);
            }
        }
    }
    numbers
}

/// Goes through the layout, and shows the first difference.
fn layout_differs() -> bool {
    let found = layout::layout();
    println!(
        "Layout, byte by byte: {} rules, {} lists, {} log records, {} readings, {} tests of a signal",
        found.rules, found.lists, found.records, found.readings, found.tests
    );
    if let Some(difference) = &found.difference {
        println!("DIFFERENCE in the layout: {difference}");
    }
    found.difference.is_some()
}

/// The first difference, and the smallest case below it that still differs.
fn show(case: &case::Case, seed: u64, number: u64, difference: &str) {
    println!("DIFFERENCE in case {number} of seed {seed} (again: bench/compare 1 {seed} {number})");
    println!("  {difference}");
    match shrink::smallest(case) {
        Some((small, difference)) => print!("Smallest case that differs: {difference}\n{small}"),
        None => print!("It did not differ a second time.\n{case}"),
    }
}
