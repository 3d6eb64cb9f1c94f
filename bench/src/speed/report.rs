//! The tables, to be copied into docs/PERFORMANCE.md.

use crate::cases::Case;
use crate::clock::best;
use crate::side::{Call, SIDES};

/// What a call costs on each side.
struct Cost {
    instructions: [u64; 3],
    time: [f64; 3],
}

/// The counted instructions of a call: lines of case, call, side and count.
fn counted(counts: &str, number: usize, call: Call, side: &str) -> Result<u64, String> {
    let wanted = format!("{number} {} {side} ", call.name());
    let line = counts.lines().find_map(|line| line.strip_prefix(&wanted));
    let count = line.and_then(|count| count.parse().ok());
    count.ok_or(format!("no instructions are counted for {wanted}"))
}

fn cost(number: usize, case: &Case, counts: &str, call: Call) -> Result<Cost, String> {
    let mut instructions = [0; 3];
    for (side, count) in SIDES.iter().zip(&mut instructions) {
        if side.has(call) {
            *count = counted(counts, number, call, side.name)? / call.times(case) as u64;
        }
    }
    Ok(Cost {
        instructions,
        time: best(call, case),
    })
}

/// A number with a comma before each three digits.
fn commas(n: u64) -> String {
    let digits = n.to_string();
    let mut text = String::new();
    for (i, digit) in digits.chars().enumerate() {
        if i > 0 && (digits.len() - i) % 3 == 0 {
            text.push(',');
        }
        text.push(digit);
    }
    text
}

/// A table of two sides by their places among all, with the ratio of the first to the second.
fn table(title: &str, heads: [&str; 2], costs: &[(&Case, Cost)], a: usize, b: usize) {
    let [one, other] = heads;
    println!("{title}\n");
    println!("| Parameters | Rule | Instructions, {one} | {other} | Ratio | µs, {one} | {other} | Ratio |");
    println!("|---|---|---|---|---|---|---|---|");
    for (case, cost) in costs {
        println!(
            "| {} | {} | {} | {} | {:.2} | {:.1} | {:.1} | {:.2} |",
            case.parameters,
            case.label,
            commas(cost.instructions[a]),
            commas(cost.instructions[b]),
            cost.instructions[a] as f64 / cost.instructions[b] as f64,
            cost.time[a],
            cost.time[b],
            cost.time[a] / cost.time[b]
        );
    }
    println!();
}

/// Every table.
pub fn print(cases: &[Case], counts: &str) -> Result<(), String> {
    let costs = |call: Call| -> Result<Vec<(&Case, Cost)>, String> {
        let those = cases.iter().enumerate().filter(|(_, case)| case.has(call));
        those
            .map(|(i, case)| Ok((case, cost(i, case, counts, call)?)))
            .collect()
    };
    let sides = ["proved", "Rust"];
    let feeds = costs(Call::Feed)?;
    table("One feed", sides, &feeds, 0, 1);
    table("One start", sides, &costs(Call::Start)?, 0, 1);
    table("One ask", sides, &costs(Call::Ask)?, 0, 1);
    table("One close", sides, &costs(Call::Close)?, 0, 1);
    table(
        "A whole log of 51 records: start, feeds and close",
        sides,
        &costs(Call::Run)?,
        0,
        1,
    );
    table(
        "What faster steps gain: one feed",
        ["Rust", "faster Rust"],
        &feeds,
        1,
        2,
    );
    Ok(())
}
