//! Refusal 12 as document 01's table has it, with the reason, so that each reason can be counted.

use crate::lists::{self, *};
use crate::state::*;

/// The reasons for 12, in the order of the table.
pub const REASONS: [&str; 9] = [
    "rule or list that start refuses",
    "not zeros behind one",
    "signal word above the list",
    "bit at or above 2^m",
    "unused row not zero",
    "fresh with a past row",
    "signal's row",
    "next's or until's row",
    "previous's or since's row",
];

/// Which reason there is for 12, if any.
pub fn reason(state: &State, area: &[u64]) -> Option<usize> {
    let (Some(rule), Some(signals)) = (state.rule_bytes(), state.signal_bytes()) else {
        return Some(0);
    };
    if lists::refusal(rule, signals) != 0 {
        return Some(0);
    }
    let behind = state.rule[rule.len()..].iter().chain(&state.signals[signals.len()..]);
    if behind.into_iter().any(|byte| *byte != 0) {
        return Some(1);
    }
    if matches!(state.phase, Phase::Running(last) if last.signals as u32 >> state.signal_records != 0) {
        return Some(2);
    }
    let rule = rule_of(rule);
    let used: usize = rule.iter().map(RuleRecord::parameters).sum();
    if (0..used)
        .chain([MOST_PARAMETERS])
        .any(|place| terms(row(area, place)).any(|term| term >> used != 0))
    {
        return Some(3);
    }
    if (used..MOST_PARAMETERS).any(|place| !empty(row(area, place))) {
        return Some(4);
    }
    match state.phase {
        Phase::Fresh => (0..used).any(|place| !empty(row(area, place))).then_some(5),
        Phase::Running(last) => wrong_rows(&rule, last.signals, area),
        Phase::Closed(_) => None,
    }
}

fn empty(row: &[u64]) -> bool {
    row.iter().all(|word| *word == 0)
}

/// The terms of a row, each with its parameters as one-bits; it reads bits one by one.
fn terms(row: &[u64]) -> impl Iterator<Item = usize> + '_ {
    let words = row.iter().enumerate().filter(|(_, word)| **word != 0);
    words.flat_map(|(place, word)| {
        (0..64)
            .filter(move |bit| word >> bit & 1 == 1)
            .map(move |bit| 64 * place + bit)
    })
}

/// Whether a row has these terms and no others.
fn is_exactly(row: &[u64], wanted: &[usize]) -> bool {
    terms(row).eq(wanted.iter().copied())
}

/// The first row of a running state that is not what it must be.
fn wrong_rows(rule: &[RuleRecord], signals: u16, area: &[u64]) -> Option<usize> {
    let (mut place, mut forward) = (0, 0);
    for record in rule {
        let mut own = 0;
        for _ in 0..record.parameters() {
            let row = row(area, place);
            let holds = signals >> record.left.min(15) & 1 == 1;
            match record.kind {
                SIGNAL if !is_exactly(row, if holds { &[0] } else { &[] }) => return Some(6),
                NEXT | UNTIL if !is_exactly(row, &[1 << place]) => return Some(7),
                PREVIOUS | SINCE if terms(row).any(|term| term & !forward != 0) => return Some(8),
                _ => {}
            }
            own |= 1 << place;
            place += 1;
        }
        if matches!(record.kind, NEXT | UNTIL) {
            forward |= own;
        }
    }
    None
}
