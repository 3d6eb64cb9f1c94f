//! What a rule means, by document 01's definitions over the positions of a log, and its horizon.

use crate::lists::*;

/// The rule's value at the first record of a log that is not empty.
pub fn value(rule: &[RuleRecord], log: &[Moment]) -> bool {
    let mut values: Vec<Vec<bool>> = Vec::new();
    for record in rule {
        let here = (0..log.len()).map(|at| holds_at(record, &values, log, at)).collect();
        values.push(here);
    }
    values[rule.len() - 1][0]
}

/// Whether a rule record holds at a position; `values` are those of the earlier rule records.
fn holds_at(record: &RuleRecord, values: &[Vec<bool>], log: &[Moment], at: usize) -> bool {
    let left = |place: usize| values[record.left][place];
    let right = |place: usize| values[record.right][place];
    let within = |from: usize, to: usize| in_interval(record, log[to].time - log[from].time);
    match record.kind {
        TRUE => true,
        FALSE => false,
        SIGNAL => log[at].signals >> record.left & 1 == 1,
        AND => left(at) && right(at),
        XOR => left(at) != right(at),
        NEXT => at + 1 < log.len() && within(at, at + 1) && left(at + 1),
        UNTIL => (at..log.len()).any(|j| right(j) && within(at, j) && (at..j).all(left)),
        PREVIOUS => at > 0 && within(at - 1, at) && left(at - 1),
        _ => (0..=at).any(|j| right(j) && within(j, at) && (j + 1..=at).all(left)),
    }
}

fn in_interval(record: &RuleRecord, distance: u64) -> bool {
    record.low <= distance && record.high.is_none_or(|high| distance <= high)
}

/// The rule's horizon, if it has one.
pub fn horizon(rule: &[RuleRecord]) -> Option<u64> {
    let mut horizons: Vec<Option<u64>> = Vec::new();
    for record in rule {
        let here = horizon_of(record, &horizons);
        horizons.push(here);
    }
    horizons[rule.len() - 1]
}

/// The horizon of a record, given those of the earlier ones.
fn horizon_of(record: &RuleRecord, horizons: &[Option<u64>]) -> Option<u64> {
    let larger = || Some(horizons[record.left]?.max(horizons[record.right]?));
    match record.kind {
        TRUE | FALSE | SIGNAL => Some(0),
        AND | XOR | SINCE => larger(),
        PREVIOUS => horizons[record.left],
        NEXT => Some(record.high? + horizons[record.left]?),
        _ => Some(record.high? + larger()?),
    }
}
