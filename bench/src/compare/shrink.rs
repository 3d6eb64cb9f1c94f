//! A smaller case that still differs, found by leaving out one thing after the other.

use crate::case::{Call, Case};
use crate::check::check;
use crate::counts::Counts;
use crate::lists::*;

type Change = Box<dyn Fn(&mut Case)>;

/// A case from which nothing more can be left out, and how it differs; none for a case that does not.
pub fn smallest(case: &Case) -> Option<(Case, String)> {
    let differs = |case: &Case| check(case, &mut Counts::new()).err();
    let mut found = (case.clone(), differs(case)?);
    loop {
        let before = found.0.clone();
        for change in changes(&before) {
            let mut smaller = found.0.clone();
            change(&mut smaller);
            if smaller != found.0 {
                found = differs(&smaller).map_or(found, |difference| (smaller, difference));
            }
        }
        if found.0 == before {
            return Some(found);
        }
    }
}

/// What may be left out, the last things first; a change that finds nothing to leave out does nothing.
fn changes(case: &Case) -> Vec<Change> {
    let mut changes: Vec<Change> = Vec::new();
    for place in (0..case.calls.len()).rev() {
        changes.push(Box::new(move |case| {
            drop(case.calls.remove(place.min(case.calls.len() - 1)))
        }));
    }
    for place in (0..case.rule.len() / LIST_RECORD).rev() {
        changes.push(Box::new(move |case| drop_rule_record(&mut case.rule, place)));
    }
    for place in (0..case.signals.len() / LIST_RECORD).rev() {
        changes.push(Box::new(move |case| case.signals.truncate(LIST_RECORD * place)));
    }
    changes.push(Box::new(|case| case.extra_codes = 0));
    for length in [case.area.len(), 832, 64, 8, 1] {
        for from in (0..case.area.len()).step_by(length.max(1)) {
            changes.push(Box::new(move |case| quiet(&mut case.area, from, length)));
        }
    }
    for length in [case.state.len(), 8, 1] {
        for from in (0..case.state.len()).step_by(length.max(1)) {
            changes.push(Box::new(move |case| quiet(&mut case.state, from, length)));
        }
    }
    for place in 0..case.calls.len() {
        for from in 0..LOG_RECORD {
            changes.push(Box::new(move |case| {
                if let Some(Call::Feed(record)) = case.calls.get_mut(place) {
                    quiet(record, from, 1);
                }
            }));
        }
    }
    changes
}

/// Zeros in a part of a list, as far as the list goes.
fn quiet<T: Default + Clone>(list: &mut [T], from: usize, length: usize) {
    let end = list.len().min(from + length);
    if from < end {
        list[from..end].fill(T::default());
    }
}

/// The rule without a record; those behind it move up, and so do the places that name them.
fn drop_rule_record(rule: &mut Vec<u8>, place: usize) {
    if LIST_RECORD * (place + 1) > rule.len() {
        return;
    }
    rule.drain(LIST_RECORD * place..LIST_RECORD * (place + 1));
    for record in rule
        .chunks_exact_mut(LIST_RECORD)
        .skip(place)
        .filter(|record| record[0] > SIGNAL)
    {
        for byte in &mut record[1..3] {
            *byte -= (*byte as usize > place) as u8;
        }
    }
}
