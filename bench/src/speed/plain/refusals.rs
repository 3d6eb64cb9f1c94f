//! Which refusal, if any, in document 01's order, by its number.

use super::lists::{bad_signals, first_broken, first_twins, many_parameters};
use super::lists::{names_missing, records_of, wrong_length};
use super::readings::{time_of, wrong_record};
use super::shape::broken_state;
use super::state::{Phase, Watcher};

/// What is refused of the lists that start is given: refusals 1 to 6.
pub fn lists_refusal(rule: &[u8], signals: &[u8]) -> Option<u8> {
    if wrong_length(rule) {
        return Some(1);
    }
    if first_broken(rule).is_some() {
        return Some(2);
    }
    if first_twins(rule).is_some() {
        return Some(3);
    }
    if many_parameters(rule) {
        return Some(4);
    }
    if wrong_length(signals) || bad_signals(signals) {
        return Some(5);
    }
    if names_missing(rule, records_of(signals)) {
        return Some(6);
    }
    None
}

/// What is refused of a start: refusals 1 to 7.
pub fn start_refusal(rule: &[u8], signals: &[u8], area: &[u64]) -> Option<u8> {
    lists_refusal(rule, signals).or((area.len() != Watcher::WORDS).then_some(7))
}

/// What feed, ask and close test first: refusals 7, 12 and 10.
fn state_refusal(watcher: &Watcher, area: &[u64]) -> Option<u8> {
    if area.len() != Watcher::WORDS {
        return Some(7);
    }
    if broken_state(watcher, area) {
        return Some(12);
    }
    matches!(watcher.phase, Phase::Closed(_)).then_some(10)
}

/// Would this record be refused: refusals 7, 12, 10, 8 and 9.
pub fn feed_refusal(watcher: &Watcher, record: &[u8], area: &[u64]) -> Option<u8> {
    if let Some(number) = state_refusal(watcher, area) {
        return Some(number);
    }
    if wrong_record(record) {
        return Some(8);
    }
    match watcher.phase {
        Phase::Running(last) if time_of(record) < last.time => Some(9),
        _ => None,
    }
}

/// What is refused of asking and of closing: refusals 7, 12, 10 and 11.
pub fn close_refusal(watcher: &Watcher, area: &[u64]) -> Option<u8> {
    if let Some(number) = state_refusal(watcher, area) {
        return Some(number);
    }
    matches!(watcher.phase, Phase::Fresh).then_some(11)
}
