//! Check 12: what a state's lists hold, and the rows that it must have.

use super::bytes::zeros_from;
use super::refusals::lists_refusal;
use super::rows::{constant, fits, names, parameter, row_at, Row};
use super::rule::{count_of, parameters_in, record_at, signal, Moment, Record};
use super::state::{Phase, Watcher};

/// A record of the rule, its first parameter, how many it has, and the parameters that its rows may name, as bits.
struct Here {
    record: Record,
    first: usize,
    count: usize,
    allowed: usize,
}

/// Whether the state holds a rule or list that start would refuse.
fn start_refuses(watcher: &Watcher) -> bool {
    if Watcher::RECORDS < watcher.records || Watcher::SIGNALS < watcher.signals {
        return true;
    }
    lists_refusal(
        &watcher.rule[..8 * watcher.records],
        &watcher.list[..8 * watcher.signals],
    )
    .is_some()
}

/// Whether a byte behind one of its lists is not zero.
fn not_zeros_behind(watcher: &Watcher) -> bool {
    !zeros_from(&watcher.rule, 8 * watcher.records) || !zeros_from(&watcher.list, 8 * watcher.signals)
}

/// Whether a running signal word has bits above a list of so many.
fn signals_above(signals: usize, phase: Phase) -> bool {
    match phase {
        Phase::Running(last) => (1 << signals) <= last.signals as usize,
        _ => false,
    }
}

/// Whether a past row or the remainder has a bit at or above 2^m.
fn bits_above(m: usize, area: &[u64]) -> bool {
    (0..Watcher::PARAMETERS + 1).any(|j| !fits(row_at(area, j), m))
}

/// Whether a past row from some place on is not zero.
fn not_zero_from(from: usize, area: &[u64]) -> bool {
    (from..Watcher::PARAMETERS).any(|j| row_at(area, j).iter().any(|w| *w != 0))
}

/// Whether the row is wrong for shift n of the record.
fn row_wrong(here: &Here, n: usize, m: usize, last: Moment, row: &Row) -> bool {
    match here.record.kind {
        3 => *row != constant(signal(last.signals, here.record.left)),
        0..=5 => false,
        6 | 7 => *row != parameter(here.first + n, m),
        _ => names(row) | here.allowed != here.allowed,
    }
}

/// The parameters that rows of the next record may name: also this record's, if it looks forward.
fn widen(here: &Here) -> usize {
    match here.record.kind {
        6 | 7 => here.allowed | (((1 << here.count) - 1) << here.first),
        _ => here.allowed,
    }
}

/// Whether one of the rows that a running state must have is wrong.
fn wrong_rows(watcher: &Watcher, m: usize, last: Moment, area: &[u64]) -> bool {
    let mut first = 0;
    let mut allowed = 0;
    for k in 0..watcher.records {
        let record = record_at(&watcher.rule, k);
        let here = Here {
            record,
            first,
            count: count_of(record),
            allowed,
        };
        if (0..here.count).any(|n| row_wrong(&here, n, m, last, row_at(area, first + n))) {
            return true;
        }
        allowed = widen(&here);
        first += here.count;
    }
    false
}

/// Whether the state that is handed in is broken: refusal 12.
pub fn broken_state(watcher: &Watcher, area: &[u64]) -> bool {
    if start_refuses(watcher) || not_zeros_behind(watcher) || signals_above(watcher.signals, watcher.phase) {
        return true;
    }
    let m = parameters_in(&watcher.rule, watcher.records);
    if bits_above(m, area) || not_zero_from(m, area) {
        return true;
    }
    match watcher.phase {
        Phase::Fresh => not_zero_from(0, area),
        Phase::Running(last) => wrong_rows(watcher, m, last, area),
        Phase::Closed(_) => false,
    }
}
