//! How a log that began with an accepted start would end now, by the meaning alone.

use crate::codes::*;
use crate::lists::*;
use crate::meaning::value;
use crate::readings::moment_of;

/// The refusal of a record by its layout and its time, or 0.
pub fn record_refusal(record: &[u8], log: &[Moment]) -> u8 {
    if wrong_log_record(record) {
        8
    } else if log.last().is_some_and(|last| time_of(record) < last.time) {
        9
    } else {
        0
    }
}

/// What closing answers after these accepted records: their value, or 11 with none.
pub fn ending(rule: &[RuleRecord], log: &[Moment]) -> u8 {
    match log.is_empty() {
        true => 11,
        false if value(rule, log) => KEPT,
        false => BROKEN,
    }
}

/// A started log so far: its rule and signal list, the records accepted, and whether it is closed.
pub struct SoFar {
    rule: Vec<RuleRecord>,
    signals: Vec<u8>,
    log: Vec<Moment>,
    closed: bool,
}

impl SoFar {
    pub fn new(rule: &[u8], signals: &[u8]) -> SoFar {
        SoFar {
            rule: rule_of(rule),
            signals: signals.to_vec(),
            log: Vec::new(),
            closed: false,
        }
    }

    /// Takes a record in, unless it is refused.
    pub fn feed(&mut self, record: &[u8]) {
        if !self.closed && record_refusal(record, &self.log) == 0 {
            self.log.push(moment_of(&self.signals, record));
        }
    }

    /// Closes the log, unless that is refused.
    pub fn close(&mut self) {
        self.closed |= !self.log.is_empty();
    }

    /// What asking answers now.
    pub fn ask(&self) -> u8 {
        if self.closed {
            return 10;
        }
        ending(&self.rule, &self.log)
    }
}
