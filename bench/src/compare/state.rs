//! The 280 bytes of a state, and the rows of a work area.

use crate::form::Form;
use crate::lists::*;
use crate::rewriting::Known;

pub const STATE_BYTES: usize = 280;
pub const AREA_WORDS: usize = 1664;
pub const ROW_WORDS: usize = 64;
pub const REMAINDER: usize = ROW_WORDS * MOST_PARAMETERS;
pub const SCRATCH: usize = REMAINDER + ROW_WORDS;

pub const LIST_BYTES: usize = LIST_RECORD * MOST_RECORDS;
pub const SIGNAL_LIST: usize = LIST_BYTES;
pub const RULE_COUNT: usize = 2 * LIST_BYTES;
pub const SIGNAL_COUNT: usize = RULE_COUNT + 8;
pub const TIME: usize = SIGNAL_COUNT + 8;
pub const SIGNALS: usize = TIME + 4;
pub const PHASE: usize = SIGNALS + 2;
pub const LAST_BYTE: usize = PHASE + 1;

#[derive(Clone, Copy)]
pub enum Phase {
    Fresh,
    Running(Moment),
    Closed(bool),
}

/// What the bytes say: both lists with what stands behind them, their numbers of records, and the phase.
pub struct State {
    pub rule: Vec<u8>,
    pub rule_records: u64,
    pub signals: Vec<u8>,
    pub signal_records: u64,
    pub phase: Phase,
}

fn number(bytes: &[u8]) -> u64 {
    bytes.iter().rev().fold(0, |sum, byte| 256 * sum + *byte as u64)
}

/// A list with zeros behind it.
fn padded(list: &[u8]) -> Vec<u8> {
    let mut bytes = list.to_vec();
    bytes.resize(LIST_BYTES, 0);
    bytes
}

impl State {
    pub fn fresh(rule: &[u8], signals: &[u8]) -> State {
        State {
            rule: padded(rule),
            rule_records: (rule.len() / LIST_RECORD) as u64,
            signals: padded(signals),
            signal_records: (signals.len() / LIST_RECORD) as u64,
            phase: Phase::Fresh,
        }
    }

    /// The state of 280 bytes; a phase that is none reads as a fresh state of zeros.
    pub fn read(bytes: &[u8]) -> State {
        let last = Moment {
            time: number(&bytes[TIME..SIGNALS]),
            signals: number(&bytes[SIGNALS..PHASE]) as u16,
        };
        let phase = match bytes[PHASE] {
            0 => Phase::Fresh,
            1 => Phase::Running(last),
            2 => Phase::Closed(true),
            3 => Phase::Closed(false),
            _ => return State::fresh(&[], &[]),
        };
        State {
            rule: bytes[..SIGNAL_LIST].to_vec(),
            rule_records: number(&bytes[RULE_COUNT..SIGNAL_COUNT]),
            signals: bytes[SIGNAL_LIST..RULE_COUNT].to_vec(),
            signal_records: number(&bytes[SIGNAL_COUNT..TIME]),
            phase,
        }
    }

    pub fn write(&self, bytes: &mut [u8]) {
        bytes.fill(0);
        bytes[..SIGNAL_LIST].copy_from_slice(&self.rule);
        bytes[SIGNAL_LIST..RULE_COUNT].copy_from_slice(&self.signals);
        bytes[RULE_COUNT..SIGNAL_COUNT].copy_from_slice(&self.rule_records.to_le_bytes());
        bytes[SIGNAL_COUNT..TIME].copy_from_slice(&self.signal_records.to_le_bytes());
        bytes[PHASE] = match self.phase {
            Phase::Fresh => 0,
            Phase::Running(_) => 1,
            Phase::Closed(true) => 2,
            Phase::Closed(false) => 3,
        };
        if let Phase::Running(last) = self.phase {
            bytes[TIME..SIGNALS].copy_from_slice(&(last.time as u32).to_le_bytes());
            bytes[SIGNALS..PHASE].copy_from_slice(&last.signals.to_le_bytes());
        }
    }

    /// The rule's bytes without what stands behind; none where there are more records than room.
    pub fn rule_bytes(&self) -> Option<&[u8]> {
        self.rule
            .get(..LIST_RECORD.checked_mul(usize::try_from(self.rule_records).ok()?)?)
    }

    pub fn signal_bytes(&self) -> Option<&[u8]> {
        self.signals
            .get(..LIST_RECORD.checked_mul(usize::try_from(self.signal_records).ok()?)?)
    }
}

/// The row at a place of the area; the remainder's place is 12.
pub fn row(area: &[u64], place: usize) -> &[u64] {
    &area[ROW_WORDS * place..ROW_WORDS * (place + 1)]
}

/// The rows of an area as forms.
pub fn read_area(parameters: usize, area: &[u64]) -> Known {
    let form = |place| Form::from_row(parameters, row(area, place));
    Known {
        past: (0..parameters).map(form).collect(),
        remainder: form(MOST_PARAMETERS),
    }
}

/// The whole area: past rows, the remainder, zeros in unused rows and scratch.
pub fn write_area(area: &mut [u64], past: &[Form], remainder: &Form) {
    area.fill(0);
    for (place, form) in past.iter().enumerate() {
        area[ROW_WORDS * place..][..form.words().len()].copy_from_slice(form.words());
    }
    area[REMAINDER..][..remainder.words().len()].copy_from_slice(remainder.words());
}
