//! The watcher's state, its limits, and its 280 lent bytes.

use super::bytes::{byte, four, two};
use super::rule::Moment;

/// What the watcher has seen: nothing yet, a last record, or the end with its verdict.
#[derive(Clone, Copy)]
pub enum Phase {
    Fresh,
    Running(Moment),
    Closed(bool),
}

/// The rule's bytes and its records, the signals' bytes and their count, zeros behind each, and the phase.
#[derive(Clone, Copy)]
pub struct Watcher {
    pub rule: [u8; Watcher::LIST_BYTES],
    pub records: usize,
    pub list: [u8; Watcher::LIST_BYTES],
    pub signals: usize,
    pub phase: Phase,
}

impl Watcher {
    pub const RECORDS: usize = 16;
    pub const SIGNALS: usize = 16;
    pub const PARAMETERS: usize = 12;
    pub const RECORD_BYTES: usize = 8;
    pub const LIST_BYTES: usize = 128;
    pub const LOG_BYTES: usize = 16;
    pub const WORDS: usize = 1664;
    pub const TABLE_WORDS: usize = 1024;
    pub const STATE_BYTES: usize = 280;

    /// A fresh state of zeros.
    pub fn zero() -> Watcher {
        Watcher {
            rule: [0; 128],
            records: 0,
            list: [0; 128],
            signals: 0,
            phase: Phase::Fresh,
        }
    }

    /// The state that the bytes hold.
    pub fn read(bytes: &[u8]) -> Watcher {
        let phase = match byte(bytes, 278) {
            0 => Phase::Fresh,
            1 => Phase::Running(Moment {
                time: four(bytes, 272),
                signals: two(bytes, 276) as u16,
            }),
            2 => Phase::Closed(true),
            3 => Phase::Closed(false),
            _ => return Watcher::zero(),
        };
        let count = |at: usize| u64::from_le_bytes(bytes[at..at + 8].try_into().expect("8 bytes")) as usize;
        Watcher {
            rule: bytes[..128].try_into().expect("128 bytes"),
            records: count(256),
            list: bytes[128..256].try_into().expect("128 bytes"),
            signals: count(264),
            phase,
        }
    }

    /// Writes the state to its bytes.
    pub fn write(&self, bytes: &mut [u8]) {
        bytes[..128].copy_from_slice(&self.rule);
        bytes[128..256].copy_from_slice(&self.list);
        bytes[256..264].copy_from_slice(&(self.records as u64).to_le_bytes());
        bytes[264..272].copy_from_slice(&(self.signals as u64).to_le_bytes());
        let (phase, last) = match self.phase {
            Phase::Fresh => (0, Moment { time: 0, signals: 0 }),
            Phase::Running(last) => (1, last),
            Phase::Closed(kept) => (if kept { 2 } else { 3 }, Moment { time: 0, signals: 0 }),
        };
        bytes[272..276].copy_from_slice(&last.time.to_le_bytes());
        bytes[276..278].copy_from_slice(&last.signals.to_le_bytes());
        bytes[278] = phase;
        bytes[279] = 0;
    }
}
