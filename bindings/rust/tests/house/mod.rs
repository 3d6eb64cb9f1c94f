//! The rules and records of document 01's examples.

use hunchcold::{Refusal, Verdict, Watcher};

/// Rule A: signal 0 until signal 1, within 0 to 2 minutes.
pub const RULE_A: [u8; 24] = [3, 0, 0, 0, 0, 0, 0, 0, 3, 1, 0, 0, 0, 0, 0, 0, 7, 0, 1, 0, 0, 2, 0, 0];

/// Signal 0: lee vent at least 1. Signal 1: windward vent at least 1.
pub const SIGNALS: [u8; 16] = [3, 0, 1, 0, 0, 0, 0, 0, 4, 0, 1, 0, 0, 0, 0, 0];

/// A record of the log: its time, and whether signals 0 and 1 hold.
pub fn record(time: u32, first: u8, second: u8) -> [u8; 16] {
    let mut bytes = [0; 16];
    bytes[..4].copy_from_slice(&time.to_le_bytes());
    bytes[8] = first;
    bytes[9] = second;
    bytes
}

/// What asking a watcher answers: what closing a copy of it does, with nothing changed.
pub fn asked(watcher: &Watcher) -> Result<Verdict, Refusal> {
    let mut copy = watcher.clone();
    let answer = watcher.ask();
    assert_eq!(*watcher, copy);
    assert_eq!(copy.close(), answer);
    answer
}

/// A watcher of rule A, just started.
pub fn watcher_a() -> Watcher {
    Watcher::start(&RULE_A, &SIGNALS).expect("rule A is accepted")
}
