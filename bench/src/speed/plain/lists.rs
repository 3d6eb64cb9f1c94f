//! The checks of a rule list and of a signal list.

use super::bytes::{byte, four};
use super::rule::{byte_of, parameters_in, record_at, Record};
use super::state::Watcher;

/// For each kind, which of the eight bytes are used: kind, left, right, zero, low, high, zero, zero.
const USED: [[bool; 8]; 10] = [
    [false, false, false, false, false, false, false, false],
    [true, false, false, false, false, false, false, false],
    [true, false, false, false, false, false, false, false],
    [true, true, false, false, false, false, false, false],
    [true, true, true, false, false, false, false, false],
    [true, true, true, false, false, false, false, false],
    [true, true, false, false, true, true, false, false],
    [true, true, true, false, true, true, false, false],
    [true, true, false, false, true, true, false, false],
    [true, true, true, false, true, true, false, false],
];

/// How many records a list has.
pub fn records_of(list: &[u8]) -> usize {
    list.len() / Watcher::RECORD_BYTES
}

/// Whether the length is not that of 1 to 16 whole records.
pub fn wrong_length(list: &[u8]) -> bool {
    list.len() % Watcher::RECORD_BYTES != 0 || list.is_empty() || Watcher::LIST_BYTES < list.len()
}

/// Whether a byte of record `k` names a signal, or else an earlier record.
fn names_right(kind: u8, named: u8, k: usize) -> bool {
    (named as usize) < if kind == 3 { Watcher::SIGNALS } else { k }
}

/// Whether byte `i` of record `k` is what its kind wants there.
fn used_right(record: Record, k: usize, i: usize) -> bool {
    match i {
        0 => (1..=9).contains(&record.kind),
        1 => names_right(record.kind, record.left, k),
        2 => names_right(record.kind, record.right, k),
        _ => record.low <= if record.high == 255 { 254 } else { record.high },
    }
}

/// Whether byte `i` of record `k`, which was read, breaks the layout.
fn byte_breaks(list: &[u8], record: Record, k: usize, i: usize) -> bool {
    let uses = USED.get(record.kind as usize).is_some_and(|used| used[i]);
    if i == 0 || uses {
        !used_right(record, k, i)
    } else {
        byte_of(list, k, i) != 0
    }
}

/// Where a search of a list first finds something: a record, and its byte or an earlier record.
type Place = Option<(usize, usize)>;

/// Where the layout is first broken: the lowest record, and its lowest byte.
pub fn first_broken(list: &[u8]) -> Place {
    (0..records_of(list)).find_map(|k| {
        let record = record_at(list, k);
        (0..8).find(|i| byte_breaks(list, record, k, *i)).map(|i| (k, i))
    })
}

fn same_record(list: &[u8], i: usize, j: usize) -> bool {
    (0..8).all(|b| byte_of(list, i, b) == byte_of(list, j, b))
}

/// Where the first twins are: the lowest record that has an earlier twin, and its earliest twin.
pub fn first_twins(list: &[u8]) -> Place {
    (0..records_of(list)).find_map(|i| (0..i).find(|j| same_record(list, i, *j)).map(|j| (i, j)))
}

/// Whether the rule has more parameters than it may.
pub fn many_parameters(list: &[u8]) -> bool {
    Watcher::PARAMETERS < parameters_in(list, records_of(list))
}

/// Whether some record of the signal list breaks the layout.
pub fn bad_signals(list: &[u8]) -> bool {
    (0..records_of(list)).any(|k| {
        let at = 8 * k;
        !(1..=5).contains(&byte(list, at)) || 1 < byte(list, at + 1) || four(list, at + 4) != 0
    })
}

/// Whether some record of the rule names a signal that a list of so many does not define.
pub fn names_missing(rule: &[u8], signals: usize) -> bool {
    (0..records_of(rule)).any(|k| {
        let record = record_at(rule, k);
        record.kind == 3 && signals <= record.left as usize
    })
}
