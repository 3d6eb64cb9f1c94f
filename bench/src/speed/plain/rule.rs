//! The records of a rule list, and what one row is made from.

use super::bytes::byte;
use super::rows::{row_at, Row, NO_TERMS};

/// A record of a rule, from its bytes.
#[derive(Clone, Copy)]
pub struct Record {
    pub kind: u8,
    pub left: u8,
    pub right: u8,
    pub low: u8,
    pub high: u8,
}

/// A record of the log as the rule sees it.
#[derive(Clone, Copy)]
pub struct Moment {
    pub time: u32,
    pub signals: u16,
}

/// A record with its first parameter and a shift, of m parameters, at a record of the log with its neighbour's time.
#[derive(Clone, Copy)]
pub struct Step {
    pub record: Record,
    pub first: usize,
    pub shift: usize,
    pub m: usize,
    pub here: Moment,
    pub neighbour: Option<u32>,
}

/// How many records the rule has, how many parameters m, and how many places the area has for past rows.
#[derive(Clone, Copy)]
pub struct Plan {
    pub records: usize,
    pub m: usize,
    pub places: usize,
}

/// Byte `i` of record `k`.
pub fn byte_of(list: &[u8], k: usize, i: usize) -> u8 {
    byte(list, 8 * k + i)
}

/// How many parameters a record has.
pub fn count_of(record: Record) -> usize {
    match record.kind {
        1 | 2 | 4 | 5 => 0,
        3 | 6 | 8 => 1,
        _ => 1 + if record.high == 255 { record.low } else { record.high } as usize,
    }
}

/// How many parameters the first `n` records have.
pub fn parameters_in(list: &[u8], n: usize) -> usize {
    (0..n).map(|k| count_of(record_at(list, k))).sum()
}

/// Record `k` of the list.
pub fn record_at(list: &[u8], k: usize) -> Record {
    Record {
        kind: byte_of(list, k, 0),
        left: byte_of(list, k, 1),
        right: byte_of(list, k, 2),
        low: byte_of(list, k, 4),
        high: byte_of(list, k, 5),
    }
}

/// Row j of the count rows from base on; false past them.
pub fn row_of(area: &[u64], base: usize, count: usize, j: usize) -> &Row {
    if j < count {
        row_at(area, base + j)
    } else {
        &NO_TERMS
    }
}

/// Whether a signal holds, from the word of all of them.
pub fn signal(signals: u16, s: u8) -> bool {
    s < 16 && (signals >> s) % 2 == 1
}
