//! The terms of a row, a word at a time.

use super::rows::Row;

/// The first term of the row from `from` on and before `to`, or `to`.
pub fn next_term(row: &Row, from: usize, to: usize) -> usize {
    if from >= to {
        return to;
    }
    let first = row[from / 64] >> (from % 64);
    if first != 0 {
        return to.min(from + first.trailing_zeros() as usize);
    }
    for i in from / 64 + 1..to.div_ceil(64) {
        if row[i] != 0 {
            return to.min(64 * i + row[i].trailing_zeros() as usize);
        }
    }
    to
}
