//! The terms of a row.

use super::rows::Row;

/// The first term of the row from `from` on and before `to`, or `to`.
pub fn next_term(row: &Row, from: usize, to: usize) -> usize {
    let mut k = from;
    while k < to {
        let left = row[k / 64] >> (k % 64);
        if left % 2 == 1 {
            return k;
        }
        if left == 0 {
            k = (k / 64 + 1) * 64;
        } else {
            k += 1;
        }
    }
    to
}

/// The parameter that the row's form is, or is the negation of; 12 where there is none.
pub fn lone(row: &Row) -> usize {
    let k = next_term(row, 1, 4096);
    if next_term(row, k + 1, 4096) < 4096 {
        return 12;
    }
    (0..12).find(|p| k == 1 << p).unwrap_or(12)
}
