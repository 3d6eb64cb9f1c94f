//! The truth values of a row, and putting rows in: only those that the form names.

use super::rows::{names, row_at, Row, NO_TERMS};
use super::scan::next_term;

/// The bits of a word whose number lacks parameter p.
const MASKS: [u64; 6] = [
    0x5555_5555_5555_5555,
    0x3333_3333_3333_3333,
    0x0F0F_0F0F_0F0F_0F0F,
    0x00FF_00FF_00FF_00FF,
    0x0000_FFFF_0000_FFFF,
    0x0000_0000_FFFF_FFFF,
];

/// The truth values of the row's form, and back again.
pub fn truth_of(row: &Row) -> Row {
    let mut r = *row;
    for (p, mask) in MASKS.iter().enumerate() {
        for word in &mut r {
            *word ^= (*word & mask) << (1 << p);
        }
    }
    for by in [1, 2, 4, 8, 16, 32] {
        for pair in r.chunks_exact_mut(2 * by) {
            let (low, high) = pair.split_at_mut(by);
            for (high, low) in high.iter_mut().zip(low) {
                *high ^= *low;
            }
        }
    }
    r
}

/// The truth values of the form of the row's 2^p bits from k on, with the forms of the tables put in.
fn put_terms(row: &Row, tables: &[Row; 12], p: usize, k: usize) -> Row {
    let end = k + (1 << p);
    if next_term(row, k, end) == end {
        return NO_TERMS;
    }
    if p == 0 {
        return [u64::MAX; 64];
    }
    let q = p - 1;
    let middle = k + (1 << q);
    let mut r = put_terms(row, tables, q, k);
    if next_term(row, middle, end) < end {
        let b = put_terms(row, tables, q, middle);
        for i in 0..64 {
            r[i] ^= tables[q][i] & b[i];
        }
    }
    r
}

/// The row's form with the count rows of the area from base on put in for its parameters.
pub fn put_in(row: &Row, area: &[u64], base: usize, count: usize) -> Row {
    let named = names(row);
    if named == 0 {
        return *row;
    }
    if named.is_power_of_two() {
        let p = named.trailing_zeros() as usize;
        let mut r = if p < count { *row_at(area, base + p) } else { NO_TERMS };
        r[0] ^= row[0] % 2;
        return r;
    }
    let mut tables = [NO_TERMS; 12];
    for j in (0..count).filter(|j| named >> j & 1 == 1) {
        tables[j] = truth_of(row_at(area, base + j));
    }
    let all = usize::BITS - named.leading_zeros();
    truth_of(&put_terms(row, &tables, all as usize, 0))
}

/// The value of the row's form where parameter j is true exactly if bit j of the setting is set.
pub fn value(row: &Row, setting: usize) -> bool {
    let k = setting % 4096;
    truth_of(row)[k / 64] >> (k % 64) & 1 == 1
}
