//! The truth values of a row, and putting rows in by them.

use super::rows::{names, row_at, Row, NO_TERMS};
use super::scan::{lone, next_term};

/// The truth values of twelve rows.
type Tables = [Row; 12];

/// The bits of a word whose number lacks parameter p.
const MASKS: [u64; 6] = [
    0x5555_5555_5555_5555,
    0x3333_3333_3333_3333,
    0x0F0F_0F0F_0F0F_0F0F,
    0x00FF_00FF_00FF_00FF,
    0x0000_FFFF_0000_FFFF,
    0x0000_0000_FFFF_FFFF,
];

/// Word i of the row after the pass of parameter p.
fn pass_word(row: &Row, p: usize, i: usize) -> u64 {
    let w = row[i];
    if p < 6 {
        return w ^ ((w & MASKS[p]) << (1 << p));
    }
    let by = 1 << (p - 6);
    if i / by % 2 == 1 {
        return w ^ row[i - by];
    }
    w
}

/// The pass of parameter p.
fn pass(row: &mut Row, p: usize) {
    for i in 0..64 {
        row[i] = pass_word(row, p, i);
    }
}

/// The truth values of the row's form: bit s is its value where exactly the parameters of s are true.
fn truth_of(row: &Row) -> Row {
    let mut r = *row;
    // False is true nowhere.
    if next_term(row, 0, 4096) == 4096 {
        return r;
    }
    for p in 0..12 {
        pass(&mut r, p);
    }
    r
}

/// One step of putting in: a xor (table and b), 64 settings at a time.
fn mix(a: &Row, table: &Row, b: &Row) -> Row {
    let mut r = NO_TERMS;
    for i in 0..64 {
        r[i] = a[i] ^ (table[i] & b[i]);
    }
    r
}

/// The truth values of the form of the row's 2^p bits from k on, with the forms of the tables put in.
fn put_terms(row: &Row, tables: &Tables, p: usize, k: usize) -> Row {
    let end = k + (1 << p);
    if next_term(row, k, end) == end {
        return NO_TERMS;
    }
    if p == 0 {
        return [u64::MAX; 64];
    }
    let q = p - 1;
    let a = put_terms(row, tables, q, k);
    let b = put_terms(row, tables, q, k + (1 << q));
    mix(&a, &tables[q], &b)
}

/// The truth values of those of the count rows from base on whose parameters are named, and of false.
fn tables(area: &[u64], base: usize, count: usize, named: usize) -> Tables {
    let mut tables = [NO_TERMS; 12];
    for (j, table) in tables.iter_mut().enumerate() {
        if (named >> j) % 2 == 1 && j < count {
            *table = truth_of(row_at(area, base + j));
        }
    }
    tables
}

/// The row's form with the count rows of the area from base on put in for its parameters.
pub fn put_in(row: &Row, area: &[u64], base: usize, count: usize) -> Row {
    // A constant stays, and a parameter is the row put in for it, negated or not: most calls need no truth values.
    if next_term(row, 1, 4096) == 4096 {
        return *row;
    }
    let p = lone(row);
    if p < 12 {
        let mut r = if p < count { *row_at(area, base + p) } else { NO_TERMS };
        r[0] ^= row[0] % 2;
        return r;
    }
    put_by_values(row, area, base, count)
}

/// What `put_in` makes, by truth values, whatever the row's form is.
fn put_by_values(row: &Row, area: &[u64], base: usize, count: usize) -> Row {
    let tables = tables(area, base, count, names(row));
    let v = put_terms(row, &tables, 12, 0);
    truth_of(&v)
}

/// The value of the row's form where parameter j is true exactly if bit j of the setting is set.
pub fn value(row: &Row, setting: usize) -> bool {
    let k = setting % 4096;
    let t = truth_of(row);
    (t[k / 64] >> (k % 64)) % 2 == 1
}
