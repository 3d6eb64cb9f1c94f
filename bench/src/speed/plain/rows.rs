//! Rows of forms: in a lent area, made and read.

use super::join::and;
use super::scan::next_term;

/// Bit k of the 64 words is the term whose parameters are the one-bits of k.
pub type Row = [u64; 64];

pub const NO_TERMS: Row = [0; 64];

/// Which constant a form is, if any.
pub enum Truth {
    False,
    True,
    Open,
}

/// The row at a place of an area.
pub fn row_at(area: &[u64], place: usize) -> &Row {
    area[64 * place..64 * place + 64].try_into().expect("64 words")
}

pub fn store(area: &mut [u64], place: usize, row: &Row) {
    area[64 * place..64 * place + 64].copy_from_slice(row);
}

/// Zeros in count rows from base on.
pub fn clear(area: &mut [u64], base: usize, count: usize) {
    area[64 * base..64 * (base + count)].fill(0);
}

/// The row of term k alone.
fn alone(k: usize) -> Row {
    let mut r = NO_TERMS;
    r[k / 64] = 1 << (k % 64);
    r
}

/// The row of true, or of false.
pub fn constant(b: bool) -> Row {
    if b {
        alone(0)
    } else {
        NO_TERMS
    }
}

/// The row of parameter p of m.
pub fn parameter(p: usize, m: usize) -> Row {
    if p < m && p < 12 {
        alone(1 << p)
    } else {
        NO_TERMS
    }
}

/// The row of the exclusive or.
pub fn xor(a: &Row, b: &Row) -> Row {
    let mut r = NO_TERMS;
    for i in 0..64 {
        r[i] = a[i] ^ b[i];
    }
    r
}

/// The row of the disjunction.
pub fn or(a: &Row, b: &Row) -> Row {
    let either = xor(a, b);
    let both = and(a, b);
    xor(&either, &both)
}

/// Which constant the row's form is, if any.
pub fn which_constant(row: &Row) -> Truth {
    if next_term(row, 1, 4096) < 4096 {
        return Truth::Open;
    }
    if next_term(row, 0, 1) < 1 {
        return Truth::True;
    }
    Truth::False
}

/// Whether the row has no term from 2^m on.
pub fn fits(row: &Row, m: usize) -> bool {
    m >= 12 || next_term(row, 1 << m, 4096) == 4096
}

/// The parameters that the row's form names, as bits.
pub fn names(row: &Row) -> usize {
    let mut named = 0;
    let mut k = next_term(row, 0, 4096);
    while k < 4096 {
        named |= k;
        k = next_term(row, k + 1, 4096);
    }
    named
}
