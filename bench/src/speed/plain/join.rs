//! Joining two rows, term against term.

use super::rows::{Row, NO_TERMS};
use super::scan::next_term;

/// Term i with each term of b, added to r.
fn join_term(r: &mut Row, b: &Row, i: usize) {
    let mut j = next_term(b, 0, 4096);
    while j < 4096 {
        let k = i | j;
        r[k / 64] ^= 1 << (k % 64);
        j = next_term(b, j + 1, 4096);
    }
}

/// The row of the conjunction: term against term, passing over absent terms.
pub fn and(a: &Row, b: &Row) -> Row {
    let mut r = NO_TERMS;
    let mut i = next_term(a, 0, 4096);
    while i < 4096 {
        join_term(&mut r, b, i);
        i = next_term(a, i + 1, 4096);
    }
    r
}
