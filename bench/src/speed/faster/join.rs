//! Joining two rows: term against term where they have few terms, else by their truth values.

use super::rows::{Row, NO_TERMS};
use super::scan::next_term;
use super::table::truth_of;

/// About as many joined terms as three turns to truth values take.
const FEW: u32 = 300;

fn terms(row: &Row) -> u32 {
    row.iter().map(|word| word.count_ones()).sum()
}

/// The row of the conjunction.
pub fn and(a: &Row, b: &Row) -> Row {
    let mut r = NO_TERMS;
    if terms(a) * terms(b) > FEW {
        let (s, t) = (truth_of(a), truth_of(b));
        for i in 0..64 {
            r[i] = s[i] & t[i];
        }
        return truth_of(&r);
    }
    let mut i = next_term(a, 0, 4096);
    while i < 4096 {
        let mut j = next_term(b, 0, 4096);
        while j < 4096 {
            let k = i | j;
            r[k / 64] ^= 1 << (k % 64);
            j = next_term(b, j + 1, 4096);
        }
        i = next_term(a, i + 1, 4096);
    }
    r
}
