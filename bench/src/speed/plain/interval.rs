//! A record's interval: what is inside, and what the gap makes of a shift.

/// Whether the other record, seen from the one here, is in the interval.
pub fn inside(low: u8, high: u8, here: u32, other: u32) -> bool {
    let gap = here.abs_diff(other) as usize;
    if high == 255 {
        return low as usize <= gap;
    }
    low as usize <= gap && gap <= high as usize
}

/// Whether a record is in its own interval with shift n.
pub fn inside_now(low: u8, n: usize) -> bool {
    low as usize <= n
}

/// What shift n becomes by the gap between the record here and its neighbour; none where it is gone.
pub fn moved(low: u8, high: u8, n: usize, here: u32, other: u32) -> Option<usize> {
    let later = n + here.abs_diff(other) as usize;
    if high == 255 {
        return Some(later.min(low as usize));
    }
    (later <= high as usize).then_some(later)
}
