//! The past row of a record's shift. The area has the past rows of the records before first, and in its scratch the
//! count derived rows of the log record before.

use super::interval::{inside, inside_now, moved};
use super::join::and;
use super::rows::{constant, or, parameter, Row, NO_TERMS};
use super::rule::{row_of, signal, Step};
use super::table::put_in;

/// Where the derived rows of the log record before stand, and how many.
#[derive(Clone, Copy)]
pub struct Held {
    pub scratch: usize,
    pub count: usize,
}

/// Previous resolved: left with the derived rows put in, then the past rows; false at the first record.
fn previous_row(step: &Step, left: &Row, area: &[u64], held: Held) -> Row {
    let record = step.record;
    match step.neighbour {
        Some(other) if inside(record.low, record.high, step.here.time, other) => {
            put_in(&put_in(left, area, held.scratch, held.count), area, 0, step.first)
        }
        _ => NO_TERMS,
    }
}

/// Since's second part resolved: left, and the derived row of the moved shift; false at the first record.
fn since_earlier(step: &Step, left: &Row, area: &[u64], held: Held) -> Row {
    let record = step.record;
    let shift = step
        .neighbour
        .and_then(|other| moved(record.low, record.high, step.shift, step.here.time, other));
    let Some(shift) = shift else {
        return NO_TERMS;
    };
    let before = put_in(
        row_of(area, held.scratch, held.count, step.first + shift),
        area,
        0,
        step.first,
    );
    let kept = put_in(left, area, 0, step.first);
    and(&kept, &before)
}

/// Since resolved: right, if 0 is in the shifted interval, or its second part.
fn since_row(step: &Step, left: &Row, right: &Row, area: &[u64], held: Held) -> Row {
    let earlier = since_earlier(step, left, area, held);
    if inside_now(step.record.low, step.shift) {
        or(&put_in(right, area, 0, step.first), &earlier)
    } else {
        earlier
    }
}

/// The past row of a record's shift.
pub fn past_row(step: &Step, forms: &[u64], k: usize, area: &[u64], held: Held) -> Row {
    let record = step.record;
    match record.kind {
        3 => constant(signal(step.here.signals, record.left)),
        0..=5 => NO_TERMS,
        6 | 7 => parameter(step.first + step.shift, step.m),
        8 => previous_row(step, row_of(forms, 0, k, record.left as usize), area, held),
        _ => {
            let left = row_of(forms, 0, k, record.left as usize);
            let right = row_of(forms, 0, k, record.right as usize);
            since_row(step, left, right, area, held)
        }
    }
}
