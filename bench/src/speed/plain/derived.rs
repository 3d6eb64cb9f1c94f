//! The derived row of a record's shift.

use super::interval::{inside, inside_now, moved};
use super::join::and;
use super::rows::{constant, or, parameter, Row, NO_TERMS};
use super::rule::{row_of, signal, Step};
use super::table::put_in;

/// Next derived: left's form if the gap is inside, else false; false at the end.
fn next_row(step: &Step, forms: &[u64], k: usize) -> Row {
    let record = step.record;
    match step.neighbour {
        Some(other) if inside(record.low, record.high, step.here.time, other) => {
            *row_of(forms, 0, k, record.left as usize)
        }
        _ => NO_TERMS,
    }
}

/// Until's second part derived: left derived, and the parameter of the moved shift; false at the end.
fn until_later(step: &Step, left: &Row, area: &[u64], scratch: usize) -> Row {
    let record = step.record;
    let shift = step
        .neighbour
        .and_then(|other| moved(record.low, record.high, step.shift, step.here.time, other));
    let Some(shift) = shift else {
        return NO_TERMS;
    };
    let kept = put_in(left, area, scratch, step.first);
    and(&kept, &parameter(step.first + shift, step.m))
}

/// Until derived: right derived, if 0 is in the shifted interval, or its second part.
fn until_row(step: &Step, left: &Row, right: &Row, area: &[u64], scratch: usize) -> Row {
    let later = until_later(step, left, area, scratch);
    if inside_now(step.record.low, step.shift) {
        or(&put_in(right, area, scratch, step.first), &later)
    } else {
        later
    }
}

/// The derived row of a record's shift. The past rows stand first in the area, the derived rows in its scratch.
pub fn derived_row(step: &Step, forms: &[u64], k: usize, area: &[u64], scratch: usize) -> Row {
    let record = step.record;
    match record.kind {
        3 => constant(signal(step.here.signals, record.left)),
        0..=5 => NO_TERMS,
        6 => next_row(step, forms, k),
        7 => {
            let left = row_of(forms, 0, k, record.left as usize);
            let right = row_of(forms, 0, k, record.right as usize);
            until_row(step, left, right, area, scratch)
        }
        _ => {
            let past = row_of(area, 0, step.m, step.first + step.shift);
            put_in(past, area, scratch, step.first)
        }
    }
}
