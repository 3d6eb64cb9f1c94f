//! The start and the end of a log. At the end every derived row is a constant, so the parameters have a setting.

use super::interval::inside_now;
use super::rows::{clear, constant, row_at, store};
use super::rule::{count_of, row_of, signal, Moment, Plan, Step};
use super::table::value;
use super::walk::step_at;

/// The value of a record's shift at the end, from a setting that has those of the records before.
fn end_value(step: &Step, forms: &[u64], k: usize, area: &[u64], setting: usize) -> bool {
    let record = step.record;
    match record.kind {
        3 => signal(step.here.signals, record.left),
        0..=6 => false,
        7 => inside_now(record.low, step.shift) && value(row_of(forms, 0, k, record.right as usize), setting),
        _ => value(row_of(area, 0, step.m, step.first + step.shift), setting),
    }
}

/// The setting of a rule's parameters, were this the last record.
fn last_setting(list: &[u8], plan: Plan, last: Moment, forms: &[u64], area: &[u64]) -> usize {
    let mut setting = 0;
    let mut first = 0;
    for k in 0..plan.records {
        let mut step = step_at(list, k, first, plan.m, last, None);
        let count = count_of(step.record);
        let mut grown = setting;
        for n in 0..count {
            step.shift = n;
            if end_value(&step, forms, k, area, setting) {
                grown |= 1 << (first + n);
            }
        }
        setting = grown;
        first += count;
    }
    setting
}

/// The value were this the last record.
pub fn value_if_last(list: &[u8], plan: Plan, last: Moment, forms: &[u64], area: &[u64]) -> bool {
    let setting = last_setting(list, plan, last, forms, area);
    value(row_at(area, plan.places), setting)
}

/// Closing with a value: the past rows stay, and the remainder is that constant.
pub fn close(plan: Plan, b: bool, area: &mut [u64]) {
    let scratch = plan.places + 1;
    store(area, plan.places, &constant(b));
    clear(area, scratch, scratch);
}

/// The area at start: past rows zero, the remainder is the rule's form.
pub fn begin(plan: Plan, forms: &[u64], area: &mut [u64]) {
    clear(area, 0, plan.places);
    store(area, plan.places, row_of(forms, 0, plan.records, plan.records - 1));
    clear(area, plan.places + 1, plan.places + 1);
}
