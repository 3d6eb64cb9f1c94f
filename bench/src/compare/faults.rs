//! The kinds of cases: each puts one fault into a well-formed case; the last puts in several.

use crate::case::{Call, Case};
use crate::chance::Chance;
use crate::handed::*;
use crate::lists::*;
use crate::rules;
use crate::state::*;

type Fault = fn(&mut Case, &mut Chance);

/// Each kind's name and fault; a fault that comes later may build on what an earlier one left.
pub const KINDS: [(&str, Fault); 27] = [
    ("well-formed", |_, _| {}),
    ("damaged rule", |case, chance| damage(&mut case.rule, chance)),
    ("rule of random bytes", random_rule),
    ("rule with twins", twins),
    ("rule with many parameters", many_parameters),
    ("damaged list", |case, chance| damage(&mut case.signals, chance)),
    ("list too short", short_list),
    ("damaged log record", damaged_record),
    ("log record of another length", another_length),
    ("torn log", torn_log),
    ("time that falls", falling_time),
    ("wrong area length", |case, chance| wrong_area(&mut case.area, chance)),
    ("wrong state length", |case, chance| {
        wrong_state(&mut case.state, chance)
    }),
    ("wrong codes length", wrong_codes),
    ("closed with nothing fed", |case, _| case.calls.insert(0, Call::Close)),
    ("closed twice", |case, _| case.calls.push(Call::Close)),
    ("fed after closing", fed_after_closing),
    ("handed in as it was", hand_in),
    ("handed in, wrong area length", handed_wrong_area),
    ("handed in, wrong state length", handed_wrong_state),
    ("damaged state bytes", damaged_state),
    ("damaged phase", damaged_phase),
    ("damaged area", damaged_area),
    ("scratch with anything", any_scratch),
    ("rows and remainder of chance", chance_rows),
    ("row with a term too many", stray_term),
    ("several faults", several),
];

/// The first kind whose state and area are handed in.
const HANDED_IN: usize = 17;

/// Puts in the fault of a kind by chance; three in ten cases stay well-formed.
pub fn put(case: &mut Case, chance: &mut Chance) {
    if chance.percent(70) {
        let first = if chance.percent(40) { HANDED_IN } else { 1 };
        case.kind = first + chance.below(KINDS.len() - first);
    }
    KINDS[case.kind].1(case, chance);
}

/// Two or three faults of other kinds, in the kinds' order.
fn several(case: &mut Case, chance: &mut Chance) {
    let mut kinds: Vec<usize> = (0..2 + chance.below(2))
        .map(|_| 1 + chance.below(KINDS.len() - 2))
        .collect();
    kinds.sort();
    kinds.dedup();
    for kind in kinds {
        KINDS[kind].1(case, chance);
    }
}

/// A list without its last byte, with a record more, with a byte more, empty, or with another byte somewhere.
fn damage(list: &mut Vec<u8>, chance: &mut Chance) {
    match chance.below(7) {
        0 => drop(list.pop()),
        1 => list.extend([1, 0, 0, 0, 0, 0, 0, 0]),
        2 => list.push(0),
        3 => list.clear(),
        _ if list.is_empty() => {}
        _ => {
            let place = chance.below(list.len());
            list[place] = chance.pick(&[0, 1, 2, 3, 4, 5, 6, 7, 8, 9, 10, 15, 16, 254, 255]);
        }
    }
}

fn random_rule(case: &mut Case, chance: &mut Chance) {
    let length = chance.below(LIST_BYTES + 20);
    case.rule = (0..length).map(|_| chance.next() as u8).collect();
}

/// The last record becomes a copy of an earlier one.
fn twins(case: &mut Case, chance: &mut Chance) {
    let records = case.rule.len() / LIST_RECORD;
    if records > 1 {
        let from = LIST_RECORD * chance.below(records - 1);
        case.rule
            .copy_within(from..from + LIST_RECORD, LIST_RECORD * (records - 1));
    }
}

/// A record more whose parameters hardly fit.
fn many_parameters(case: &mut Case, chance: &mut Chance) {
    let high = chance.pick(&[6, 9, 10, 11, 12, 254, 255]);
    let low = chance.below(high as usize).min(254) as u8;
    case.rule.truncate(LIST_RECORD * (MOST_RECORDS - 1));
    case.rule
        .extend([chance.pick(&[UNTIL, SINCE]), 0, 0, 0, low, high, 0, 0]);
}

fn short_list(case: &mut Case, chance: &mut Chance) {
    let records = case.signals.len() / LIST_RECORD;
    case.signals.truncate(LIST_RECORD * (1 + chance.below(records.max(1))));
    let place = LIST_RECORD * chance.below((case.rule.len() / LIST_RECORD).max(1));
    if case.rule.get(place) == Some(&SIGNAL) {
        case.rule[place + 1] = (records + chance.below(17 - records.min(16))) as u8;
    }
}

/// The records of the feeds.
fn records(case: &mut Case) -> Vec<&mut Vec<u8>> {
    let feeds = case.calls.iter_mut().filter_map(|call| match call {
        Call::Feed(record) => Some(record),
        Call::Close => None,
    });
    feeds.collect()
}

/// One of the records, if there is any.
fn some_record<'a>(case: &'a mut Case, chance: &mut Chance) -> Option<&'a mut Vec<u8>> {
    let mut records = records(case);
    if records.is_empty() {
        None
    } else {
        Some(records.swap_remove(chance.below(records.len())))
    }
}

fn damaged_record(case: &mut Case, chance: &mut Chance) {
    for _ in 0..1 + chance.below(2) {
        let (place, byte) = (chance.pick(&[0, 3, 8, 9, 10, 11, 12, 13, 14, 15]), chance.next() as u8);
        let byte = if chance.percent(50) {
            chance.pick(&[1, 2, 100, 101])
        } else {
            byte
        };
        if let Some(found) = some_record(case, chance).and_then(|record| record.get_mut(place)) {
            *found = byte;
        }
    }
}

fn another_length(case: &mut Case, chance: &mut Chance) {
    let length = chance.pick(&[0, 1, 8, 15, 17, 24, 31, 32, 33]);
    if let Some(record) = some_record(case, chance) {
        record.resize(length, 0);
    }
}

/// The last record is cut short.
fn torn_log(case: &mut Case, chance: &mut Chance) {
    if let Some(record) = records(case).pop() {
        record.truncate(chance.below(LOG_RECORD));
    }
}

fn falling_time(case: &mut Case, chance: &mut Chance) {
    let back = chance.pick(&[1, 1, 1, 2, 3, 300, u32::MAX]);
    for record in records(case).into_iter().rev().step_by(1 + chance.below(3)) {
        if let Some(bytes) = record.first_chunk_mut::<4>() {
            *bytes = u32::from_le_bytes(*bytes).saturating_sub(back).to_le_bytes();
        }
        if chance.percent(50) {
            return;
        }
    }
}

fn wrong_area(area: &mut Vec<u64>, chance: &mut Chance) {
    area.resize(chance.pick(&[0, 1, 64, 832, 1600, 1663, 1665, 1728, 3328]), 7);
}

fn wrong_state(state: &mut Vec<u8>, chance: &mut Chance) {
    state.resize(chance.pick(&[0, 1, 128, 279, 281, 288, 560]), 7);
}

fn wrong_codes(case: &mut Case, chance: &mut Chance) {
    case.extra_codes = chance.pick(&[-1, -1, 1, 1, 2, 16]);
}

fn fed_after_closing(case: &mut Case, chance: &mut Chance) {
    let time = chance.pick(&[0, 5, u32::MAX]);
    let mut record = rules::log_record(chance, time);
    record.truncate(chance.pick(&[16, 16, 16, 15]));
    case.calls.push(Call::Feed(record));
}

fn handed_wrong_area(case: &mut Case, chance: &mut Chance) {
    hand_in(case, chance);
    wrong_area(&mut case.area, chance);
}

fn handed_wrong_state(case: &mut Case, chance: &mut Chance) {
    hand_in(case, chance);
    wrong_state(&mut case.state, chance);
}
