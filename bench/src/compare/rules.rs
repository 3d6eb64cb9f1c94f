//! Rules, signal lists and logs by chance that no call refuses.

use crate::chance::Chance;
use crate::lists::*;
use crate::rewriting::Rewriting;

const FIRST_KINDS: [u8; 5] = [SIGNAL, SIGNAL, SIGNAL, TRUE, FALSE];
const KINDS: [u8; 18] = [
    TRUE, FALSE, SIGNAL, SIGNAL, SIGNAL, AND, XOR, XOR, NEXT, NEXT, UNTIL, UNTIL, UNTIL, PREVIOUS, PREVIOUS, SINCE,
    SINCE, SINCE,
];

/// A rule over so many signals; rarely one whose form is a constant from the start.
pub fn rule(chance: &mut Chance, signals: usize) -> Vec<u8> {
    loop {
        let bytes = any_rule(chance, signals);
        if Rewriting::new(&rule_of(&bytes)).start().which_constant().is_none() || chance.percent(8) {
            return bytes;
        }
    }
}

/// Six in ten rules are small: they show most faults, and quickly.
fn any_rule(chance: &mut Chance, signals: usize) -> Vec<u8> {
    let small = chance.percent(60);
    let records = 1 + chance.below(if small { 6 } else { MOST_RECORDS });
    let mut room = 1 + chance.below(if small { 5 } else { MOST_PARAMETERS });
    let mut rule: Vec<[u8; LIST_RECORD]> = Vec::new();
    for _ in 0..80 {
        if rule.len() == records {
            break;
        }
        let record = rule_record_by_chance(chance, rule.len(), signals, room);
        let used = rule_record(&record).parameters();
        if used <= room && !rule.contains(&record) {
            room -= used;
            rule.push(record);
        }
    }
    rule.concat()
}

/// A record for a place; until and since keep within the room if there is some.
fn rule_record_by_chance(chance: &mut Chance, place: usize, signals: usize, room: usize) -> [u8; LIST_RECORD] {
    let mut record = [0; LIST_RECORD];
    record[0] = if place == 0 {
        chance.pick(&FIRST_KINDS)
    } else {
        chance.pick(&KINDS)
    };
    match record[0] {
        TRUE | FALSE => {}
        SIGNAL => record[1] = chance.below(signals) as u8,
        AND | XOR => [record[1], record[2]] = [earlier(chance, place), earlier(chance, place)],
        NEXT | PREVIOUS => {
            record[1] = earlier(chance, place);
            let most = chance.pick(&[3, 8, 254]);
            [record[4], record[5]] = interval(chance, most);
        }
        _ => {
            [record[1], record[2]] = [earlier(chance, place), earlier(chance, place)];
            [record[4], record[5]] = interval(chance, room.saturating_sub(1));
        }
    }
    record
}

/// An earlier record, often one of the last three.
fn earlier(chance: &mut Chance, place: usize) -> u8 {
    let number = if chance.percent(50) {
        place - 1 - chance.below(place.min(3))
    } else {
        chance.below(place)
    };
    number as u8
}

/// Low and high up to an end, or a low without an upper end.
fn interval(chance: &mut Chance, most: usize) -> [u8; 2] {
    let end = chance.below(most + 1);
    if chance.percent(30) {
        [end as u8, 255]
    } else {
        [chance.below(end + 1) as u8, end as u8]
    }
}

pub fn signal_list(chance: &mut Chance, signals: usize) -> Vec<u8> {
    (0..signals).flat_map(|_| signal(chance)).collect()
}

fn signal(chance: &mut Chance) -> [u8; LIST_RECORD] {
    let channel = 1 + chance.below(5) as u8;
    let limit: i16 = match channel {
        1 => chance.pick(&[-32768, -32768, -300, -5, -1, 0, 1, 215, 32766, 32767, 32767]),
        2 => chance.pick(&[-32768, -1, 0, 1, 119, 120, 121, 200, 18204, 18205, 32767]),
        5 => chance.pick(&[-1, 0, 1, 1, 1, 1, 2]),
        _ => chance.pick(&[-1, 0, 1, 1, 50, 100, 101]),
    };
    let [low, high] = limit.to_le_bytes();
    [channel, chance.below(2) as u8, low, high, 0, 0, 0, 0]
}

/// So many records with times that never fall, many of them equal.
pub fn log(chance: &mut Chance, records: usize) -> Vec<Vec<u8>> {
    let mut time = match chance.below(4) {
        0 => 0,
        1 => 5,
        2 => chance.below(1 << 20) as u32,
        _ => u32::MAX - chance.below(20) as u32,
    };
    let mut log = Vec::new();
    for _ in 0..records {
        log.push(log_record(chance, time));
        time = time.saturating_add(gap(chance));
    }
    log
}

fn gap(chance: &mut Chance) -> u32 {
    let gap = match chance.below(20) {
        0..=6 => 0,
        7..=12 => 1,
        13..=15 => 2,
        16..=17 => 3,
        18 => chance.below(10),
        _ => chance.below(300),
    };
    gap as u32
}

/// A record at a time, with readings about the limits of `signal`.
pub fn log_record(chance: &mut Chance, time: u32) -> Vec<u8> {
    let temperature: i16 = chance.pick(&[
        -32768, -301, -300, -6, -5, -1, 0, 1, 214, 215, 216, 32766, 32766, 32767, 32767,
    ]);
    let unit = chance.below(2) as u8;
    let wind: u16 = if unit == 0 {
        chance.pick(&[
            0, 1, 2, 3, 4, 144, 428, 429, 431, 432, 433, 435, 436, 719, 720, 32767, 65534, 65535, 65535,
        ])
    } else {
        chance.pick(&[
            0, 1, 2, 118, 119, 120, 121, 144, 199, 200, 18204, 18205, 32767, 32768, 65534, 65535, 65535,
        ])
    };
    let vents: [u8; 2] = [
        chance.pick(&[0, 0, 1, 49, 50, 100]),
        chance.pick(&[0, 0, 1, 49, 50, 100]),
    ];
    let mut record = time.to_le_bytes().to_vec();
    record.extend(temperature.to_le_bytes());
    record.extend(wind.to_le_bytes());
    record.extend(vents);
    record.extend([chance.below(2) as u8, unit, 0, 0, 0, 0]);
    record
}
