//! States and areas handed in: as the plain watcher leaves them after some calls, then damaged.

use crate::case::{Call, Case};
use crate::chance::Chance;
use crate::lists::*;
use crate::plain;
use crate::state::*;

/// The case from after start and some of its calls on.
pub fn hand_in(case: &mut Case, chance: &mut Chance) {
    if case.handed_in {
        return;
    }
    plain::start(&case.rule, &case.signals, &mut case.state, &mut case.area);
    let past = match chance.below(4) {
        0 => 0,
        1 => case.calls.len(),
        _ => chance.below(case.calls.len() + 1),
    };
    for call in case.calls.drain(..past) {
        match call {
            Call::Feed(record) => plain::feed(&mut case.state, &record, &mut case.area),
            Call::Close => plain::close(&mut case.state, &mut case.area),
        };
    }
    if case.calls.is_empty() {
        case.calls.push(Call::Close);
    }
    case.handed_in = true;
}

/// The number of parameters of the state's rule, and its records; none if start refuses the lists or lengths are wrong.
fn rule_in(case: &Case) -> Option<(usize, Vec<RuleRecord>)> {
    if case.state.len() != STATE_BYTES || case.area.len() != AREA_WORDS {
        return None;
    }
    let state = State::read(&case.state);
    if refusal(state.rule_bytes()?, state.signal_bytes()?) != 0 {
        return None;
    }
    let rule = rule_of(state.rule_bytes()?);
    Some((rule.iter().map(RuleRecord::parameters).sum(), rule))
}

/// Bytes of the state changed: in a list, behind it, in a count, the time, the signals, the phase or the last byte.
pub fn damaged_state(case: &mut Case, chance: &mut Chance) {
    hand_in(case, chance);
    for _ in 0..1 + chance.below(2) {
        let (place, bit) = some_bit(case, chance);
        if let Some(byte) = case.state.get_mut(place) {
            *byte = if chance.percent(70) {
                *byte ^ 1 << bit
            } else {
                chance.pick(&[0, 1, 2, 7, 16, 17, 255])
            };
        }
    }
}

/// A byte of the state and a bit of it; bits at the edge of what is allowed come up often.
fn some_bit(case: &Case, chance: &mut Chance) -> (usize, usize) {
    let rule = case.rule.len().clamp(LIST_RECORD, LIST_BYTES);
    let signals = case.signals.len().clamp(LIST_RECORD, LIST_BYTES);
    let any = chance.below(8);
    match chance.below(10) {
        0 | 1 => (chance.below(rule), any),
        2 => (rule + chance.below(LIST_BYTES - rule + 1), any),
        3 => (SIGNAL_LIST + chance.below(signals), any),
        4 => (SIGNAL_LIST + signals + chance.below(LIST_BYTES - signals + 1), any),
        5 => (chance.pick(&[RULE_COUNT, SIGNAL_COUNT]), chance.below(6)),
        6 => (chance.pick(&[RULE_COUNT + 7, SIGNAL_COUNT + 7]), 5 + chance.below(3)),
        7 => (TIME + chance.below(4), any),
        8 => {
            let above = (signals / LIST_RECORD).min(15);
            let signal = if chance.percent(60) { above } else { chance.below(16) };
            (SIGNALS + signal / 8, signal % 8)
        }
        _ => (LAST_BYTE, any),
    }
}

pub fn damaged_phase(case: &mut Case, chance: &mut Chance) {
    hand_in(case, chance);
    if let Some(phase) = case.state.get_mut(PHASE) {
        *phase = chance.pick(&[0, 0, 1, 1, 2, 3, 4, 5, 128, 255]);
    }
}

/// Bits turned in past rows, unused rows or the remainder, below and above 2^m.
pub fn damaged_area(case: &mut Case, chance: &mut Chance) {
    hand_in(case, chance);
    let Some((parameters, _)) = rule_in(case) else { return };
    for _ in 0..1 + chance.below(2) {
        let place = match chance.below(5) {
            0 | 1 => chance.below(parameters.max(1)),
            2 => MOST_PARAMETERS,
            3 => parameters,
            _ => chance.below(MOST_PARAMETERS + 1),
        };
        let limit = 1 << parameters;
        let bit = match chance.below(8) {
            0 => limit.min(4095),
            1 => chance.below(4096),
            2 => limit - 1,
            _ => chance.below(limit),
        };
        case.area[ROW_WORDS * place + bit / 64] ^= 1 << (bit % 64);
    }
}

/// Scratch may hold anything at entry.
pub fn any_scratch(case: &mut Case, chance: &mut Chance) {
    hand_in(case, chance);
    for place in SCRATCH..case.area.len() {
        if chance.percent(60) {
            case.area[place] = chance.next();
        }
    }
}

/// A state that passes 12 and that no start and feeds may lead to: time, signals, past rows and remainder by chance.
pub fn chance_rows(case: &mut Case, chance: &mut Chance) {
    hand_in(case, chance);
    let Some((parameters, rule)) = rule_in(case) else {
        return;
    };
    put_row(case, MOST_PARAMETERS, chance, (1 << parameters) - 1);
    if chance.percent(15) {
        return;
    }
    let signals = chance.next() as u16 & ((1u32 << State::read(&case.state).signal_records) - 1) as u16;
    case.state[PHASE] = 1;
    case.state[SIGNALS..PHASE].copy_from_slice(&signals.to_le_bytes());
    if chance.percent(50) {
        let time = chance.pick(&[0, 3, 5, 9, u32::MAX - 20, u32::MAX]);
        case.state[TIME..SIGNALS].copy_from_slice(&time.to_le_bytes());
    }
    let (mut place, mut forward) = (0, 0);
    for record in rule {
        let own = ((1 << record.parameters()) - 1) << place;
        for _ in 0..record.parameters() {
            case.area[ROW_WORDS * place..][..ROW_WORDS].fill(0);
            match record.kind {
                SIGNAL => case.area[ROW_WORDS * place] = signals as u64 >> record.left & 1,
                NEXT | UNTIL => case.area[ROW_WORDS * place + (1 << place) / 64] = 1 << ((1 << place) % 64),
                _ => put_row(case, place, chance, forward),
            }
            place += 1;
        }
        if matches!(record.kind, NEXT | UNTIL) {
            forward |= own;
        }
    }
}

/// The same, and then the term of one parameter, often such a row's own, turned in a previous's or since's row.
pub fn stray_term(case: &mut Case, chance: &mut Chance) {
    look_back(case);
    chance_rows(case, chance);
    let Some((parameters, rule)) = rule_in(case) else {
        return;
    };
    let kinds = rule.iter().flat_map(|record| vec![record.kind; record.parameters()]);
    let backward = kinds.enumerate().filter(|(_, kind)| matches!(*kind, PREVIOUS | SINCE));
    let places: Vec<usize> = backward.map(|(place, _)| place).collect();
    if !places.is_empty() {
        let named = if chance.percent(70) {
            chance.pick(&places)
        } else {
            chance.below(parameters)
        };
        let (place, term) = (chance.pick(&places), 1 << named);
        case.area[ROW_WORDS * place + term / 64] ^= 1 << (term % 64);
    }
}

/// A since and a previous of it more at the rule's end, if they fit.
fn look_back(case: &mut Case) {
    let mut rule = case.rule.clone();
    rule.extend([SINCE, 0, 0, 0, 0, 255, 0, 0]);
    rule.extend([PREVIOUS, (case.rule.len() / LIST_RECORD) as u8, 0, 0, 0, 255, 0, 0]);
    if refusal(&rule, &case.signals) == 0 {
        case.rule = rule;
    }
}

/// A row of terms by chance, few or many, over the parameters that are one-bits of `allowed`.
fn put_row(case: &mut Case, place: usize, chance: &mut Chance, allowed: usize) {
    let share = chance.pick(&[0, 2, 10, 50, 50]);
    case.area[ROW_WORDS * place..][..ROW_WORDS].fill(0);
    for term in (0..4096).filter(|term| term & !allowed == 0) {
        if chance.percent(share) {
            case.area[ROW_WORDS * place + term / 64] |= 1 << (term % 64);
        }
    }
    for _ in 0..chance.below(4) {
        let term = chance.below(4096) & allowed;
        case.area[ROW_WORDS * place + term / 64] ^= 1 << (term % 64);
    }
}
