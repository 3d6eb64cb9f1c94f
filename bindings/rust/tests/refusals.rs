//! Each refusal, its order, and what it leaves untouched.

mod house;

use house::{asked, record, watcher_a, RULE_A, SIGNALS};
use hunchcold::{raw, run, Refusal, Verdict, Watcher, Word, AREA_WORDS, STATE_BYTES};

/// Rule A with one byte changed.
fn spoilt(at: usize, byte: u8) -> [u8; 24] {
    let mut rule = RULE_A;
    rule[at] = byte;
    rule
}

/// What start says of a rule over the examples' signals.
fn started(rule: &[u8]) -> Result<(), Refusal> {
    Watcher::start(rule, &SIGNALS).map(|_| ())
}

#[test]
fn rules() {
    assert_eq!(started(&RULE_A), Ok(()));
    assert_eq!(started(&[]), Err(Refusal::RuleLength));
    assert_eq!(started(&RULE_A[..23]), Err(Refusal::RuleLength));
    assert_eq!(started(&[1; 136]), Err(Refusal::RuleLength));
    assert_eq!(started(&spoilt(17, 2)), Err(Refusal::RuleRecord));
    assert_eq!(started(&spoilt(9, 0)), Err(Refusal::RuleTwins));
    assert_eq!(started(&spoilt(21, 10)), Err(Refusal::RuleParameters));
    assert_eq!(started(&spoilt(9, 2)), Err(Refusal::SignalMissing));
}

#[test]
fn signals() {
    for list in [&[][..], &SIGNALS[..9], &[3; 16][..]] {
        assert_eq!(Watcher::start(&RULE_A, list), Err(Refusal::SignalList));
        assert_eq!(run(&RULE_A, list, &record(0, 1, 0)), Err(Refusal::SignalList));
    }
    assert_eq!(Watcher::start(&RULE_A, &SIGNALS[..8]), Err(Refusal::SignalMissing));
}

/// A record that is short, long or out of layout is refused, and the watcher is as it was.
#[test]
fn records() {
    let mut watcher = watcher_a();
    assert_eq!(watcher.feed(&record(4, 1, 0)), Ok(Word::Pending));
    let before = watcher.clone();
    let wrong_vent = record(5, 101, 0);
    for bytes in [&[][..], &record(5, 1, 0)[..15], &[0; 17][..], &wrong_vent[..]] {
        assert_eq!(watcher.would_refuse(bytes), Some(Refusal::LogRecord));
        assert_eq!(watcher.feed(bytes), Err(Refusal::LogRecord));
        assert_eq!(watcher, before);
    }
}

/// Closing wants a record, and happens once.
#[test]
fn closing() {
    let mut watcher = watcher_a();
    assert_eq!(watcher.close(), Err(Refusal::NothingFed));
    assert_eq!(watcher, watcher_a());
    assert_eq!(watcher.feed(&record(0, 0, 1)), Ok(Word::Pending));
    assert_eq!(watcher.close(), Ok(Verdict::Kept));
    let closed = watcher.clone();
    assert_eq!(watcher.close(), Err(Refusal::AlreadyClosed));
    assert_eq!(watcher.feed(&[]), Err(Refusal::AlreadyClosed));
    assert_eq!(watcher.would_refuse(&record(9, 0, 0)), Some(Refusal::AlreadyClosed));
    assert_eq!(watcher, closed);
}

/// Asking refuses as closing does, and in the same order: 91, 7, 12, then 10 or 11.
#[test]
fn asking() {
    let mut watcher = watcher_a();
    assert_eq!(asked(&watcher), Err(Refusal::NothingFed));
    refused_in_order(&watcher);
    assert_eq!(watcher.feed(&record(0, 0, 1)), Ok(Word::Pending));
    assert_eq!(asked(&watcher), Ok(Verdict::Kept));
    refused_in_order(&watcher);
    assert_eq!(watcher.close(), Ok(Verdict::Kept));
    assert_eq!(asked(&watcher), Err(Refusal::AlreadyClosed));
    refused_in_order(&watcher);
}

/// A watcher with a byte behind its rule is refused with 12, with a short area as well with 7, and with 91 before all.
fn refused_in_order(watcher: &Watcher) {
    let (mut state, mut area) = watcher.clone().into_parts();
    state[24] = 1;
    let damaged = Watcher::from_parts(state.clone(), area.clone());
    assert_eq!(asked(&damaged), Err(Refusal::BrokenState));
    area.pop();
    let damaged = Watcher::from_parts(state.clone(), area.clone());
    assert_eq!(asked(&damaged), Err(Refusal::AreaLength));
    state.pop();
    assert_eq!(asked(&Watcher::from_parts(state, area)), Err(Refusal::StateLength));
}

/// A whole log goes on after refused pieces; one without an accepted record has no verdict.
#[test]
fn whole_logs() {
    let mut log = record(3, 1, 0).to_vec();
    log.extend(record(2, 1, 0));
    log.extend(record(4, 0, 1));
    log.push(7);
    let night = run(&RULE_A, &SIGNALS, &log).expect("rule A is accepted");
    let late = Err(Refusal::LogTime);
    let short = Err(Refusal::LogRecord);
    assert_eq!(night.words, [Ok(Word::Pending), late, Ok(Word::Pending), short]);
    assert_eq!(night.end, Ok(Verdict::Kept));

    let empty = run(&RULE_A, &SIGNALS, &[]).expect("rule A is accepted");
    assert_eq!(empty.words, []);
    assert_eq!(empty.end, Err(Refusal::NothingFed));
}

/// A run without an accepted record has written area and codes: the area is that after start, each code is 8.
#[test]
fn nothing_accepted() {
    let mut area = vec![5; AREA_WORDS];
    let mut codes = [5; 2];
    let log = [255; 20];
    assert_eq!(raw::run(&RULE_A, &SIGNALS, &log, &mut area, &mut codes), 11);
    assert_eq!(codes, [8; 2]);
    assert_eq!(area, watcher_a().parts().1);
}

/// The lists that the exports write to must have their lengths: 90 and 91 come before all else, 7 after 1 to 6.
#[test]
fn lengths() {
    let mut area = vec![5; AREA_WORDS];
    let mut codes = [5; 3];
    assert_eq!(raw::run(&[], &SIGNALS, &[0; 32], &mut area, &mut codes), 90);
    assert_eq!(raw::run(&[], &SIGNALS, &[0; 33], &mut area, &mut codes), 1);
    assert_eq!(raw::run(&RULE_A, &SIGNALS, &[0; 33], &mut area[1..], &mut codes), 7);
    assert_eq!(codes, [5; 3]);

    let mut state = [5; STATE_BYTES];
    assert_eq!(raw::start(&[], &SIGNALS, &mut state[1..], &mut area), 91);
    assert_eq!(state, [5; STATE_BYTES]);
    assert_eq!(raw::start(&RULE_A, &SIGNALS, &mut state, &mut area[1..]), 7);
    assert_eq!(state, [0; STATE_BYTES]);
    assert_eq!(area, vec![5; AREA_WORDS]);
}
