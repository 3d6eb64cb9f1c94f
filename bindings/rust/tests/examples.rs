//! Document 01's examples, call by call and as a whole log.

mod house;

use house::{asked, record, watcher_a, RULE_A, SIGNALS};
use hunchcold::Word::{self, Broken, Pending};
use hunchcold::{run, Refusal, Verdict, Watcher};

/// Rule B: next, from 0 with no upper end, of signal 0 since signal 1, from 1 to 1 minutes.
const RULE_B: [u8; 32] = [
    3, 0, 0, 0, 0, 0, 0, 0, 3, 1, 0, 0, 0, 0, 0, 0, 9, 0, 1, 0, 1, 1, 0, 0, 6, 2, 0, 0, 0, 255, 0, 0,
];

/// Feeds the records of one example and closes; the same must come from running the whole log. Asking after each record
/// must answer how the log up to it ends.
fn example(rule: &[u8], records: &[(u32, u8, u8)], words: &[Word], verdict: Verdict) {
    let mut watcher = Watcher::start(rule, &SIGNALS).expect("the rule is accepted");
    let mut said = Vec::new();
    let mut log = Vec::new();
    for &(time, first, second) in records {
        let bytes = record(time, first, second);
        said.push(watcher.feed(&bytes));
        log.extend(bytes);
        let so_far = run(rule, &SIGNALS, &log).expect("the rule is accepted");
        assert_eq!(asked(&watcher), so_far.end);
    }
    let wanted: Vec<_> = words.iter().map(|&word| Ok(word)).collect();
    assert_eq!(said, wanted);
    assert_eq!(watcher.close(), Ok(verdict));
    let whole = run(rule, &SIGNALS, &log).expect("the rule is accepted");
    assert_eq!(whole.words, wanted);
    assert_eq!(whole.end, Ok(verdict));
}

#[test]
fn example_1() {
    example(
        &RULE_A,
        &[(0, 1, 0), (1, 1, 0), (2, 0, 1)],
        &[Pending, Pending, Pending],
        Verdict::Kept,
    );
}

#[test]
fn example_2() {
    example(&RULE_A, &[(0, 1, 0), (3, 0, 1)], &[Pending, Broken], Verdict::Broken);
}

#[test]
fn example_3() {
    example(&RULE_A, &[(0, 1, 0), (2, 0, 1)], &[Pending, Pending], Verdict::Kept);
}

#[test]
fn example_4() {
    example(&RULE_A, &[(0, 1, 0)], &[Pending], Verdict::Broken);
}

#[test]
fn example_5() {
    example(&RULE_A, &[(5, 1, 0), (5, 0, 1)], &[Pending, Pending], Verdict::Kept);
}

#[test]
fn example_6() {
    example(&RULE_A, &[(0, 0, 0), (0, 0, 0)], &[Pending, Broken], Verdict::Broken);
}

#[test]
fn example_7() {
    example(&RULE_B, &[(0, 0, 1), (1, 1, 0)], &[Pending, Pending], Verdict::Kept);
}

#[test]
fn example_8() {
    example(&RULE_B, &[(0, 0, 1), (2, 1, 0)], &[Pending, Pending], Verdict::Broken);
}

/// True, then exclusive or of it with itself: broken at the first record.
#[test]
fn example_9() {
    let rule = [1, 0, 0, 0, 0, 0, 0, 0, 5, 0, 0, 0, 0, 0, 0, 0];
    example(&rule, &[(0, 0, 0)], &[Broken], Verdict::Broken);
}

/// An until of 0 to 9 minutes has 12 parameters with its signals, one of 0 to 10 too many.
#[test]
fn example_12() {
    let mut rule = RULE_A;
    rule[21] = 9;
    assert_eq!(
        Watcher::start(&rule, &SIGNALS).map(|watcher| watcher.horizon()),
        Ok(Some(9))
    );
    rule[21] = 10;
    assert_eq!(Watcher::start(&rule, &SIGNALS), Err(Refusal::RuleParameters));
}

/// A time that falls is refused and changes nothing; the same time again is accepted.
#[test]
fn example_14() {
    let mut watcher = watcher_a();
    assert_eq!(watcher.feed(&record(3, 1, 0)), Ok(Pending));
    let before = watcher.clone();
    assert_eq!(watcher.would_refuse(&record(2, 1, 0)), Some(Refusal::LogTime));
    assert_eq!(watcher.feed(&record(2, 1, 0)), Err(Refusal::LogTime));
    assert_eq!(watcher, before);
    assert_eq!(watcher.would_refuse(&record(3, 1, 0)), None);
    assert_eq!(watcher.feed(&record(3, 1, 0)), Ok(Pending));
}

/// Asked after each record of example 1: without signal 1 the log would end broken, with it kept; the word is pending.
#[test]
fn asked_within_a_log() {
    let mut watcher = watcher_a();
    for (bytes, verdict) in [
        (record(0, 1, 0), Verdict::Broken),
        (record(1, 1, 0), Verdict::Broken),
        (record(2, 0, 1), Verdict::Kept),
    ] {
        assert_eq!(watcher.feed(&bytes), Ok(Pending));
        assert_eq!(asked(&watcher), Ok(verdict));
    }
}

/// The horizon is high for rule A; rule B has none.
#[test]
fn horizons() {
    assert_eq!(watcher_a().horizon(), Some(2));
    assert_eq!(
        Watcher::start(&RULE_B, &SIGNALS).map(|watcher| watcher.horizon()),
        Ok(None)
    );
}
