//! States and work areas taken out and handed in again, whole or damaged.

mod house;

use house::{asked, record, watcher_a, RULE_A, SIGNALS};
use hunchcold::{run, Refusal, Verdict, Watcher, Word, AREA_WORDS, STATE_BYTES};

/// A watcher of rule A after one record, at minute 258, with signal 0.
fn fed() -> Watcher {
    let mut watcher = watcher_a();
    assert_eq!(watcher.feed(&record(258, 1, 0)), Ok(Word::Pending));
    watcher
}

/// Each call on a watcher answers this refusal and changes nothing.
fn refused(mut watcher: Watcher, refusal: Refusal) {
    let before = watcher.clone();
    let next = record(259, 0, 1);
    assert_eq!(watcher.would_refuse(&next), Some(refusal));
    assert_eq!(watcher.feed(&next), Err(refusal));
    assert_eq!(watcher.ask(), Err(refusal));
    assert_eq!(watcher.close(), Err(refusal));
    assert_eq!(watcher, before);
}

/// The state's bytes are where they are said to be, in every phase.
#[test]
fn bytes_of_a_state() {
    let mut wanted = [0; STATE_BYTES];
    wanted[..24].copy_from_slice(&RULE_A);
    wanted[128..144].copy_from_slice(&SIGNALS);
    wanted[256] = 3;
    wanted[264] = 2;
    assert_eq!(watcher_a().parts().0, wanted);

    let mut watcher = fed();
    wanted[272..274].copy_from_slice(&[2, 1]);
    wanted[276] = 1;
    wanted[278] = 1;
    assert_eq!(watcher.parts().0, wanted);

    assert_eq!(watcher.feed(&record(259, 0, 1)), Ok(Word::Pending));
    assert_eq!(watcher.close(), Ok(Verdict::Kept));
    wanted[272..278].fill(0);
    wanted[278] = 2;
    assert_eq!(watcher.parts().0, wanted);

    let mut watcher = fed();
    assert_eq!(watcher.close(), Ok(Verdict::Broken));
    wanted[278] = 3;
    assert_eq!(watcher.parts().0, wanted);
}

/// Parts that were taken out go on where they stopped.
#[test]
fn handed_in_again() {
    let (state, area) = fed().into_parts();
    assert_eq!((state.len(), area.len()), (STATE_BYTES, AREA_WORDS));
    let mut again = Watcher::from_parts(state, area);
    assert_eq!(again, fed());
    assert_eq!(asked(&again), Ok(Verdict::Broken));
    assert_eq!(again.feed(&record(261, 0, 1)), Ok(Word::Broken));
    assert_eq!(again.close(), Ok(Verdict::Broken));
}

/// Wrong lengths are told apart, the state's first.
#[test]
fn wrong_lengths() {
    let (state, area) = fed().into_parts();
    for length in [0, STATE_BYTES - 1, STATE_BYTES + 1] {
        let mut wrong = state.clone();
        wrong.resize(length, 0);
        refused(Watcher::from_parts(wrong.clone(), area.clone()), Refusal::StateLength);
        refused(Watcher::from_parts(wrong, Vec::new()), Refusal::StateLength);
    }
    for length in [0, AREA_WORDS - 1, AREA_WORDS + 1] {
        let mut wrong = area.clone();
        wrong.resize(length, 0);
        refused(Watcher::from_parts(state.clone(), wrong), Refusal::AreaLength);
    }
}

/// A state with a byte changed where it counts is refused with 12; byte 279 does not count.
#[test]
fn damaged_state() {
    let (state, area) = fed().into_parts();
    for (at, byte) in [
        (0, 10),
        (17, 2),
        (24, 1),
        (127, 1),
        (144, 1),
        (256, 0),
        (256, 17),
        (257, 1),
        (263, 1),
        (264, 1),
    ] {
        let mut wrong = state.clone();
        wrong[at] = byte;
        refused(Watcher::from_parts(wrong, area.clone()), Refusal::BrokenState);
    }
    for (at, byte) in [(276, 0), (276, 5), (277, 1), (278, 0), (278, 4), (278, 255)] {
        let mut wrong = state.clone();
        wrong[at] = byte;
        refused(Watcher::from_parts(wrong, area.clone()), Refusal::BrokenState);
    }
    let mut same = state;
    same[279] = 9;
    let mut watcher = Watcher::from_parts(same, area);
    assert_eq!(watcher.feed(&record(259, 0, 1)), Ok(Word::Pending));
}

/// A work area with a bit where no form of this rule has one is refused with 12; the scratch does not count.
#[test]
fn damaged_area() {
    let (state, area) = fed().into_parts();
    for (word, bit) in [
        (0, 1),
        (0, 32),
        (64, 0),
        (128, 5),
        (5 * 64, 0),
        (12 * 64, 32),
        (12 * 64 + 1, 0),
    ] {
        let mut wrong = area.clone();
        wrong[word] ^= 1 << bit;
        refused(Watcher::from_parts(state.clone(), wrong), Refusal::BrokenState);
    }
    let mut same = area;
    same[13 * 64..].fill(u64::MAX);
    let mut watcher = Watcher::from_parts(state, same);
    assert_eq!(watcher.feed(&record(259, 0, 1)), Ok(Word::Pending));
    assert!(watcher.parts().1[13 * 64..].iter().all(|&word| word == 0));
}

/// Asking leaves what the scratch holds; closing clears it.
#[test]
fn asked_over_scratch() {
    let (state, mut area) = fed().into_parts();
    area[13 * 64..].fill(u64::MAX);
    let mut watcher = Watcher::from_parts(state, area.clone());
    assert_eq!(asked(&watcher), Ok(Verdict::Broken));
    assert_eq!(watcher.parts().1, area);
    assert_eq!(watcher.close(), Ok(Verdict::Broken));
    assert!(watcher.parts().1[13 * 64..].iter().all(|&word| word == 0));
}

/// A fresh state with another remainder passes 12, and the first record leaves it.
#[test]
fn other_remainder() {
    let (state, mut area) = watcher_a().into_parts();
    area[12 * 64] = 1;
    let mut watcher = Watcher::from_parts(state, area);
    assert_eq!(watcher.feed(&record(0, 0, 0)), Ok(Word::Kept));
    assert_eq!(asked(&watcher), Ok(Verdict::Kept));
    assert_eq!(watcher.close(), Ok(Verdict::Kept));
    let own = run(&RULE_A, &SIGNALS, &record(0, 0, 0)).expect("rule A is accepted");
    assert_eq!(own.end, Ok(Verdict::Broken));
}

/// A closed state passes with the other verdict and any remainder in range, and is refused with 10.
#[test]
fn other_verdict() {
    let mut watcher = fed();
    assert_eq!(watcher.close(), Ok(Verdict::Broken));
    let (mut state, mut area) = watcher.into_parts();
    state[278] = 2;
    area[12 * 64] = 6;
    refused(Watcher::from_parts(state, area), Refusal::AlreadyClosed);
}

/// A watcher of zeros refuses each call and has no horizon.
#[test]
fn zeros() {
    let watcher = Watcher::from_parts(vec![0; STATE_BYTES], vec![0; AREA_WORDS]);
    assert_eq!(watcher.horizon(), None);
    refused(watcher, Refusal::BrokenState);
}
