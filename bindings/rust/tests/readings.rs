//! Tests of a signal: readings at the marks of no reading and beside them, and what is refused.

use hunchcold::Tested::{DoesNotHold as No, Holds as Yes, NoReading as Blind};
use hunchcold::{raw, run, test_signal, Refusal, Tested, Verdict, Watcher, Word};

const AIR: u8 = 1;
const WIND: u8 = 2;
const KILOMETRES: u8 = 0;
const METRES: u8 = 1;

/// The limits at the ends of 16 bits, and 0.
const LIMITS: [i16; 3] = [32767, -32768, 0];

/// Signal 0: lee vent at least 1. Signal 1: windward vent at least 1.
const VENTS: [u8; 16] = [3, 0, 1, 0, 0, 0, 0, 0, 4, 0, 1, 0, 0, 0, 0, 0];

/// A record with the lee vent so far open.
fn opened(lee: u8) -> [u8; 16] {
    let mut bytes = fields(0, 0, METRES);
    bytes[8] = lee;
    bytes
}

/// A signal: at least (0) or below (1) a limit.
fn signal(channel: u8, sense: u8, limit: i16) -> [u8; 8] {
    let [low, high] = limit.to_le_bytes();
    [channel, sense, low, high, 0, 0, 0, 0]
}

/// A record with these numbers in the fields of temperature and wind; vents are shut and it is dry.
fn fields(temperature: u16, wind: u16, unit: u8) -> [u8; 16] {
    let mut bytes = [0; 16];
    bytes[4..6].copy_from_slice(&temperature.to_le_bytes());
    bytes[6..8].copy_from_slice(&wind.to_le_bytes());
    bytes[11] = unit;
    bytes
}

/// What "at least" and "below" answer for each of the limits, in their order.
fn answers(channel: u8, record: &[u8]) -> [[Tested; 2]; 3] {
    LIMITS.map(|limit| [0, 1].map(|sense| test_signal(&signal(channel, sense, limit), 0, record).expect("is tested")))
}

/// A temperature of 32767 is no reading; 32766, -1 and -32768 are readings.
#[test]
fn temperatures() {
    for (temperature, wanted) in [
        (32766, [[No, Yes], [Yes, No], [Yes, No]]),
        (32767, [[Blind, Blind], [Blind, Blind], [Blind, Blind]]),
        (-1, [[No, Yes], [Yes, No], [No, Yes]]),
        (-32768, [[No, Yes], [Yes, No], [No, Yes]]),
    ] {
        for (wind, unit) in [(0, KILOMETRES), (65535, KILOMETRES), (65535, METRES)] {
            assert_eq!(answers(AIR, &fields(temperature as i16 as u16, wind, unit)), wanted);
        }
    }
}

/// A wind of 65535 is no reading in both units. 65534 tenths of km/h are less than 32767 tenths of m/s, which are
/// 117,961.2 tenths of km/h; 65534 tenths of m/s are more.
#[test]
fn winds() {
    for (wind, unit, wanted) in [
        (65534, KILOMETRES, [[No, Yes], [Yes, No], [Yes, No]]),
        (65534, METRES, [[Yes, No], [Yes, No], [Yes, No]]),
        (65535, KILOMETRES, [[Blind, Blind], [Blind, Blind], [Blind, Blind]]),
        (65535, METRES, [[Blind, Blind], [Blind, Blind], [Blind, Blind]]),
        (32767, KILOMETRES, [[No, Yes], [Yes, No], [Yes, No]]),
        (32767, METRES, [[Yes, No], [Yes, No], [Yes, No]]),
        (0, KILOMETRES, [[No, Yes], [Yes, No], [Yes, No]]),
        (0, METRES, [[No, Yes], [Yes, No], [Yes, No]]),
    ] {
        for temperature in [0, 32767, 65535] {
            assert_eq!(answers(WIND, &fields(temperature, wind, unit)), wanted);
        }
    }
}

/// Vents and rain are read in every record: here they are 0.
#[test]
fn vents_and_rain() {
    for channel in 3..=5 {
        for (temperature, wind) in [(32767, 65535), (0, 0)] {
            let wanted = [[No, Yes], [Yes, No], [Yes, No]];
            assert_eq!(answers(channel, &fields(temperature, wind, METRES)), wanted);
        }
    }
}

/// A record without readings is accepted, and neither sense holds in it, at limits that every reading meets.
#[test]
fn fed_without_a_reading() {
    let rule = [3, 0, 0, 0, 0, 0, 0, 0];
    for unit in [KILOMETRES, METRES] {
        let blind = fields(32767, 65535, unit);
        for list in [
            signal(AIR, 0, -32768),
            signal(AIR, 1, 32767),
            signal(WIND, 0, -32768),
            signal(WIND, 1, 32767),
        ] {
            let mut watcher = Watcher::start(&rule, &list).expect("the rule is accepted");
            assert_eq!(watcher.feed(&blind), Ok(Word::Pending));
            assert_eq!(watcher.ask(), Ok(Verdict::Broken));
            assert_eq!(watcher.feed(&fields(0, 0, unit)), Ok(Word::Broken));
            let read = run(&rule, &list, &fields(0, 0, unit)).expect("the rule is accepted");
            assert_eq!(read.end, Ok(Verdict::Kept));
        }
    }
}

/// A wrong list is refused before a wrong record, and that before a number that the list lacks.
#[test]
fn refused_in_order() {
    let fine = opened(1);
    assert_eq!(test_signal(&VENTS, 0, &fine), Ok(Tested::Holds));
    assert_eq!(test_signal(&VENTS, 1, &fine), Ok(Tested::DoesNotHold));
    for number in [0, 1, 2, usize::MAX] {
        for wrong in [
            &[][..],
            &VENTS[..15],
            &[3; 16],
            &[6, 0, 0, 0, 0, 0, 0, 0],
            &[1, 0, 0, 0, 0, 0, 0, 0].repeat(17),
        ] {
            assert_eq!(test_signal(wrong, number, &fine), Err(Refusal::SignalList));
            assert_eq!(test_signal(wrong, number, &fine[..15]), Err(Refusal::SignalList));
        }
        for wrong in [&[][..], &fine[..15], &[0; 17], &opened(101)] {
            assert_eq!(test_signal(&VENTS, number, wrong), Err(Refusal::LogRecord));
        }
    }
    for number in [2, 15, 16, 1 << 32, 1 << 61, usize::MAX] {
        assert_eq!(test_signal(&VENTS, number, &fine), Err(Refusal::SignalMissing));
    }
}

/// All sixteen signals of a full list are tested, and no more.
#[test]
fn full_list() {
    let list = signal(3, 0, 1).repeat(16);
    for number in 0..16 {
        assert_eq!(test_signal(&list, number, &opened(1)), Ok(Tested::Holds));
    }
    assert_eq!(test_signal(&list, 16, &opened(1)), Err(Refusal::SignalMissing));
}

/// The codes, and how an answer is shown.
#[test]
fn codes() {
    let list = [signal(AIR, 0, 0), signal(AIR, 1, 0)].concat();
    assert_eq!(
        [0, 1].map(|number| raw::test(&list, number, &fields(0, 0, 0))),
        [111, 112]
    );
    assert_eq!(
        [0, 1].map(|number| raw::test(&list, number, &fields(32767, 0, 0))),
        [113, 113]
    );
    assert_eq!(
        [Yes, No, Blind].map(|answer| answer.to_string()),
        ["holds", "does not hold", "no reading"]
    );
}
