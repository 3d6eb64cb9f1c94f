//! Every value of each byte of a record, every low with every high, every length, and every reading and limit.

use crate::case::hex;
use crate::lists::*;
use crate::plain;
use crate::state::*;
use hunchcold::raw;

/// Two signals as a rule, and a list that defines both.
const RULE: [u8; 16] = [SIGNAL, 0, 0, 0, 0, 0, 0, 0, SIGNAL, 1, 0, 0, 0, 0, 0, 0];
const SIGNALS: [u8; 16] = [2, 0, 120, 0, 0, 0, 0, 0, 3, 1, 1, 0, 0, 0, 0, 0];

pub struct Layout {
    state: Vec<u8>,
    area: Vec<u64>,
    wanted_state: Vec<u8>,
    wanted_area: Vec<u64>,
    pub rules: u64,
    pub lists: u64,
    pub records: u64,
    pub readings: u64,
    pub tests: u64,
    /// The first difference, with the bytes that show it.
    pub difference: Option<String>,
}

/// All of it.
pub fn layout() -> Layout {
    let mut layout = Layout {
        state: vec![7; STATE_BYTES],
        area: vec![7; AREA_WORDS],
        wanted_state: vec![7; STATE_BYTES],
        wanted_area: vec![7; AREA_WORDS],
        rules: 0,
        lists: 0,
        records: 0,
        readings: 0,
        tests: 0,
        difference: None,
    };
    layout.rule_bytes();
    layout.intervals();
    layout.list_bytes();
    layout.lengths();
    layout.numbers();
    layout.log_bytes();
    layout.all_readings();
    layout.all_limits();
    layout
}

/// A third rule record of a kind that is accepted as it is.
fn fair(kind: u8) -> [u8; 8] {
    match kind {
        NEXT | PREVIOUS => [kind, 0, 0, 0, 1, 2, 0, 0],
        UNTIL | SINCE => [kind, 0, 1, 0, 1, 2, 0, 0],
        SIGNAL => [kind, 2, 0, 0, 0, 0, 0, 0],
        _ => [kind, 0, 0, 0, 0, 0, 0, 0],
    }
}

impl Layout {
    fn compare(&mut self, answer: u8, wanted: u8, show: impl Fn() -> String) {
        let same = answer == wanted && self.state == self.wanted_state && self.area == self.wanted_area;
        self.note(same, || {
            format!("answers {answer}, wanted {wanted}, or state or area differ; {}", show())
        });
    }

    /// Keeps the first difference.
    fn note(&mut self, same: bool, show: impl Fn() -> String) {
        if !same && self.difference.is_none() {
            self.difference = Some(show());
        }
    }

    fn start(&mut self, rule: &[u8], signals: &[u8]) {
        let answer = raw::start(rule, signals, &mut self.state, &mut self.area);
        let wanted = plain::start(rule, signals, &mut self.wanted_state, &mut self.wanted_area);
        self.compare(answer, wanted, || {
            format!("start, rule {}, signals {}", hex(rule), hex(signals))
        });
    }

    /// Tests a signal of a list in a record.
    fn test(&mut self, signals: &[u8], number: usize, record: &[u8]) {
        self.tests += 1;
        let answer = raw::test(signals, number, record);
        let wanted = plain::test(signals, number, record);
        self.note(answer == wanted, || {
            let (signals, record) = (hex(signals), hex(record));
            format!("answers {answer}, wanted {wanted}; test of {number}, signals {signals}, record {record}")
        });
    }

    fn start_rule(&mut self, rule: &[u8]) {
        self.rules += 1;
        let three: Vec<u8> = [&SIGNALS[..], &[1, 0, 0, 0, 0, 0, 0, 0]].concat();
        self.start(rule, &three);
    }

    fn start_list(&mut self, signals: &[u8]) {
        self.lists += 1;
        self.start(&RULE, signals);
        (0..2).for_each(|number| self.test(signals, number, &record(120, 1)));
    }

    /// Feeds a record to a fresh watcher.
    fn feed_first(&mut self, rule: &[u8], signals: &[u8], record: &[u8]) {
        self.start(rule, signals);
        let answer = raw::feed(&mut self.state, record, &mut self.area);
        let wanted = plain::feed(&mut self.wanted_state, record, &mut self.wanted_area);
        self.compare(answer, wanted, || {
            format!("feed, signals {}, record {}", hex(signals), hex(record))
        });
    }

    /// Every kind, and each byte of a record of each kind.
    fn rule_bytes(&mut self) {
        for kind in 0..=255 {
            for place in 1..LIST_RECORD {
                for byte in 0..=if kind <= 10 { 255 } else { 2 } {
                    let mut record = fair(kind);
                    record[place] = byte;
                    self.start_rule(&[&RULE[..], &record].concat());
                }
            }
        }
    }

    /// Every low with every high.
    fn intervals(&mut self) {
        for kind in [NEXT, UNTIL, PREVIOUS, SINCE] {
            for low in 0..=255 {
                for high in 0..=255 {
                    let mut record = fair(kind);
                    [record[4], record[5]] = [low, high];
                    self.start_rule(&[&RULE[..], &record].concat());
                }
            }
        }
    }

    fn list_bytes(&mut self) {
        for place in 0..SIGNALS.len() {
            for byte in 0..=255 {
                let mut signals = SIGNALS;
                signals[place] = byte;
                self.start_list(&signals);
            }
        }
    }

    /// Lists of every length up to a bit more than they may have, of records that differ.
    fn lengths(&mut self) {
        let record = |place: usize| [SIGNAL, place as u8, 0, 0, 0, 0, 0, 0];
        let rule: Vec<u8> = (0..20).flat_map(record).collect();
        let signals = [1, 0, 0, 0, 0, 0, 0, 0].repeat(20);
        for length in 0..=rule.len() {
            self.start_rule(&rule[..length]);
            self.start_list(&signals[..length]);
            self.rules += 1;
            self.start(&rule[..length], &signals[..LIST_BYTES]);
        }
        for records in [256, 257, 65_536, 65_537] {
            self.start_rule(&rule[..LIST_RECORD].repeat(records));
            self.start_list(&signals[..LIST_RECORD].repeat(records));
        }
    }

    /// Lists of every number of signals, and numbers of signals up to the largest.
    fn numbers(&mut self) {
        let signals = [5, 0, 1, 0, 0, 0, 0, 0].repeat(MOST_RECORDS);
        for length in (0..=signals.len()).step_by(LIST_RECORD) {
            for number in (0..300).chain((9..64).map(|bit| 1 << bit)).chain([usize::MAX]) {
                self.test(&signals[..length], number, &record(1, 0));
                self.test(&signals[..length], number, &[0; 15]);
            }
        }
    }

    fn log_record(&mut self, record: &[u8]) {
        self.records += 1;
        self.feed_first(&RULE, &SIGNALS, record);
        (0..3).for_each(|number| self.test(&SIGNALS, number, record));
    }

    /// Each byte of a log record, and every length.
    fn log_bytes(&mut self) {
        for place in 0..LOG_RECORD {
            for byte in 0..=255 {
                let mut record = [0; LOG_RECORD];
                record[place] = byte;
                self.log_record(&record);
            }
        }
        for length in (0..40).chain([256, 272, 65_536, 65_552]) {
            self.log_record(&vec![0; length]);
        }
    }

    /// A record against a list of 16 signals, whose word the state then holds; then each signal by itself.
    fn reading(&mut self, signals: &[u8], record: &[u8]) {
        self.readings += 1;
        self.feed_first(&RULE, signals, record);
        (0..MOST_RECORDS).for_each(|number| self.test(signals, number, record));
    }

    /// Every temperature and every wind, in each unit, against limits at the ends, in both senses, and about 0 and 120.
    fn all_readings(&mut self) {
        let limits = [
            -32768, -32767, -1, 0, 1, 119, 120, 121, 3640, 3641, 13107, 18204, 18205, 18206, 32766, 32767,
        ];
        for (channel, unit) in [(1, 0), (2, 0), (2, 1)] {
            let signals = signals(channel, &limits);
            let turned = turned(&signals);
            for number in 0..=u16::MAX {
                self.reading(&signals, &record(number, unit));
                self.reading(&turned, &record(number, unit));
            }
        }
    }

    /// Every limit against the readings that just meet it and just do not.
    fn all_limits(&mut self) {
        let limits: Vec<i16> = (i16::MIN..=i16::MAX).collect();
        for part in limits.chunks(MOST_RECORDS) {
            let first = part[0] as i32;
            for number in first - 1..first + MOST_RECORDS as i32 {
                self.reading(&signals(1, part), &record(number as u16, 0));
                if number >= 0 {
                    self.reading(&signals(2, part), &record(number as u16, 1));
                }
            }
            for limit in part.iter().filter(|limit| (0..=18_204).contains(*limit)) {
                let enough = (18 * *limit as u32).div_ceil(5) as u16;
                self.reading(&signals(2, part), &record(enough, 0));
                self.reading(&signals(2, part), &record(enough.saturating_sub(1), 0));
            }
            for opening in (0..=100).filter(|_| (-16..=112).contains(&first)) {
                (3..=5).for_each(|channel| self.reading(&signals(channel, part), &record(opening, 0)));
            }
        }
    }
}

/// Signals of one channel, one for each limit; an odd limit is one to be below of.
fn signals(channel: u8, limits: &[i16]) -> Vec<u8> {
    let signal = |limit: &i16| {
        let [low, high] = limit.to_le_bytes();
        [channel, (limit & 1) as u8, low, high, 0, 0, 0, 0]
    };
    limits.iter().flat_map(signal).collect()
}

/// The same signals in the other sense.
fn turned(signals: &[u8]) -> Vec<u8> {
    let mut turned = signals.to_vec();
    turned
        .iter_mut()
        .skip(1)
        .step_by(LIST_RECORD)
        .for_each(|sense| *sense ^= 1);
    turned
}

/// A record with a number as temperature and wind, and vents and rain as near to it as they go.
fn record(number: u16, unit: u8) -> Vec<u8> {
    let vent = number.min(100) as u8;
    let number = number.to_le_bytes();
    [&[0; 4][..], &number, &number, &[vent, vent, vent.min(1), unit], &[0; 4]].concat()
}
