//! The rules, logs and handed-in states that are measured.

use crate::side::{Call, Watched, PROVED};

/// A rule, a log, and a watcher as it stands after the log's first record, or as it is handed in.
pub struct Case {
    pub parameters: usize,
    pub label: &'static str,
    pub rule: Vec<u8>,
    pub log: Vec<u8>,
    pub begin: Watched,
    pub handed: bool,
}

impl Case {
    /// The records whose feeds are measured: all but the first.
    pub fn later(&self) -> &[u8] {
        &self.log[16..]
    }

    /// Whether the call says something here: a start and a whole log know nothing of what is handed in.
    pub fn has(&self, call: Call) -> bool {
        !self.handed || matches!(call, Call::Feed | Call::Ask | Call::Close)
    }
}

/// Wind at least 12 m/s, lee vent at least 1, rain.
pub const SIGNALS: [u8; 24] = [2, 0, 120, 0, 0, 0, 0, 0, 3, 0, 1, 0, 0, 0, 0, 0, 5, 0, 1, 0, 0, 0, 0, 0];

const TRUE: [u8; 8] = record(1, 0, 0, 0, 0);
const FALSE: [u8; 8] = record(2, 0, 0, 0, 0);

const fn record(kind: u8, left: u8, right: u8, low: u8, high: u8) -> [u8; 8] {
    [kind, left, right, 0, low, high, 0, 0]
}

const fn signal(n: u8) -> [u8; 8] {
    record(3, n, 0, 0, 0)
}

const fn next(left: u8, low: u8, high: u8) -> [u8; 8] {
    record(6, left, 0, low, high)
}

const fn until(left: u8, right: u8, low: u8, high: u8) -> [u8; 8] {
    record(7, left, right, low, high)
}

const fn previous(left: u8, low: u8, high: u8) -> [u8; 8] {
    record(8, left, 0, low, high)
}

const fn since(left: u8, right: u8, low: u8, high: u8) -> [u8; 8] {
    record(9, left, right, low, high)
}

fn log_record(time: u32, wind: u16, unit: u8, lee: u8, rain: u8) -> [u8; 16] {
    let t = time.to_le_bytes();
    let w = wind.to_le_bytes();
    [t[0], t[1], t[2], t[3], 0, 0, w[0], w[1], lee, 0, rain, unit, 0, 0, 0, 0]
}

/// Numbers by chance, the same in every run.
struct Dice(u64);

impl Dice {
    fn below(&mut self, n: u64) -> u64 {
        self.0 = self.0.wrapping_add(0x9E37_79B9_7F4A_7C15);
        let mut z = self.0;
        z = (z ^ (z >> 30)).wrapping_mul(0xBF58_476D_1CE4_E5B9);
        z = (z ^ (z >> 27)).wrapping_mul(0x94D0_49BB_1331_11EB);
        (z ^ (z >> 31)) % n
    }
}

/// 51 records: mostly `minutes` apart, with doubles and gaps; wind about the limit, lee vent and rain in spells.
pub fn by_chance(seed: u64, minutes: u32) -> Vec<[u8; 16]> {
    let gaps = [1, 1, 2, 1, 0, 1, 5, 1, 1, 3];
    let mut dice = Dice(seed);
    let (mut time, mut wind, mut lee, mut rain) = (100, 126, 0, 0);
    let mut log = vec![];
    for i in 0..51 {
        wind = (wind + dice.below(7) as i64 - 3).clamp(110, 135);
        if dice.below(5) == 0 {
            lee = 30 - lee;
        }
        if dice.below(6) == 0 {
            rain = 1 - rain;
        }
        let unit = (i / 10 % 2) as u8;
        let shown = if unit == 0 { wind * 18 / 5 } else { wind };
        log.push(log_record(time, shown as u16, unit, lee, rain));
        time += minutes * gaps[i % 10];
    }
    log
}

/// A log with no reading of the wind in every fourth record.
pub fn silent(mut log: Vec<[u8; 16]>) -> Vec<[u8; 16]> {
    log.iter_mut().step_by(4).for_each(|record| record[6..8].fill(255));
    log
}

/// 51 records, a minute apart: signal 0 holds and the others do not, so that an until over them stays open.
fn open() -> Vec<[u8; 16]> {
    (0..51).map(|time| log_record(time, 130, 1, 0, 0)).collect()
}

/// A rule on a log: started, and its first record fed.
fn logged(parameters: usize, label: &'static str, rule: &[[u8; 8]], log: &[[u8; 16]]) -> Case {
    let rule = rule.concat();
    let mut begin = Watched::blank(log.len());
    begin.start(PROVED, &rule);
    begin.feed(PROVED, &log[0]);
    Case {
        parameters,
        label,
        rule,
        log: log.concat(),
        begin,
        handed: false,
    }
}

/// The same with rows handed in that have every term there is: the remainder, and the past rows from `from` on, which
/// look back over `from` shifts of an until. One record at the same time is fed to it.
fn handed(label: &'static str, rule: &[[u8; 8]], from: usize) -> Case {
    let record = log_record(100, 130, 1, 0, 0);
    let mut case = logged(12, label, rule, &[record, record]);
    case.handed = true;
    for place in from..12 {
        fill(&mut case.begin.area[64 * place..64 * place + 64], from);
    }
    fill(&mut case.begin.area[768..832], 12);
    case
}

/// Every term over the first parameters.
fn fill(row: &mut [u64], parameters: usize) {
    for k in 0..1 << parameters {
        row[k / 64] |= 1 << (k % 64);
    }
}

pub fn cases() -> Vec<Case> {
    let mixed = [
        signal(0),
        signal(1),
        signal(2),
        since(0, 1, 0, 2),
        previous(3, 0, 255),
        until(4, 2, 0, 2),
        next(5, 0, 10),
        previous(6, 0, 255),
        record(5, 5, 7, 0, 0),
    ];
    let natural = by_chance(7, 1);
    let a = signal(0);
    let b = signal(1);
    let over = [TRUE, a, b, until(1, 2, 0, 7), since(0, 3, 0, 255), since(4, 4, 0, 255)];
    vec![
        logged(2, "next 0 to 5", &[a, next(0, 0, 5)], &natural),
        logged(5, "rule A: until 0 to 2", &[a, b, until(0, 1, 0, 2)], &natural),
        logged(9, "until 0 to 6", &[a, b, until(0, 1, 0, 6)], &natural),
        logged(12, "until 0 to 9", &[a, b, until(0, 1, 0, 9)], &natural),
        logged(12, "since, previous, until, next", &mixed, &natural),
        logged(12, "since of since over until 0 to 7, kept open", &over, &open()),
        handed("until 0 to 9, remainder dense", &[a, b, until(0, 1, 0, 9)], 12),
        handed(
            "since over until 0 to 10, all dense",
            &[TRUE, FALSE, until(0, 1, 0, 10), since(0, 1, 0, 0)],
            11,
        ),
        handed(
            "since of since over until 0 to 9, all dense",
            &[TRUE, FALSE, until(0, 1, 0, 9), since(0, 1, 0, 0), since(3, 3, 0, 0)],
            10,
        ),
    ]
}
