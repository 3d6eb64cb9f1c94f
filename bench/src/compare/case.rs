//! A case: what is lent or handed in, and the calls in their order.

use crate::chance::Chance;
use crate::faults;
use crate::rules;
use crate::state::*;
use std::fmt;

#[derive(Clone, PartialEq)]
pub enum Call {
    Feed(Vec<u8>),
    Close,
}

#[derive(Clone, PartialEq)]
pub struct Case {
    /// Its place in `faults::KINDS`.
    pub kind: usize,
    pub rule: Vec<u8>,
    pub signals: Vec<u8>,
    /// As lent at start, or as handed in.
    pub state: Vec<u8>,
    pub area: Vec<u64>,
    /// State and area are handed in as they are; there is no start and no run.
    pub handed_in: bool,
    pub calls: Vec<Call>,
    /// How many codes more than pieces of the log are lent to the run.
    pub extra_codes: isize,
}

/// The case that a seed and a number fix.
pub fn by_chance(seed: u64, number: u64) -> Case {
    let chance = &mut Chance::new(seed, number);
    let mut case = well_formed(chance);
    faults::put(&mut case, chance);
    case
}

fn well_formed(chance: &mut Chance) -> Case {
    let signals = 1 + if chance.percent(80) {
        chance.below(4)
    } else {
        chance.below(16)
    };
    let records = chance.below(5) + chance.below(6);
    let mut calls: Vec<Call> = rules::log(chance, records).into_iter().map(Call::Feed).collect();
    calls.push(Call::Close);
    Case {
        kind: 0,
        rule: rules::rule(chance, signals),
        signals: rules::signal_list(chance, signals),
        state: (0..STATE_BYTES).map(|_| chance.next() as u8).collect(),
        area: (0..AREA_WORDS).map(|_| chance.next()).collect(),
        handed_in: false,
        calls,
        extra_codes: 0,
    }
}

impl Case {
    /// The log of the run: the records that are fed, one after the other.
    pub fn log(&self) -> Vec<u8> {
        let records = self.calls.iter().filter_map(|call| match call {
            Call::Feed(record) => Some(record.as_slice()),
            Call::Close => None,
        });
        records.collect::<Vec<_>>().concat()
    }
}

pub fn hex(bytes: &[u8]) -> String {
    bytes.iter().map(|byte| format!("{byte:02x}")).collect()
}

impl fmt::Display for Case {
    fn fmt(&self, out: &mut fmt::Formatter) -> fmt::Result {
        writeln!(out, "  kind     {}", faults::KINDS[self.kind].0)?;
        writeln!(
            out,
            "  begins   {}",
            if self.handed_in {
                "with state and area handed in"
            } else {
                "with start"
            }
        )?;
        writeln!(out, "  rule     {}", hex(&self.rule))?;
        writeln!(out, "  signals  {}", hex(&self.signals))?;
        writeln!(out, "  state    {} bytes: {}", self.state.len(), hex(&self.state))?;
        write!(out, "  area     {} words, not zero (place:word):", self.area.len())?;
        for (place, word) in self.area.iter().enumerate().filter(|(_, word)| **word != 0) {
            write!(out, " {place}:{word:x}")?;
        }
        writeln!(out)?;
        for call in &self.calls {
            match call {
                Call::Feed(record) => writeln!(out, "  feed     {}", hex(record))?,
                Call::Close => writeln!(out, "  close")?,
            }
        }
        writeln!(out, "  codes    {} more than pieces of the log", self.extra_codes)
    }
}
