//! What document 01's meaning says of the answers of a run, without any rewriting.

use crate::case::Case;
use crate::codes::*;
use crate::counts::{Counts, Mark};
use crate::ends::{ending, record_refusal};
use crate::lists::*;
use crate::meaning::{horizon, value};
use crate::readings::{in_kilometres, moment_of};

/// The accepted records and their words, and the verdict, of a run that was started.
struct Run {
    rule: Vec<RuleRecord>,
    log: Vec<Moment>,
    words: Vec<u8>,
    verdict: u8,
}

/// The codes of a started run, its verdict or refusal, against the meaning.
pub fn check(case: &Case, codes: &[u8], verdict: u8, counts: &mut Counts) -> Result<(), String> {
    let mut run = Run {
        rule: rule_of(&case.rule),
        log: Vec::new(),
        words: Vec::new(),
        verdict,
    };
    for (place, (record, code)) in case.log().chunks(LOG_RECORD).zip(codes).enumerate() {
        let last = run.log.last().map(|last| last.time);
        let refusal = record_refusal(record, &run.log);
        if (refusal == 0) != [KEPT, BROKEN, PENDING].contains(code) || refusal != 0 && *code != refusal {
            return Err(format!(
                "meaning: record {place} has code {code}, its refusal is {refusal}"
            ));
        }
        if refusal == 0 {
            run.log.push(moment_of(&case.signals, record));
            run.words.push(*code);
            let unit = if in_kilometres(record) {
                Mark::KilometresAnHour
            } else {
                Mark::MetresASecond
            };
            counts.mark(unit);
            if last == Some(time_of(record)) {
                counts.mark(Mark::EqualTimes);
            }
        }
    }
    run.words_claim(counts)?;
    run.past_horizon(counts)?;
    run.closing()
}

impl Run {
    /// A word that is kept or broken is the value of the log cut here or at any later record, and stays the word.
    fn words_claim(&self, counts: &mut Counts) -> Result<(), String> {
        let values: Vec<bool> = (1..=self.log.len())
            .map(|length| value(&self.rule, &self.log[..length]))
            .collect();
        let Some(decided) = self.words.iter().position(|word| *word != PENDING) else {
            return Ok(());
        };
        counts.mark(Mark::DecidedEarly);
        let word = self.words[decided];
        for place in decided..self.log.len() {
            counts.mark(Mark::CutCompared);
            if self.words[place] != word || values[place] != (word == KEPT) {
                let found = (self.words[place], values[place]);
                return Err(format!(
                    "meaning: word {word} at {decided}, but (word, value) {found:?} at {place}"
                ));
            }
        }
        Ok(())
    }

    fn past_horizon(&self, counts: &mut Counts) -> Result<(), String> {
        let Some(horizon) = horizon(&self.rule) else {
            return Ok(());
        };
        for (place, (moment, word)) in self.log.iter().zip(&self.words).enumerate() {
            if moment.time - self.log[0].time > horizon {
                counts.mark(Mark::PastHorizon);
                if *word == PENDING {
                    return Err(format!("meaning: pending at {place}, past the horizon of {horizon}"));
                }
            }
        }
        Ok(())
    }

    fn closing(&self) -> Result<(), String> {
        let wanted = ending(&self.rule, &self.log);
        if self.verdict != wanted {
            return Err(format!(
                "meaning: closing answers {}, its value is {wanted}",
                self.verdict
            ));
        }
        Ok(())
    }
}
