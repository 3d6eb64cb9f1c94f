//! One case run through the library and through the plain watcher, compared after every call.

use crate::broken;
use crate::case::{Call, Case};
use crate::claims;
use crate::counts::{Counts, Mark};
use crate::ends::SoFar;
use crate::lists::{self, *};
use crate::plain;
use crate::signals;
use crate::state::*;
use hunchcold::raw;

/// What a code holds that nothing was written to.
const UNWRITTEN: u8 = 222;

/// The first difference of a case, if there is one.
pub fn check(case: &Case, counts: &mut Counts) -> Result<(), String> {
    counts.kinds.add(case.kind as u64);
    if !case.handed_in {
        run(case, counts)?;
    }
    signals::check(case, counts)?;
    calls(case, counts)
}

fn run(case: &Case, counts: &mut Counts) -> Result<(), String> {
    let log = case.log();
    let pieces = log.len().div_ceil(LOG_RECORD);
    let mut codes = vec![UNWRITTEN; pieces.saturating_add_signed(case.extra_codes)];
    let mut area = case.area.clone();
    let (mut wanted_codes, mut wanted_area) = (codes.clone(), area.clone());
    let answer = raw::run(&case.rule, &case.signals, &log, &mut area, &mut codes);
    let wanted = plain::run(&case.rule, &case.signals, &log, &mut wanted_area, &mut wanted_codes);
    if codes.len() == pieces && area.len() == AREA_WORDS && lists::refusal(&case.rule, &case.signals) == 0 {
        claims::check(case, &codes, answer, counts)?;
        codes.iter().for_each(|code| counts.codes.add(*code as u64));
        count_rule(&case.rule, counts);
    }
    same("run", "answer", answer, wanted)?;
    same_list("run", "code", &codes, &wanted_codes)?;
    same_list("run", "word of the area", &area, &wanted_area)?;
    counts.run.add(answer as u64);
    counts.compared += 1;
    Ok(())
}

fn count_rule(rule: &[u8], counts: &mut Counts) {
    let rule = rule_of(rule);
    counts
        .parameters
        .add(rule.iter().map(RuleRecord::parameters).sum::<usize>() as u64);
    for record in rule {
        counts.records.add(record.kind as u64);
        if record.kind >= NEXT && record.high.is_none() {
            counts.mark(Mark::NoUpperEnd);
        }
    }
}

fn calls(case: &Case, counts: &mut Counts) -> Result<(), String> {
    let mut pair = Pair::new(case);
    if !case.handed_in {
        pair.start(case, counts)?;
    }
    pair.ask("at first", counts)?;
    pair.horizon("at first", counts)?;
    for (place, call) in case.calls.iter().enumerate() {
        match call {
            Call::Feed(record) => pair.feed(place, record, case.handed_in, counts)?,
            Call::Close => pair.close(place, case.handed_in, counts)?,
        }
        let when = format!("after call {place}");
        pair.ask(&when, counts)?;
        pair.horizon(&when, counts)?;
    }
    Ok(())
}

/// State and area as the library leaves them, and as the plain watcher does; the log, if it began with an accepted
/// start, and what the last ask answered.
struct Pair {
    state: Vec<u8>,
    area: Vec<u64>,
    wanted_state: Vec<u8>,
    wanted_area: Vec<u64>,
    so_far: Option<SoFar>,
    asked: u8,
}

impl Pair {
    fn new(case: &Case) -> Pair {
        let (state, area) = (case.state.clone(), case.area.clone());
        Pair {
            wanted_state: state.clone(),
            wanted_area: area.clone(),
            state,
            area,
            so_far: None,
            asked: 0,
        }
    }

    /// The answer, every byte of the state and every word of the area after a call.
    fn compare(&self, call: &str, answer: u8, wanted: u8, counts: &mut Counts) -> Result<(), String> {
        counts.compared += 1;
        same(call, "answer", answer, wanted)?;
        same_list(call, "byte of the state", &self.state, &self.wanted_state)?;
        same_list(call, "word of the area", &self.area, &self.wanted_area)
    }

    fn start(&mut self, case: &Case, counts: &mut Counts) -> Result<(), String> {
        let answer = raw::start(&case.rule, &case.signals, &mut self.state, &mut self.area);
        let wanted = plain::start(&case.rule, &case.signals, &mut self.wanted_state, &mut self.wanted_area);
        self.compare("start", answer, wanted, counts)?;
        self.so_far = (wanted == 0).then(|| SoFar::new(&case.rule, &case.signals));
        counts.start.add(answer as u64);
        Ok(())
    }

    fn feed(&mut self, place: usize, record: &[u8], handed_in: bool, counts: &mut Counts) -> Result<(), String> {
        let would = raw::would_refuse(&self.state, record, &self.area);
        let wanted = plain::would_refuse(&self.wanted_state, record, &self.wanted_area);
        self.compare(&format!("call {place}, would_refuse"), would, wanted, counts)?;
        counts.would_refuse.add(would as u64);
        self.count_reason(wanted, counts);
        let answer = raw::feed(&mut self.state, record, &mut self.area);
        let wanted = plain::feed(&mut self.wanted_state, record, &mut self.wanted_area);
        self.compare(&format!("call {place}, feed"), answer, wanted, counts)?;
        if (would == 0) != (answer > 100) || would != 0 && would != answer {
            return Err(format!("call {place}: would_refuse answers {would}, feed {answer}"));
        }
        if let Some(so_far) = &mut self.so_far {
            so_far.feed(record);
        }
        counts.feed.add(answer as u64);
        if handed_in && would == 0 {
            counts.mark(Mark::HandedInAndFed);
        }
        Ok(())
    }

    /// Asks how the log would end now. Nothing may change, and the answer is the value of the records accepted so far.
    fn ask(&mut self, when: &str, counts: &mut Counts) -> Result<(), String> {
        let answer = raw::ask(&self.state, &self.area);
        let wanted = plain::ask(&self.wanted_state, &self.wanted_area);
        self.compare(&format!("ask {when}"), answer, wanted, counts)?;
        if let Some(so_far) = &self.so_far {
            same(&format!("ask {when}"), "answer, by the meaning,", answer, so_far.ask())?;
            counts.mark(Mark::AskedAndValued);
        }
        if answer > 100 && self.area[SCRATCH..].iter().any(|word| *word != 0) {
            counts.mark(Mark::AskedOverScratch);
        }
        self.count_reason(wanted, counts);
        counts.ask.add(answer as u64);
        self.asked = answer;
        Ok(())
    }

    /// Closes; the answer is that of the ask before.
    fn close(&mut self, place: usize, handed_in: bool, counts: &mut Counts) -> Result<(), String> {
        let answer = raw::close(&mut self.state, &mut self.area);
        let wanted = plain::close(&mut self.wanted_state, &mut self.wanted_area);
        self.compare(&format!("call {place}, close"), answer, wanted, counts)?;
        if answer != self.asked {
            return Err(format!("call {place}: ask answers {}, close {answer}", self.asked));
        }
        if let Some(so_far) = &mut self.so_far {
            so_far.close();
        }
        self.count_reason(wanted, counts);
        counts.close.add(answer as u64);
        if handed_in && answer > 100 {
            counts.mark(Mark::HandedInAndClosed);
        }
        Ok(())
    }

    fn count_reason(&self, refusal: u8, counts: &mut Counts) {
        if refusal == 12 {
            let reason = broken::reason(&State::read(&self.wanted_state), &self.wanted_area);
            counts.reasons.add(reason.expect("refused with 12") as u64);
        }
    }

    fn horizon(&self, when: &str, counts: &mut Counts) -> Result<(), String> {
        let (found, wanted) = (raw::horizon(&self.state), plain::horizon(&self.wanted_state));
        same(&format!("horizon {when}"), "answer", found, wanted)?;
        counts.mark(if found == u64::MAX {
            Mark::HorizonNone
        } else {
            Mark::HorizonKnown
        });
        Ok(())
    }
}

pub fn same<T: PartialEq + std::fmt::Display>(call: &str, what: &str, found: T, wanted: T) -> Result<(), String> {
    if found == wanted {
        Ok(())
    } else {
        Err(format!("{call}: {what} is {found}, wanted {wanted}"))
    }
}

fn same_list<T: PartialEq + Copy + std::fmt::LowerHex>(
    call: &str,
    what: &str,
    found: &[T],
    wanted: &[T],
) -> Result<(), String> {
    match (0..found.len()).find(|place| found != wanted && found[*place] != wanted[*place]) {
        Some(place) => Err(format!(
            "{call}: {what} {place} is {:x}, wanted {:x}",
            found[place], wanted[place]
        )),
        None => Ok(()),
    }
}
