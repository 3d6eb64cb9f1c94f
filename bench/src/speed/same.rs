//! Whether the sides do the same: codes, states and areas, after each call on what is measured, and on logs by
//! chance.

use crate::cases::{by_chance, silent, Case};
use crate::side::{Call, Side, Watched, SIDES};

/// What differs after a call, if anything.
fn differs(proved: &(u8, Watched), other: &(u8, Watched)) -> Result<(), String> {
    if proved.0 != other.0 {
        return Err(format!("code {} and not {}", other.0, proved.0));
    }
    if proved.1.state != other.1.state {
        return Err("the state".to_string());
    }
    if let Some(word) = (0..1664).find(|i| proved.1.area[*i] != other.1.area[*i]) {
        return Err(format!("word {word} of the area"));
    }
    if proved.1.codes != other.1.codes {
        return Err("the codes of the log".to_string());
    }
    Ok(())
}

/// Makes a call on every side; the code and the watcher afterwards, or what differs from the proved library.
fn each(what: &str, from: &Watched, call: impl Fn(&Side, &mut Watched) -> u8) -> Result<(u8, Watched), String> {
    let [proved, others @ ..] = SIDES.map(|side| {
        let mut watched = from.clone();
        let code = call(&side, &mut watched);
        (code, watched)
    });
    for (side, other) in SIDES[1..].iter().zip(&others) {
        differs(&proved, other).map_err(|what_differs| format!("{what}, {} differs: {what_differs}", side.name))?;
    }
    Ok(proved)
}

/// Whether the code is that of a word or a verdict; nothing refused is measured.
fn accepted(what: &str, code: u8) -> Result<(), String> {
    if code > 100 {
        return Ok(());
    }
    Err(format!("{what}: refused with {code}"))
}

/// Asks on every side: nothing may change. The answer.
fn ask(what: &str, watched: &Watched) -> Result<u8, String> {
    let (code, after) = each(what, watched, |side, watched| watched.ask(side))?;
    if after != *watched {
        return Err(format!("{what}: state or area changes"));
    }
    Ok(code)
}

/// Feeds each record on every side, and after each asks, and closes a copy, which must answer the same; the scratch
/// holds something before every call.
fn follow(what: &str, from: &Watched, log: &[u8]) -> Result<(), String> {
    let mut watched = from.clone();
    for (i, record) in log.chunks(16).enumerate() {
        let what = format!("{what}, record {}", i + 1);
        watched.area[832..].fill(0xDEAD_BEEF);
        let (code, mut next) = each(&what, &watched, |side, watched| watched.feed(side, record))?;
        accepted(&what, code)?;
        next.area[832..].fill(0xDEAD_BEEF);
        let asked = ask(&format!("{what}, ask"), &next)?;
        let (code, _) = each(&format!("{what}, close"), &next, |side, watched| watched.close(side))?;
        accepted(&what, code)?;
        if code != asked {
            return Err(format!("{what}: ask answers {asked}, close {code}"));
        }
        watched = next;
    }
    Ok(())
}

/// What differs in a case, if anything.
pub fn same(case: &Case) -> Result<(), String> {
    let label = case.label;
    let blank = Watched::blank(case.log.len() / 16);
    let (code, started) = each(&format!("{label}, start"), &blank, |side, watched| {
        watched.start(side, &case.rule)
    })?;
    if code != 0 {
        return Err(format!("{label}: start refused with {code}"));
    }
    follow(&format!("{label}, whole log"), &started, &case.log)?;
    follow(&format!("{label}, measured"), &case.begin, case.later())?;
    for seed in 0..10 {
        let log = by_chance(seed, 1 + seed as u32 % 3);
        let what = format!("{label}, log by chance {seed}");
        follow(&what, &started, &log.concat())?;
        follow(
            &format!("{what}, wind silent at times"),
            &started,
            &silent(log).concat(),
        )?;
    }
    let what = format!("{label}, {}", Call::Run.name());
    let (code, _) = each(&what, &blank, |side, watched| watched.run(side, &case.rule, &case.log))?;
    accepted(&what, code)
}
