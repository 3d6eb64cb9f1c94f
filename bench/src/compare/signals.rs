//! Tests of single signals: each signal of a case's list in each of its records, and what is refused of a test.

use crate::case::{hex, Call, Case};
use crate::check::same;
use crate::codes::*;
use crate::counts::{Counts, Mark};
use crate::lists::*;
use crate::plain;
use crate::readings::{in_kilometres, temperature, wind};
use hunchcold::raw;

/// Numbers past every list, some so large that eight times them is no number of 64 bits.
const FAR: [usize; 5] = [16, 256, 1 << 32, 1 << 61, usize::MAX];

/// Every signal of the list in every record, numbers past the list, and both without their last byte.
pub fn check(case: &Case, counts: &mut Counts) -> Result<(), String> {
    let list = case.signals.as_slice();
    let records = list.len() / LIST_RECORD;
    let short_list = &list[..list.len().saturating_sub(1)];
    for (place, call) in case.calls.iter().enumerate() {
        let Call::Feed(record) = call else { continue };
        let short_record = &record[..record.len().saturating_sub(1)];
        for number in (0..=records).chain([FAR[place % FAR.len()]]) {
            test(list, number, record, counts)?;
        }
        for number in [place % (records + 1), records] {
            test(list, number, short_record, counts)?;
            test(short_list, number, record, counts)?;
            test(short_list, number, short_record, counts)?;
        }
    }
    Ok(())
}

/// One test, by the library and by the plain watcher.
fn test(list: &[u8], number: usize, record: &[u8], counts: &mut Counts) -> Result<(), String> {
    let answer = raw::test(list, number, record);
    let wanted = plain::test(list, number, record);
    if answer != wanted {
        let call = format!("test of signal {number} of {} in {}", hex(list), hex(record));
        return same(&call, "answer", answer, wanted);
    }
    counts.test.add(answer as u64);
    match answer {
        5 if wrong_log_record(record) => counts.mark(Mark::ListBeforeRecord),
        8 if number >= list.len() / LIST_RECORD => counts.mark(Mark::RecordBeforeNumber),
        5 | 6 | 8 => {}
        _ => mark(list[LIST_RECORD * number], record, answer, counts),
    }
    Ok(())
}

/// Which field has no reading, or nearly none.
fn mark(channel: u8, record: &[u8], answer: u8, counts: &mut Counts) {
    match (channel, answer == NO_READING) {
        (1, true) => counts.mark(Mark::NoAir),
        (_, true) if in_kilometres(record) => counts.mark(Mark::NoWindInKilometres),
        (_, true) => counts.mark(Mark::NoWindInMetres),
        (1, false) if temperature(record) == 32766 => counts.mark(Mark::NearBrokenWire),
        (1, false) if temperature(record) == -1 => counts.mark(Mark::AirOfSilentHead),
        (2, false) if wind(record) == 65534 => counts.mark(Mark::NearSilentHead),
        (2, false) if wind(record) == 32767 => counts.mark(Mark::WindOfBrokenWire),
        _ => {}
    }
}
