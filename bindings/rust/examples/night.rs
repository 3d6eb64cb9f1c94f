//! Watches one log as the watching program does, call by call: night RULE SIGNALS LOG [more]

use hunchcold::{test_signal, Refusal, Tested, Watcher, LIST_RECORD_BYTES, LOG_RECORD_BYTES};
use std::io::{self, Write};
use std::{env, fs};

/// The bytes of the file that an argument names; none where it cannot be opened.
fn bytes_of(argument: Option<String>) -> Vec<u8> {
    argument.and_then(|name| fs::read(name).ok()).unwrap_or_default()
}

/// The time of an accepted record.
fn time_of(record: &[u8]) -> u32 {
    record[..4]
        .iter()
        .rev()
        .fold(0, |time, &byte| 256 * time + u32::from(byte))
}

/// The line of a refusal.
fn refused(refusal: Refusal) -> String {
    format!("refused {}", refusal.number())
}

/// How the log would end now, behind the word of a record.
fn asked(watcher: &Watcher) -> String {
    match watcher.ask() {
        Ok(verdict) => format!(" ask {verdict}"),
        Err(refusal) => format!(" ask {}", refused(refusal)),
    }
}

/// The numbers of the signals that have no reading in an accepted record, if there are some.
fn blind(signals: &[u8], record: &[u8]) -> String {
    let numbers: Vec<String> = (0..signals.len() / LIST_RECORD_BYTES)
        .filter(|&number| test_signal(signals, number, record) == Ok(Tested::NoReading))
        .map(|number| number.to_string())
        .collect();
    match numbers.is_empty() {
        true => String::new(),
        false => format!(" blind {}", numbers.join(",")),
    }
}

/// Starts, feeds each piece of the log and closes, with a line for each answer. With more, asks after each accepted
/// record how the log would end now, as at shift change, tells which signals had no reading, and goes on.
fn watch(rule: &[u8], signals: &[u8], log: &[u8], more: bool, out: &mut impl Write) -> io::Result<()> {
    let mut watcher = match Watcher::start(rule, signals) {
        Ok(watcher) => watcher,
        Err(refusal) => return writeln!(out, "{}", refused(refusal)),
    };
    for piece in log.chunks(LOG_RECORD_BYTES) {
        match watcher.feed(piece) {
            Ok(word) if more => {
                let (asked, blind) = (asked(&watcher), blind(signals, piece));
                writeln!(out, "{} {word}{asked}{blind}", time_of(piece))?
            }
            Ok(word) => writeln!(out, "{} {word}", time_of(piece))?,
            Err(refusal) => writeln!(out, "{}", refused(refusal))?,
        }
    }
    match watcher.close() {
        Ok(verdict) => writeln!(out, "end {verdict}"),
        Err(refusal) => writeln!(out, "end {}", refused(refusal)),
    }
}

fn main() -> io::Result<()> {
    let mut arguments = env::args().skip(1);
    let rule = bytes_of(arguments.next());
    let signals = bytes_of(arguments.next());
    let log = bytes_of(arguments.next());
    let more = arguments.next().as_deref() == Some("more");
    watch(&rule, &signals, &log, more, &mut io::stdout().lock())
}
