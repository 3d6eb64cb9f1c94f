//! A whole log at once.

use crate::{raw, Refusal, Verdict, Word, AREA_WORDS, LOG_RECORD_BYTES};

/// What a watcher says of a whole log.
#[derive(Clone, Debug, PartialEq, Eq)]
pub struct Run {
    /// The word or the refusal of each 16 bytes of the log, and of a short last piece.
    pub words: Vec<Result<Word, Refusal>>,
    /// The verdict, or refusal 11 where no record was accepted.
    pub end: Result<Verdict, Refusal>,
}

/// Starts a watcher, feeds it the whole log and closes it.
///
/// ```
/// use hunchcold::{run, Refusal, Verdict, Word};
///
/// let rule = [3, 0, 0, 0, 0, 0, 0, 0];
/// let rain = [5, 0, 1, 0, 0, 0, 0, 0];
/// let wet = [0, 0, 0, 0, 0, 0, 0, 0, 0, 0, 1, 0, 0, 0, 0, 0];
/// let night = run(&rule, &rain, &wet)?;
/// assert_eq!(night.words, [Ok(Word::Pending)]);
/// assert_eq!(night.end, Ok(Verdict::Kept));
/// assert_eq!(run(&rule, &[], &wet), Err(Refusal::SignalList));
/// # Ok::<(), Refusal>(())
/// ```
///
/// # Errors
/// Refusals 1 to 6 of start, tested in that order. A refused record or a closing refused with 11 is no error here: each
/// stands in its place in [`Run`].
pub fn run(rule: &[u8], signals: &[u8], log: &[u8]) -> Result<Run, Refusal> {
    let mut area = vec![0; AREA_WORDS];
    let mut codes = vec![0; log.len().div_ceil(LOG_RECORD_BYTES)];
    let end = Verdict::of_code(raw::run(rule, signals, log, &mut area, &mut codes));
    match end {
        Ok(_) | Err(Refusal::NothingFed) => {}
        Err(refusal) => return Err(refusal),
    }
    let words = codes.into_iter().map(Word::of_code).collect();
    Ok(Run { words, end })
}
