//! The watcher, call by call.

use crate::{raw, Refusal, Verdict, Word, AREA_WORDS, STATE_BYTES};

/// One rule watched over one log, with its state and its work area.
///
/// ```
/// use hunchcold::{Refusal, Watcher, Word};
///
/// // Rain, within 0 to 5 minutes: true until signal 0.
/// let rule = [1, 0, 0, 0, 0, 0, 0, 0, 3, 0, 0, 0, 0, 0, 0, 0, 7, 0, 1, 0, 0, 5, 0, 0];
/// let signals = [5, 0, 1, 0, 0, 0, 0, 0];
/// let mut watcher = Watcher::start(&rule, &signals)?;
/// assert_eq!(watcher.horizon(), Some(5));
///
/// let dry = [7, 0, 0, 0, 0, 0, 0, 0, 0, 0, 0, 0, 0, 0, 0, 0];
/// assert_eq!(watcher.would_refuse(&dry), None);
/// assert_eq!(watcher.feed(&dry)?, Word::Pending);
/// assert_eq!(watcher.feed(&dry[..15]), Err(Refusal::LogRecord));
///
/// // Kept over a power cut, and taken up again.
/// let (state, area) = watcher.into_parts();
/// let mut watcher = Watcher::from_parts(state, area);
/// let late = [13, 0, 0, 0, 0, 0, 0, 0, 0, 0, 0, 0, 0, 0, 0, 0];
/// assert_eq!(watcher.feed(&late)?, Word::Broken);
/// # Ok::<(), Refusal>(())
/// ```
#[derive(Clone, Debug, PartialEq, Eq)]
pub struct Watcher {
    state: Vec<u8>,
    area: Vec<u64>,
}

impl Watcher {
    /// Starts a watcher over a rule and a signal list, each as its bytes.
    ///
    /// # Errors
    /// Refusals 1 to 6, tested in that order.
    pub fn start(rule: &[u8], signals: &[u8]) -> Result<Watcher, Refusal> {
        let mut state = vec![0; STATE_BYTES];
        let mut area = vec![0; AREA_WORDS];
        match raw::start(rule, signals, &mut state, &mut area) {
            0 => Ok(Watcher { state, area }),
            code => Err(Refusal::of_code(code)),
        }
    }

    /// The refusal that feeding this record would answer, if any. Changes nothing.
    pub fn would_refuse(&self, record: &[u8]) -> Option<Refusal> {
        match raw::would_refuse(&self.state, record, &self.area) {
            0 => None,
            code => Some(Refusal::of_code(code)),
        }
    }

    /// Feeds one record of the log. A record's own signals count when the next record comes, or the end.
    ///
    /// # Errors
    /// Refusals 10, 8 and 9, in that order, and before them 91, 7 and 12 where parts were handed in. The watcher is
    /// then as it was.
    pub fn feed(&mut self, record: &[u8]) -> Result<Word, Refusal> {
        Word::of_code(raw::feed(&mut self.state, record, &mut self.area))
    }

    /// How the log would end, were this the last record: what [`Watcher::close`] would answer now. Changes nothing, the
    /// scratch of the work area neither, and the log goes on.
    ///
    /// ```
    /// use hunchcold::{Refusal, Verdict, Watcher, Word};
    ///
    /// // Rain, within 0 to 5 minutes: true until signal 0.
    /// let rule = [1, 0, 0, 0, 0, 0, 0, 0, 3, 0, 0, 0, 0, 0, 0, 0, 7, 0, 1, 0, 0, 5, 0, 0];
    /// let signals = [5, 0, 1, 0, 0, 0, 0, 0];
    /// let mut watcher = Watcher::start(&rule, &signals)?;
    /// assert_eq!(watcher.ask(), Err(Refusal::NothingFed));
    ///
    /// // Dry at minute 7: were that the end, there was no rain. Rain at minute 9: it came in time.
    /// let dry = [7, 0, 0, 0, 0, 0, 0, 0, 0, 0, 0, 0, 0, 0, 0, 0];
    /// let wet = [9, 0, 0, 0, 0, 0, 0, 0, 0, 0, 1, 0, 0, 0, 0, 0];
    /// assert_eq!(watcher.feed(&dry)?, Word::Pending);
    /// assert_eq!(watcher.ask()?, Verdict::Broken);
    /// assert_eq!(watcher.feed(&wet)?, Word::Pending);
    /// assert_eq!(watcher.ask()?, Verdict::Kept);
    /// # Ok::<(), Refusal>(())
    /// ```
    ///
    /// # Errors
    /// Refusals 10 and 11, in that order, and before them 91, 7 and 12 where parts were handed in.
    pub fn ask(&self) -> Result<Verdict, Refusal> {
        Verdict::of_code(raw::ask(&self.state, &self.area))
    }

    /// Closes the log.
    ///
    /// # Errors
    /// Refusals 10 and 11, in that order, and before them 91, 7 and 12 where parts were handed in. The watcher is then
    /// as it was.
    pub fn close(&mut self) -> Result<Verdict, Refusal> {
        Verdict::of_code(raw::close(&mut self.state, &mut self.area))
    }

    /// How many minutes past the first record the rule can stay pending; none where there is no such limit, and where
    /// parts were handed in whose rule or signal list start would refuse.
    pub fn horizon(&self) -> Option<u64> {
        match raw::horizon(&self.state) {
            u64::MAX => None,
            minutes => Some(minutes),
        }
    }

    /// The state and the work area, to be kept.
    pub fn parts(&self) -> (&[u8], &[u64]) {
        (&self.state, &self.area)
    }

    /// The state and the work area, taken out.
    pub fn into_parts(self) -> (Vec<u8>, Vec<u64>) {
        (self.state, self.area)
    }

    /// A watcher with this state and this work area. Any are taken. Each call judges them: 91 and 7 are given by their
    /// lengths, and 12 by their shape, not by where they come from.
    ///
    /// What passes 12 is a rule and a list that start accepts, with zeros behind them, and past rows and a remainder
    /// over the rule's parameters, with zeros in unused rows. By the phase, moreover:
    ///
    /// - fresh: all past rows are zero. The remainder may be another one than the rule's; the first record leaves it,
    ///   so that words and verdict are then not those of the rule.
    /// - running: the signals are ones that the list has, a signal's row is its constant, and that of a next or until
    ///   is itself. The row of a previous or since may be any that names only next and until parameters of earlier rule
    ///   records. Time and remainder may be any.
    /// - closed: nothing more. The verdict may be either, and each call answers 10.
    ///
    /// The scratch is not looked at, nor the bytes of the state that its phase does not use.
    pub fn from_parts(state: Vec<u8>, area: Vec<u64>) -> Watcher {
        Watcher { state, area }
    }
}
