//! A test of one signal in one log record.

use crate::{raw, Refusal};
use std::fmt;

/// What a test of a signal in a log record answers.
///
/// No reading is 32767 in the record's temperature field, as on a broken wire, and 65535 in its wind field, in either
/// unit. Such a record is accepted all the same, and the signals of that field do not hold in it, neither "at least"
/// nor "below". Vents and rain always have a reading. 32767 as wind, 65535 as temperature, which is -1, and either
/// number as a limit are plain numbers.
#[derive(Clone, Copy, Debug, PartialEq, Eq, Hash)]
pub enum Tested {
    /// There is a reading, and it is at least the limit, or below it, as the signal asks.
    Holds,
    /// There is a reading, and it is on the other side of the limit.
    DoesNotHold,
    /// There is no reading.
    NoReading,
}

impl Tested {
    /// The answer that a code stands for, or the refusal.
    fn of_code(code: u8) -> Result<Tested, Refusal> {
        match code {
            111 => Ok(Tested::Holds),
            112 => Ok(Tested::DoesNotHold),
            113 => Ok(Tested::NoReading),
            _ => Err(Refusal::of_code(code)),
        }
    }
}

impl fmt::Display for Tested {
    fn fmt(&self, out: &mut fmt::Formatter<'_>) -> fmt::Result {
        out.write_str(match self {
            Tested::Holds => "holds",
            Tested::DoesNotHold => "does not hold",
            Tested::NoReading => "no reading",
        })
    }
}

/// Tests the signal with a number, counted from 0, of a list in a log record. It needs no watcher.
///
/// ```
/// use hunchcold::{test_signal, Refusal, Tested};
///
/// // Signal 0: air at least 30 degrees. Signal 1: wind below 12 m/s.
/// let signals = [1, 0, 44, 1, 0, 0, 0, 0, 2, 1, 120, 0, 0, 0, 0, 0];
///
/// // The wire of the air probe is broken; the wind is 43.1 km/h, just below 12 m/s.
/// let record = [0, 0, 0, 0, 255, 127, 175, 1, 0, 0, 0, 0, 0, 0, 0, 0];
/// assert_eq!(test_signal(&signals, 0, &record)?, Tested::NoReading);
/// assert_eq!(test_signal(&signals, 1, &record)?, Tested::Holds);
/// assert_eq!(test_signal(&signals, 2, &record), Err(Refusal::SignalMissing));
/// # Ok::<(), Refusal>(())
/// ```
///
/// # Errors
/// Refusals 5, 8 and 6, in that order; 6 is for a number that the list lacks.
pub fn test_signal(signals: &[u8], number: usize, record: &[u8]) -> Result<Tested, Refusal> {
    Tested::of_code(raw::test(signals, number, record))
}
