//! The vent watcher for Rust programs: a safe wrapper over the proved library `port`.
//!
//! A [`Watcher`] reads one rule, a list of signals and a log, record by record, and says of the rule *kept*, *broken*
//! or *pending*. Whatever it is handed gets an answer: a word, a verdict, or a [`Refusal`]. Nothing here panics.
//! [`test_signal`] says of one signal in one record whether it holds, or has no reading there.
//!
//! ```
//! use hunchcold::{Verdict, Watcher, Word};
//!
//! // Signal 0 until signal 1, within 0 to 2 minutes.
//! let rule = [3, 0, 0, 0, 0, 0, 0, 0, 3, 1, 0, 0, 0, 0, 0, 0, 7, 0, 1, 0, 0, 2, 0, 0];
//! // Signal 0: wind at least 12 m/s. Signal 1: lee vent at least 1.
//! let signals = [2, 0, 120, 0, 0, 0, 0, 0, 3, 0, 1, 0, 0, 0, 0, 0];
//! let mut watcher = Watcher::start(&rule, &signals)?;
//!
//! // Minute 0: wind 43.2 km/h, the lee vent shut. Minute 3: wind 43.1 km/h, the lee vent at 5.
//! let first = [0, 0, 0, 0, 0, 0, 176, 1, 0, 0, 0, 0, 0, 0, 0, 0];
//! let second = [3, 0, 0, 0, 0, 0, 175, 1, 5, 0, 0, 0, 0, 0, 0, 0];
//! assert_eq!(watcher.feed(&first)?, Word::Pending);
//! assert_eq!(watcher.feed(&second)?, Word::Broken);
//! assert_eq!(watcher.close()?, Verdict::Broken);
//! # Ok::<(), hunchcold::Refusal>(())
//! ```

#![deny(missing_docs)]
#![deny(unsafe_code)]

#[allow(unsafe_code)]
pub mod raw;
mod refusal;
mod run;
mod tested;
mod watcher;
mod word;

pub use refusal::Refusal;
pub use run::{run, Run};
pub use tested::{test_signal, Tested};
pub use watcher::Watcher;
pub use word::{Verdict, Word};

/// The length of a work area, in words of 64 bits.
pub const AREA_WORDS: usize = 1664;

/// The length of a state, in bytes.
pub const STATE_BYTES: usize = 280;

/// The length of a record of a rule or of a signal list, in bytes.
pub const LIST_RECORD_BYTES: usize = 8;

/// The length of a record of a log, in bytes.
pub const LOG_RECORD_BYTES: usize = 16;
