//! What a watcher says: the word of a record and the verdict of a log.

use crate::Refusal;
use std::fmt;

/// What is known of the rule after a record. Kept and broken are never taken back.
#[derive(Clone, Copy, Debug, PartialEq, Eq, Hash)]
pub enum Word {
    /// The rule holds, however the log goes on or ends.
    Kept,
    /// The rule fails, however the log goes on or ends.
    Broken,
    /// Not yet decided.
    Pending,
}

/// The value that the rule has at the first record of a log that ends: one that is closed, or asked how it would end.
#[derive(Clone, Copy, Debug, PartialEq, Eq, Hash)]
pub enum Verdict {
    /// The rule holds.
    Kept,
    /// The rule fails.
    Broken,
}

impl Word {
    /// The word that a code stands for, or the refusal.
    pub(crate) fn of_code(code: u8) -> Result<Word, Refusal> {
        match code {
            101 => Ok(Word::Kept),
            102 => Ok(Word::Broken),
            103 => Ok(Word::Pending),
            _ => Err(Refusal::of_code(code)),
        }
    }
}

impl Verdict {
    /// The verdict that a code stands for, or the refusal.
    pub(crate) fn of_code(code: u8) -> Result<Verdict, Refusal> {
        match code {
            101 => Ok(Verdict::Kept),
            102 => Ok(Verdict::Broken),
            _ => Err(Refusal::of_code(code)),
        }
    }
}

impl fmt::Display for Word {
    fn fmt(&self, out: &mut fmt::Formatter<'_>) -> fmt::Result {
        out.write_str(match self {
            Word::Kept => "kept",
            Word::Broken => "broken",
            Word::Pending => "pending",
        })
    }
}

impl fmt::Display for Verdict {
    fn fmt(&self, out: &mut fmt::Formatter<'_>) -> fmt::Result {
        out.write_str(match self {
            Verdict::Kept => "kept",
            Verdict::Broken => "broken",
        })
    }
}
