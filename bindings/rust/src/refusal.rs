//! The refusals, by name and by number.

use std::error::Error;
use std::fmt;

/// Why a call was refused. A refused call changes nothing, but for [`raw::start`](crate::raw::start), which then writes
/// zeros into the state unless by 91, and [`raw::run`](crate::raw::run), which has written area and codes where it
/// answers 11.
#[derive(Clone, Copy, Debug, PartialEq, Eq, Hash)]
pub enum Refusal {
    /// 1: the rule's length is not a multiple of 8, or not 1 to 16 records.
    RuleLength,
    /// 2: a rule record breaks the layout.
    RuleRecord,
    /// 3: two rule records have the same 8 bytes.
    RuleTwins,
    /// 4: the rule has more than 12 parameters.
    RuleParameters,
    /// 5: the signal list has a wrong length or a record that breaks the layout.
    SignalList,
    /// 6: the rule, or a test, names a signal that the list does not define.
    SignalMissing,
    /// 7: the work area is not 1,664 words.
    AreaLength,
    /// 8: the log record is not 16 bytes or breaks the layout.
    LogRecord,
    /// 9: the time is lower than the last accepted record's.
    LogTime,
    /// 10: the watcher is closed.
    AlreadyClosed,
    /// 11: asking or closing with no accepted record.
    NothingFed,
    /// 12: the state or the work area has not the shape of one that a watcher hands back: its rule or signal list is
    /// one that start would refuse, or a past row or the remainder is of a shape that no accepted call leaves there.
    /// [`Watcher::from_parts`](crate::Watcher::from_parts) tells what passes.
    BrokenState,
    /// 90: the list of codes is not one for each 16 bytes of the log and one for a short last piece.
    CodesLength,
    /// 91: the state is not 280 bytes.
    StateLength,
    /// A code that this crate does not know: the library is another one than this crate was written for.
    Unknown(u8),
}

impl Refusal {
    /// The refusal that a code stands for.
    pub(crate) fn of_code(code: u8) -> Refusal {
        match code {
            1 => Refusal::RuleLength,
            2 => Refusal::RuleRecord,
            3 => Refusal::RuleTwins,
            4 => Refusal::RuleParameters,
            5 => Refusal::SignalList,
            6 => Refusal::SignalMissing,
            7 => Refusal::AreaLength,
            8 => Refusal::LogRecord,
            9 => Refusal::LogTime,
            10 => Refusal::AlreadyClosed,
            11 => Refusal::NothingFed,
            12 => Refusal::BrokenState,
            90 => Refusal::CodesLength,
            91 => Refusal::StateLength,
            _ => Refusal::Unknown(code),
        }
    }

    /// The refusal's number, as the programs print it.
    pub fn number(self) -> u8 {
        match self {
            Refusal::RuleLength => 1,
            Refusal::RuleRecord => 2,
            Refusal::RuleTwins => 3,
            Refusal::RuleParameters => 4,
            Refusal::SignalList => 5,
            Refusal::SignalMissing => 6,
            Refusal::AreaLength => 7,
            Refusal::LogRecord => 8,
            Refusal::LogTime => 9,
            Refusal::AlreadyClosed => 10,
            Refusal::NothingFed => 11,
            Refusal::BrokenState => 12,
            Refusal::CodesLength => 90,
            Refusal::StateLength => 91,
            Refusal::Unknown(code) => code,
        }
    }

    /// What is wrong, in words.
    pub fn words(self) -> &'static str {
        match self {
            Refusal::RuleLength => "rule length is not a multiple of 8, or not 1 to 16 records",
            Refusal::RuleRecord => "a rule record breaks the layout",
            Refusal::RuleTwins => "two rule records have the same 8 bytes",
            Refusal::RuleParameters => "more than 12 parameters",
            Refusal::SignalList => "signal list has a wrong length or a record that breaks the layout",
            Refusal::SignalMissing => "the rule or a test names a signal that the list does not define",
            Refusal::AreaLength => "work area is not 1,664 words",
            Refusal::LogRecord => "log record is not 16 bytes or breaks the layout",
            Refusal::LogTime => "time is lower than the last accepted record's",
            Refusal::AlreadyClosed => "the watcher is closed",
            Refusal::NothingFed => "asking or closing with no accepted record",
            Refusal::BrokenState => "state or work area have not the shape of a watcher's",
            Refusal::CodesLength => "codes are not one for each 16 bytes of the log and one for a short last piece",
            Refusal::StateLength => "state is not 280 bytes",
            Refusal::Unknown(_) => "the library's code is not one that this crate knows",
        }
    }
}

impl fmt::Display for Refusal {
    fn fmt(&self, out: &mut fmt::Formatter<'_>) -> fmt::Result {
        write!(out, "refused {}: {}", self.number(), self.words())
    }
}

impl Error for Refusal {}

#[cfg(test)]
mod tests {
    use super::Refusal;

    /// Every number leads to a refusal and back, and just the fourteen numbers have names.
    #[test]
    fn numbers_come_back() {
        let mut named = Vec::new();
        for code in 0..=255 {
            let refusal = Refusal::of_code(code);
            assert_eq!(refusal.number(), code);
            if refusal != Refusal::Unknown(code) {
                named.push(code);
            }
        }
        assert_eq!(named, [1, 2, 3, 4, 5, 6, 7, 8, 9, 10, 11, 12, 90, 91]);
    }

    /// A refusal is shown by number and words.
    #[test]
    fn shown() {
        let text = Refusal::LogTime.to_string();
        assert_eq!(text, "refused 9: time is lower than the last accepted record's");
    }
}
