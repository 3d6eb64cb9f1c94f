//! The codes that the library answers.

pub const KEPT: u8 = 101;
pub const BROKEN: u8 = 102;
pub const PENDING: u8 = 103;
pub const HOLDS: u8 = 111;
pub const DOES_NOT_HOLD: u8 = 112;
pub const NO_READING: u8 = 113;

/// What a code says.
pub fn code_name(code: u8) -> String {
    match code {
        0 => "accepted".to_string(),
        KEPT => "kept".to_string(),
        BROKEN => "broken".to_string(),
        PENDING => "pending".to_string(),
        HOLDS => "holds".to_string(),
        DOES_NOT_HOLD => "does not hold".to_string(),
        NO_READING => "no reading".to_string(),
        _ => format!("refused {code}"),
    }
}
