//! The exports as they are: codes, and lists lent as slices. Every call is safe with every input.
//!
//! Each pointer goes with its slice's length, and a slice that is written to is lent to that call alone.

extern "C" {
    fn hunchcold_run(
        rule: *const u8,
        rule_bytes: usize,
        signals: *const u8,
        signals_bytes: usize,
        log: *const u8,
        log_bytes: usize,
        area: *mut u64,
        area_words: usize,
        codes: *mut u8,
        codes_bytes: usize,
    ) -> u8;
    fn hunchcold_start(
        rule: *const u8,
        rule_bytes: usize,
        signals: *const u8,
        signals_bytes: usize,
        state: *mut u8,
        state_bytes: usize,
        area: *mut u64,
        area_words: usize,
    ) -> u8;
    fn hunchcold_would_refuse(
        state: *const u8,
        state_bytes: usize,
        record: *const u8,
        record_bytes: usize,
        area: *const u64,
        area_words: usize,
    ) -> u8;
    fn hunchcold_feed(
        state: *mut u8,
        state_bytes: usize,
        record: *const u8,
        record_bytes: usize,
        area: *mut u64,
        area_words: usize,
    ) -> u8;
    fn hunchcold_ask(state: *const u8, state_bytes: usize, area: *const u64, area_words: usize) -> u8;
    fn hunchcold_close(state: *mut u8, state_bytes: usize, area: *mut u64, area_words: usize) -> u8;
    fn hunchcold_horizon(state: *const u8, state_bytes: usize) -> u64;
    fn hunchcold_test(
        signals: *const u8,
        signals_bytes: usize,
        number: usize,
        record: *const u8,
        record_bytes: usize,
    ) -> u8;
}

/// Runs a whole log, with a code for each piece; answers the code of closing, or start's refusal. Where no piece is
/// accepted it answers 11, and area and codes are written all the same: the area is that after start, each code is 8.
/// With 90 and 1 to 7 both stay as they were.
pub fn run(rule: &[u8], signals: &[u8], log: &[u8], area: &mut [u64], codes: &mut [u8]) -> u8 {
    unsafe {
        hunchcold_run(
            rule.as_ptr(),
            rule.len(),
            signals.as_ptr(),
            signals.len(),
            log.as_ptr(),
            log.len(),
            area.as_mut_ptr(),
            area.len(),
            codes.as_mut_ptr(),
            codes.len(),
        )
    }
}

/// Starts a watcher: 0, or a refusal, which writes zeros into the state unless it is 91.
pub fn start(rule: &[u8], signals: &[u8], state: &mut [u8], area: &mut [u64]) -> u8 {
    unsafe {
        hunchcold_start(
            rule.as_ptr(),
            rule.len(),
            signals.as_ptr(),
            signals.len(),
            state.as_mut_ptr(),
            state.len(),
            area.as_mut_ptr(),
            area.len(),
        )
    }
}

/// Would this record be refused: 0, or the refusal.
pub fn would_refuse(state: &[u8], record: &[u8], area: &[u64]) -> u8 {
    unsafe {
        hunchcold_would_refuse(
            state.as_ptr(),
            state.len(),
            record.as_ptr(),
            record.len(),
            area.as_ptr(),
            area.len(),
        )
    }
}

/// Feeds one record: the code of its word, or a refusal.
pub fn feed(state: &mut [u8], record: &[u8], area: &mut [u64]) -> u8 {
    unsafe {
        hunchcold_feed(
            state.as_mut_ptr(),
            state.len(),
            record.as_ptr(),
            record.len(),
            area.as_mut_ptr(),
            area.len(),
        )
    }
}

/// How the log would end, were this the last record: the code of the verdict, or a refusal. Writes nothing.
pub fn ask(state: &[u8], area: &[u64]) -> u8 {
    unsafe { hunchcold_ask(state.as_ptr(), state.len(), area.as_ptr(), area.len()) }
}

/// Closes the log: the code of its verdict, or a refusal.
pub fn close(state: &mut [u8], area: &mut [u64]) -> u8 {
    unsafe { hunchcold_close(state.as_mut_ptr(), state.len(), area.as_mut_ptr(), area.len()) }
}

/// How many minutes the rule can stay open; `u64::MAX` where there is no such limit.
pub fn horizon(state: &[u8]) -> u64 {
    unsafe { hunchcold_horizon(state.as_ptr(), state.len()) }
}

/// Tests one signal of a list in one log record: 111 holds, 112 does not hold, 113 no reading, or a refusal: 5, 8 or 6,
/// tested in that order. Writes nothing.
pub fn test(signals: &[u8], number: usize, record: &[u8]) -> u8 {
    unsafe { hunchcold_test(signals.as_ptr(), signals.len(), number, record.as_ptr(), record.len()) }
}
