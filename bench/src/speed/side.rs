//! The sides that are compared, and the calls that are measured on them.

use crate::cases::{Case, SIGNALS};
use crate::faster;
use crate::plain;
use hunchcold::raw;

/// The calls of one side.
pub struct Side {
    pub name: &'static str,
    start: fn(&[u8], &[u8], &mut [u8], &mut [u64]) -> u8,
    feed: fn(&mut [u8], &[u8], &mut [u64]) -> u8,
    ask: fn(&[u8], &[u64]) -> u8,
    close: fn(&mut [u8], &mut [u64]) -> u8,
    run: fn(&[u8], &[u8], &[u8], &mut [u64], &mut [u8]) -> u8,
}

/// The proved library, Rust with the same algorithm, and Rust with faster steps.
pub const SIDES: [Side; 3] = [
    Side {
        name: "proved",
        start: raw::start,
        feed: raw::feed,
        ask: raw::ask,
        close: raw::close,
        run: raw::run,
    },
    Side {
        name: "rust",
        start: plain::start,
        feed: plain::feed,
        ask: plain::ask,
        close: plain::close,
        run: plain::run,
    },
    Side {
        name: "faster",
        start: faster::start,
        feed: faster::feed,
        ask: faster::ask,
        close: faster::close,
        run: faster::run,
    },
];

pub const PROVED: &Side = &SIDES[0];

impl Side {
    /// Whether the call is measured: of the faster steps only a feed.
    pub fn has(&self, call: Call) -> bool {
        self.name != "faster" || call == Call::Feed
    }
}

/// A lent state, a lent area, and lent codes for a whole log.
#[derive(Clone, PartialEq)]
pub struct Watched {
    pub state: [u8; 280],
    pub area: Vec<u64>,
    pub codes: Vec<u8>,
}

impl Watched {
    /// Nothing of a watcher, with codes for so many records.
    pub fn blank(records: usize) -> Watched {
        Watched {
            state: [0xEE; 280],
            area: vec![0xDEAD_BEEF; 1664],
            codes: vec![0xEE; records],
        }
    }

    pub fn start(&mut self, side: &Side, rule: &[u8]) -> u8 {
        (side.start)(rule, &SIGNALS, &mut self.state, &mut self.area)
    }

    pub fn feed(&mut self, side: &Side, record: &[u8]) -> u8 {
        (side.feed)(&mut self.state, record, &mut self.area)
    }

    pub fn ask(&self, side: &Side) -> u8 {
        (side.ask)(&self.state, &self.area)
    }

    pub fn close(&mut self, side: &Side) -> u8 {
        (side.close)(&mut self.state, &mut self.area)
    }

    pub fn run(&mut self, side: &Side, rule: &[u8], log: &[u8]) -> u8 {
        (side.run)(rule, &SIGNALS, log, &mut self.area, &mut self.codes)
    }
}

#[derive(Clone, Copy, PartialEq)]
pub enum Call {
    Feed,
    Start,
    Ask,
    Close,
    Run,
}

pub const CALLS: [Call; 5] = [Call::Feed, Call::Start, Call::Ask, Call::Close, Call::Run];

impl Call {
    pub fn name(self) -> &'static str {
        match self {
            Call::Feed => "feed",
            Call::Start => "start",
            Call::Ask => "ask",
            Call::Close => "close",
            Call::Run => "run",
        }
    }

    /// How many calls are measured at once.
    pub fn times(self, case: &Case) -> usize {
        match self {
            Call::Feed => case.later().len() / 16,
            _ => 1,
        }
    }

    /// What stands before the measured calls: asking and closing come after the whole log.
    pub fn before(self, case: &Case) -> Watched {
        let mut watched = case.begin.clone();
        if self == Call::Ask || self == Call::Close {
            for record in case.later().chunks(16) {
                watched.feed(PROVED, record);
            }
        }
        watched
    }
}

/// The calls that are measured; callgrind counts what is done in here. Answers the last code.
#[no_mangle]
#[inline(never)]
pub fn measured(side: &Side, call: Call, case: &Case, watched: &mut Watched) -> u8 {
    match call {
        Call::Feed => case.later().chunks(16).fold(0, |_, record| watched.feed(side, record)),
        Call::Start => watched.start(side, &case.rule),
        Call::Ask => watched.ask(side),
        Call::Close => watched.close(side),
        Call::Run => watched.run(side, &case.rule, &case.log),
    }
}
