//! What was met, counted; none of the counts may be zero in a large comparison.

use crate::broken::REASONS;
use crate::codes::code_name;
use crate::faults::KINDS;
use crate::lists::*;

pub struct Table {
    title: &'static str,
    cells: Vec<Cell>,
}

struct Cell {
    key: u64,
    name: String,
    count: u64,
}

impl Table {
    fn new<Name: ToString>(title: &'static str, names: impl IntoIterator<Item = (u64, Name)>) -> Table {
        let cells = names.into_iter().map(|(key, name)| Cell {
            key,
            name: name.to_string(),
            count: 0,
        });
        Table {
            title,
            cells: cells.collect(),
        }
    }

    fn of_codes(title: &'static str, codes: &[u8]) -> Table {
        Table::new(title, codes.iter().map(|code| (*code as u64, code_name(*code))))
    }

    /// Counts a key; one that the table does not list gets a line of its own.
    pub fn add(&mut self, key: u64) {
        match self.cells.iter_mut().find(|cell| cell.key == key) {
            Some(cell) => cell.count += 1,
            None => self.cells.push(Cell {
                key,
                name: format!("unexpected {key}"),
                count: 1,
            }),
        }
    }

    fn print(&self) {
        println!("{}", self.title);
        for cell in &self.cells {
            println!("  {:34}{:>12}", cell.name, cell.count);
        }
    }

    fn zeros(&self) -> impl Iterator<Item = String> + '_ {
        self.cells
            .iter()
            .filter(|cell| cell.count == 0)
            .map(|cell| format!("{}: {}", self.title, cell.name))
    }
}

/// Things that a case may show beside its answers.
#[derive(Clone, Copy)]
pub enum Mark {
    EqualTimes,
    KilometresAnHour,
    MetresASecond,
    NoUpperEnd,
    DecidedEarly,
    CutCompared,
    PastHorizon,
    HorizonKnown,
    HorizonNone,
    HandedInAndFed,
    HandedInAndClosed,
    AskedAndValued,
    AskedOverScratch,
    NoAir,
    NoWindInKilometres,
    NoWindInMetres,
    NearBrokenWire,
    NearSilentHead,
    AirOfSilentHead,
    WindOfBrokenWire,
    ListBeforeRecord,
    RecordBeforeNumber,
}

const MARKS: [(Mark, &str); 22] = [
    (Mark::EqualTimes, "record with the time before it"),
    (Mark::KilometresAnHour, "record with wind in km/h"),
    (Mark::MetresASecond, "record with wind in m/s"),
    (Mark::NoUpperEnd, "rule record with no upper end"),
    (Mark::DecidedEarly, "kept or broken before closing"),
    (Mark::CutCompared, "such a word held against a cut"),
    (Mark::PastHorizon, "record past the horizon"),
    (Mark::HorizonKnown, "horizon in minutes"),
    (Mark::HorizonNone, "no horizon"),
    (Mark::HandedInAndFed, "handed in, then a record accepted"),
    (Mark::HandedInAndClosed, "handed in, then closed"),
    (Mark::AskedAndValued, "ask held against the value so far"),
    (Mark::AskedOverScratch, "verdict of ask, scratch not zero"),
    (Mark::NoAir, "no reading: air"),
    (Mark::NoWindInKilometres, "no reading: wind in km/h"),
    (Mark::NoWindInMetres, "no reading: wind in m/s"),
    (Mark::NearBrokenWire, "air of 32766, which is read"),
    (Mark::NearSilentHead, "wind of 65534, which is read"),
    (Mark::AirOfSilentHead, "air of 65535, which is read as -1"),
    (Mark::WindOfBrokenWire, "wind of 32767, which is read"),
    (Mark::ListBeforeRecord, "5, and the record is wrong too"),
    (Mark::RecordBeforeNumber, "8, and the number is lacking too"),
];

const RULE_KINDS: [(u8, &str); 9] = [
    (TRUE, "true"),
    (FALSE, "false"),
    (SIGNAL, "signal"),
    (AND, "and"),
    (XOR, "exclusive or"),
    (NEXT, "next"),
    (UNTIL, "until"),
    (PREVIOUS, "previous"),
    (SINCE, "since"),
];

pub struct Counts {
    pub kinds: Table,
    pub run: Table,
    pub codes: Table,
    pub start: Table,
    pub would_refuse: Table,
    pub feed: Table,
    pub ask: Table,
    pub close: Table,
    pub test: Table,
    pub reasons: Table,
    pub parameters: Table,
    pub records: Table,
    marks: Table,
    pub compared: u64,
}

impl Counts {
    pub fn new() -> Counts {
        let numbered = |(place, name): (usize, &'static str)| (place as u64, name);
        Counts {
            kinds: Table::new(
                "Cases by kind",
                KINDS.iter().map(|kind| kind.0).enumerate().map(numbered),
            ),
            run: Table::of_codes("Answers of run", &[101, 102, 1, 2, 3, 4, 5, 6, 7, 11, 90]),
            codes: Table::of_codes("Codes of run", &[101, 102, 103, 8, 9]),
            start: Table::of_codes("Answers of start", &[0, 1, 2, 3, 4, 5, 6, 7, 91]),
            would_refuse: Table::of_codes("Answers of would_refuse", &[0, 7, 8, 9, 10, 12, 91]),
            feed: Table::of_codes("Answers of feed", &[101, 102, 103, 7, 8, 9, 10, 12, 91]),
            ask: Table::of_codes("Answers of ask", &[101, 102, 7, 10, 11, 12, 91]),
            close: Table::of_codes("Answers of close", &[101, 102, 7, 10, 11, 12, 91]),
            test: Table::of_codes("Answers of test", &[111, 112, 113, 5, 6, 8]),
            reasons: Table::new(
                "Calls refused with 12, by reason",
                REASONS.into_iter().enumerate().map(numbered),
            ),
            parameters: Table::new("Rules started, by parameters", (0..=12).map(|number| (number, number))),
            records: Table::new("Their records", RULE_KINDS.map(|(kind, name)| (kind as u64, name))),
            marks: Table::new("Also met", MARKS.map(|(mark, name)| (mark as u64, name))),
            compared: 0,
        }
    }

    pub fn mark(&mut self, mark: Mark) {
        self.marks.add(mark as u64);
    }

    fn tables(&self) -> [&Table; 13] {
        [
            &self.kinds,
            &self.run,
            &self.codes,
            &self.start,
            &self.would_refuse,
            &self.feed,
            &self.ask,
            &self.close,
            &self.test,
            &self.reasons,
            &self.parameters,
            &self.records,
            &self.marks,
        ]
    }

    pub fn print(&self) {
        self.tables().iter().for_each(|table| table.print());
        println!(
            "Calls after which answer, state and area were compared: {}",
            self.compared
        );
    }

    /// What was never met.
    pub fn zeros(&self) -> Vec<String> {
        self.tables().iter().flat_map(|table| table.zeros()).collect()
    }
}
