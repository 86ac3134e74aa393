//! "A sheet under reading is the lent bytes and the number of the next record."

use crate::check::{Record, MOST_POLLUTANTS};
use crate::check::{ENGINE, POLLUTANT, RUN_IN, SMALL_ENGINE, STOP};
use crate::document::Document;
use std::borrow::Cow;

/// Any bytes under reading, from record 0 on.
pub struct Reader<'a, D: Document + ?Sized> {
    document: &'a D,
    size: usize,
    sheet: &'a [u8],
    next: usize,
}

/// What the next record is, by its kind; `End` behind the last whole record.
#[derive(Clone, Copy, Debug, PartialEq, Eq)]
pub enum Step {
    Pollutant {
        number: u8,
        plan: u8,
        limit: u32,
        deviation: u32,
    },
    Engine {
        cause: u16,
        /// 0 of a pollutant that the size has no place for.
        measurements: [u32; MOST_POLLUTANTS],
    },
    Stop,
    SmallEngine {
        volume: u16,
        speed: u16,
        date: u32,
    },
    /// Without a cause, which a record of run-in values has no place for.
    RunIn {
        /// As an engine's measurements.
        values: [u32; MOST_POLLUTANTS],
    },
    Other {
        kind: u8,
    },
    End,
}

impl<'a, D: Document + ?Sized> Reader<'a, D> {
    pub fn new(document: &'a D, size: usize, sheet: &'a [u8]) -> Self {
        Reader {
            document,
            size,
            sheet,
            next: 0,
        }
    }

    /// On to the record behind the next, or nowhere from the end.
    pub fn move_on(&mut self) {
        if self.record(self.next).is_some() {
            self.next += 1;
        }
    }

    pub fn step(&self) -> Step {
        match self.record(self.next) {
            Some(record) => self.step_of(&record),
            None => Step::End,
        }
    }

    /// How many whole records are left, the next among them.
    pub fn left(&self) -> usize {
        (self.next..)
            .take_while(|&number| self.record(number).is_some())
            .count()
    }

    fn record(&self, number: usize) -> Option<Cow<'a, Record>> {
        self.document.record_at(self.size, self.sheet, number)
    }

    fn step_of(&self, record: &Record) -> Step {
        match record[0] {
            kind if !self.document.kind_fits(kind) => Step::Other { kind },
            POLLUTANT => Step::Pollutant {
                number: record[1],
                plan: record[2],
                limit: self.document.limit(record),
                deviation: self.document.deviation(record),
            },
            ENGINE => Step::Engine {
                cause: self.document.cause(record),
                measurements: std::array::from_fn(|p| self.document.measurement(record, p)),
            },
            STOP => Step::Stop,
            SMALL_ENGINE => Step::SmallEngine {
                volume: self.document.volume(record),
                speed: self.document.speed(record),
                date: self.document.date(record),
            },
            RUN_IN => Step::RunIn {
                values: std::array::from_fn(|p| self.document.run_in_value(record, p)),
            },
            kind => Step::Other { kind },
        }
    }
}
