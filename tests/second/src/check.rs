//! "The sheet" and "What each operation turns down": reads the records in order and names the
//! first faulty one.

use crate::document::Document;

/// The two sizes of a record, in bytes: document 01's "records of 20 bytes", and F-10's "28-byte
/// record".
pub const FOUR_POLLUTANTS: usize = 20;
pub const SIX_POLLUTANTS: usize = 28;
pub const SIZES: [usize; 2] = [FOUR_POLLUTANTS, SIX_POLLUTANTS];

/// The pollutants that a record of either size has a place for.
pub const MOST_POLLUTANTS: usize = 6;

/// As many bytes as the size says.
pub type Record = [u8];

pub(crate) const POLLUTANT: u8 = 1;
pub(crate) const ENGINE: u8 = 2;
pub(crate) const STOP: u8 = 3;
/// "Record kind 5" (F-1).
pub(crate) const SMALL_ENGINE: u8 = 5;
/// "Record kind 6" (F-2).
pub(crate) const RUN_IN: u8 = 6;

/// "It returns number and record counted from 0".
#[derive(Clone, Copy, Debug, PartialEq, Eq)]
pub struct Refusal {
    pub number: u8,
    pub record: u8,
}

impl Refusal {
    /// "A refusal that names no record, here or later, returns record 0."
    pub fn of_no_record(number: u8) -> Self {
        Refusal { number, record: 0 }
    }

    /// What the bench's control program gets: "number x 256 + record".
    pub fn code(self) -> u32 {
        u32::from(self.number) * 256 + u32::from(self.record)
    }
}

/// A checked sheet, or the records of one that are checked so far.
pub struct Series<'a> {
    /// Of its records.
    pub size: usize,
    pub plan: u8,
    /// By pollutant number less one; a limit of 0 marks an undeclared pollutant.
    pub limits: [u32; MOST_POLLUTANTS],
    pub deviations: [u32; MOST_POLLUTANTS],
    pub highest_pollutant: u8,
    /// How many pollutant records open the sheet; how many small engines and how many records of
    /// run-in values, of which one each is allowed, and how many engines follow them.
    pub declared: usize,
    pub small_engines: usize,
    pub run_ins: usize,
    pub tested: usize,
    pub stopped: bool,
    pub(crate) sheet: &'a [u8],
}

impl<'a> Series<'a> {
    fn of_no_record(size: usize, sheet: &'a [u8]) -> Self {
        Series {
            size,
            plan: 0,
            limits: [0; MOST_POLLUTANTS],
            deviations: [0; MOST_POLLUTANTS],
            highest_pollutant: 0,
            declared: 0,
            small_engines: 0,
            run_ins: 0,
            tested: 0,
            stopped: false,
            sheet,
        }
    }

    pub fn records(&self) -> impl Iterator<Item = &'a Record> {
        self.sheet.chunks_exact(self.size)
    }

    /// The records that the document takes for engines.
    pub fn engines<'d, D: Document + ?Sized>(
        &self,
        document: &'d D,
    ) -> impl Iterator<Item = &'a Record> + use<'a, 'd, D> {
        self.records()
            .filter(|record| document.is_engine(record[0]))
    }

    /// The record of run-in values, on a run-in sheet.
    pub(crate) fn run_in_record(&self) -> Option<&'a Record> {
        if self.run_ins == 0 {
            return None;
        }
        self.records().find(|record| record[0] == RUN_IN)
    }

    /// Whether there is a record of another kind than 1.
    pub(crate) fn has_other_kinds(&self) -> bool {
        self.small_engines > 0 || self.run_ins > 0 || self.tested > 0 || self.stopped
    }

    fn take<D: Document + ?Sized>(&mut self, document: &D, record: &Record) {
        self.tested += usize::from(document.is_engine(record[0]));
        match record[0] {
            POLLUTANT => {
                let index = usize::from(record[1]) - 1;
                self.plan = record[2];
                self.limits[index] = document.limit(record);
                self.deviations[index] = document.deviation(record);
                self.highest_pollutant = record[1];
                self.declared += 1;
            }
            SMALL_ENGINE => self.small_engines += 1,
            RUN_IN => self.run_ins += 1,
            ENGINE => {}
            _ => self.stopped = true,
        }
    }
}

/// A number of two bytes.
pub(crate) fn short_at(record: &Record, place: usize) -> u16 {
    u16::from_le_bytes([record[place], record[place + 1]])
}

/// A number of four bytes; 0 behind the record's end.
pub(crate) fn number_at(record: &Record, place: usize) -> u32 {
    match record.get(place..place + 4) {
        Some(&[a, b, c, d]) => u32::from_le_bytes([a, b, c, d]),
        _ => 0,
    }
}

/// The check of a sheet, "by its size" (F-10).
pub fn check<'a, D: Document + ?Sized>(
    document: &D,
    size: usize,
    sheet: &'a [u8],
) -> Result<Series<'a>, Refusal> {
    if let Some(number) = document.sheet_fault(size, sheet) {
        return Err(document.refusal_of_no_record(number));
    }
    let mut series = Series::of_no_record(size, sheet);
    for (index, record) in series.records().enumerate() {
        if let Some(number) = document.fault(record, &series) {
            return Err(document.refusal_of_record(number, index));
        }
        series.take(document, record);
    }
    Ok(series)
}
