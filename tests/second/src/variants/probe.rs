//! Wrong readings that are seen through the probe library: in the logarithm itself and its
//! bracket, in what evidence hands back, in the printed lines, and in a sheet under reading.

use super::families::GOff;
use super::sizes::{LengthBeforeSize, RecordOne};
use super::{run_in, small_engine, wrong, OldUnits, SixteenSteps, Wrong};
use crate::check::{number_at, Record, Refusal, Series};
use crate::check::{FOUR_POLLUTANTS, RUN_IN, SIX_POLLUTANTS, SMALL_ENGINE};
use crate::document::{Document, Document01};
use crate::judge::{Ground, Verdict};
use std::borrow::Cow;

pub fn logarithm() -> Vec<Wrong> {
    vec![
        wrong!(
            "logarithm: Q / 2^31 rounded to the nearest",
            fn next_m(&self, q: u64, bit: bool) -> u64 {
                if bit {
                    q >> 32
                } else {
                    (q + (1 << 30)) >> 31
                }
            }
        ),
        Wrong::new("logarithm: sixteen steps, as before F-9", SixteenSteps),
        Wrong::new("logarithm: in units of 1/65,536, as before F-9", OldUnits),
    ]
}

/// On this ground evidence has so many records, of those through the engine.
struct Part {
    ground: Ground,
    records: fn(usize) -> usize,
}

impl Document for Part {
    fn evidence_records(&self, ground: Ground, through_engine: usize, whole: usize) -> usize {
        if ground == self.ground {
            (self.records)(through_engine)
        } else {
            Document01.evidence_records(ground, through_engine, whole)
        }
    }
}

fn part(description: &str, ground: Ground, records: fn(usize) -> usize) -> Wrong {
    Wrong::new(description, Part { ground, records })
}

pub fn evidence() -> Vec<Wrong> {
    vec![
        wrong!(
            "evidence: always the whole sheet",
            fn evidence_records(&self, _: Ground, _: usize, whole: usize) -> usize {
                whole
            }
        ),
        part(
            "evidence: a stopped sheet without its stop",
            Ground::Stopped,
            |through_engine| through_engine,
        ),
        part(
            "evidence: without the deciding engine's record",
            Ground::Row,
            |through_engine| through_engine - 1,
        ),
        part(
            "evidence: a held sheet through the row at which it is held",
            Ground::Held,
            |through_engine| through_engine,
        ),
        part(
            "evidence: a held sheet as far as the vehicles before that row",
            Ground::Held,
            |through_engine| through_engine - 1,
        ),
        part("evidence: nothing of a held sheet", Ground::Held, |_| 0),
        wrong!(
            "evidence: the small engine's record not counted",
            fn records_through(&self, engine: u8, series: &Series) -> usize {
                Document01.records_through(engine, series) - series.small_engines
            }
        ),
        wrong!(
            "evidence: a record counted for the small engine on every sheet",
            fn records_through(&self, engine: u8, series: &Series) -> usize {
                Document01.records_through(engine, series) - series.small_engines + 1
            }
        ),
        wrong!(
            "evidence: the whole sheet where there is a small engine",
            fn records_through(&self, engine: u8, series: &Series) -> usize {
                match series.small_engines {
                    0 => Document01.records_through(engine, series),
                    _ => series.records().count(),
                }
            }
        ),
        wrong!(
            "evidence: the record of run-in values not counted",
            fn records_through(&self, engine: u8, series: &Series) -> usize {
                Document01.records_through(engine, series) - series.run_ins
            }
        ),
        wrong!(
            "evidence: a record counted for run-in values on every sheet",
            fn records_through(&self, engine: u8, series: &Series) -> usize {
                Document01.records_through(engine, series) - series.run_ins + 1
            }
        ),
        wrong!(
            "evidence: the record of run-in values counted only without a small engine",
            fn records_through(&self, engine: u8, series: &Series) -> usize {
                let both = series.run_ins.min(series.small_engines);
                Document01.records_through(engine, series) - both
            }
        ),
        wrong!(
            "evidence: the whole sheet where there are run-in values",
            fn records_through(&self, engine: u8, series: &Series) -> usize {
                match series.run_ins {
                    0 => Document01.records_through(engine, series),
                    _ => series.records().count(),
                }
            }
        ),
        wrong!(
            "evidence: a refusal with record 0, whichever it is",
            fn evidence_refusal(&self, refusal: Refusal) -> Refusal {
                Refusal::of_no_record(refusal.number)
            }
        ),
    ]
}

/// Another word for this verdict.
struct Word(Verdict, &'static str);

impl Document for Word {
    fn verdict_word(&self, verdict: Verdict) -> &'static str {
        match verdict {
            verdict if verdict == self.0 => self.1,
            _ => Document01.verdict_word(verdict),
        }
    }
}

pub fn lines() -> Vec<Wrong> {
    vec![
        Wrong::new(
            "lines: a held sheet as undecided, another",
            Word(Verdict::Held, "another"),
        ),
        Wrong::new(
            "lines: a held sheet as referred",
            Word(Verdict::Held, "referred"),
        ),
        Wrong::new(
            "lines: a held sheet as pending",
            Word(Verdict::Held, "pending"),
        ),
        wrong!(
            "lines: a line for each undeclared pollutant too",
            fn has_line(&self, _: u32) -> bool {
                true
            }
        ),
        wrong!(
            "lines: ground before engine",
            fn first_line(&self, word: &str, engine: u8, ground: Ground) -> String {
                format!("{word} {} {engine}\n", ground as u8)
            }
        ),
        wrong!(
            "lines: engine before decision",
            fn pollutant_line(&self, number: usize, word: &str, engine: u8) -> String {
                format!("{number} {engine} {word}\n")
            }
        ),
        wrong!(
            "lines: record before number",
            fn refused_line(&self, Refusal { number, record }: Refusal) -> String {
                format!("refused {record} {number}\n")
            }
        ),
        wrong!(
            "lines: of 28-byte sheets",
            fn size_of_verdict(&self) -> usize {
                SIX_POLLUTANTS
            }
        ),
    ]
}

/// Logarithms that leave the bracket 2^g <= m^1048576 < 2^(g+2) at so many m that a few whole
/// powers show it. Of a constant one document 01 says that it is rejected, "though monotone".
pub fn brackets() -> Vec<Wrong> {
    vec![
        wrong!(
            "bracket: every g one more",
            fn g(&self, m: u32) -> i64 {
                Document01.g(m) + 1
            }
        ),
        wrong!(
            "bracket: every g two less",
            fn g(&self, m: u32) -> i64 {
                Document01.g(m) - 2
            }
        ),
        Wrong::new("bracket: sixteen steps", SixteenSteps),
        Wrong::new("bracket: units of 1/65,536", OldUnits),
        wrong!(
            "bracket: a constant logarithm",
            fn g(&self, _: u32) -> i64 {
                0
            }
        ),
    ]
}

/// Logarithms that leave the bracket, or "a larger m never has a smaller g", at few m.
pub fn brackets_of_few() -> Vec<Wrong> {
    let off = |m, by| {
        let description = format!("bracket: the logarithm of {m} off by {by:+}");
        Wrong::new(description, GOff { m, by })
    };
    vec![
        wrong!(
            "bracket: every g one less",
            fn g(&self, m: u32) -> i64 {
                Document01.g(m) - 1
            }
        ),
        wrong!(
            "bracket: one squaring too few",
            fn twenty_bits(&self, m: u32) -> u32 {
                Document01.twenty_bits(m) & !1
            }
        ),
        off(4_999_999, 1),
        off(4_999_999, -2),
        // The bracket holds, but 9,999,998 has then the larger g.
        off(9_999_999, -1),
    ]
}

/// A sheet under reading.
pub fn reader() -> Vec<Wrong> {
    let mut all = small_engine::fields("reader");
    all.extend(run_in::fields("reader, run-in values"));
    all.extend(steps());
    all
}

fn steps() -> Vec<Wrong> {
    vec![
        wrong!(
            "reader: the cause with its bytes exchanged",
            fn cause(&self, record: &Record) -> u16 {
                u16::from_be_bytes([record[2], record[3]])
            }
        ),
        wrong!(
            "reader: measurements 2 and 3 exchanged",
            fn measurement(&self, record: &Record, pollutant: usize) -> u32 {
                number_at(record, [4, 12, 8, 16, 20, 24][pollutant])
            }
        ),
        wrong!(
            "reader: kind 5 as another kind",
            fn kind_fits(&self, kind: u8) -> bool {
                kind != SMALL_ENGINE && Document01.kind_fits(kind)
            }
        ),
        wrong!(
            "reader: kind 6 as another kind",
            fn kind_fits(&self, kind: u8) -> bool {
                kind != RUN_IN && Document01.kind_fits(kind)
            }
        ),
        wrong!(
            "reader: a run-in value that does not fit left out",
            fn run_in_value(&self, record: &Record, pollutant: usize) -> u32 {
                let value = Document01.run_in_value(record, pollutant);
                if self.measurement_fits(value) {
                    value
                } else {
                    0
                }
            }
        ),
        wrong!(
            "reader: a date that is no day left out",
            fn date(&self, record: &Record) -> u32 {
                let date = Document01.date(record);
                if self.date_fits(date) {
                    date
                } else {
                    0
                }
            }
        ),
        wrong!(
            "reader: a record cut short counted as a record",
            fn record_at<'a>(
                &self,
                size: usize,
                sheet: &'a [u8],
                number: usize,
            ) -> Option<Cow<'a, Record>> {
                if !self.size_fits(size) {
                    return None;
                }
                let mut record = sheet.chunks(size).nth(number)?.to_vec();
                record.resize(size, 0);
                Some(Cow::Owned(record))
            }
        ),
        wrong!(
            "reader: the last record not reached",
            fn record_at<'a>(
                &self,
                size: usize,
                sheet: &'a [u8],
                number: usize,
            ) -> Option<Cow<'a, Record>> {
                Document01.record_at(size, sheet, number + 1)?;
                Document01.record_at(size, sheet, number)
            }
        ),
    ]
}

/// Evidence, of which "callers name the size" (document 02, F-10).
pub fn evidence_by_size() -> Vec<Wrong> {
    vec![
        wrong!(
            "evidence: 20 bytes for each record, whatever the size",
            fn evidence_length(&self, _: usize, records: usize) -> usize {
                records * FOUR_POLLUTANTS
            }
        ),
        Wrong::new("evidence: 1 before 30", LengthBeforeSize),
        wrong!(
            "evidence: a size of 24 accepted",
            fn sheet_fault(&self, size: usize, sheet: &[u8]) -> Option<u8> {
                match size {
                    24 => None,
                    _ => Document01.sheet_fault(size, sheet),
                }
            }
        ),
        Wrong::new("evidence: record 1 for refusal 30", RecordOne(30)),
    ]
}

/// A sheet under reading, of which "callers name the size" (document 02, F-10).
pub fn reader_by_size() -> Vec<Wrong> {
    vec![
        wrong!(
            "reader: records of 20 bytes for either size",
            fn record_at<'a>(
                &self,
                size: usize,
                sheet: &'a [u8],
                number: usize,
            ) -> Option<Cow<'a, Record>> {
                let size = match size {
                    SIX_POLLUTANTS => FOUR_POLLUTANTS,
                    _ => size,
                };
                Document01.record_at(size, sheet, number)
            }
        ),
        wrong!(
            "reader: records of a size of 24",
            fn record_at<'a>(
                &self,
                size: usize,
                sheet: &'a [u8],
                number: usize,
            ) -> Option<Cow<'a, Record>> {
                match size {
                    24 => sheet.chunks_exact(24).nth(number).map(Cow::Borrowed),
                    _ => Document01.record_at(size, sheet, number),
                }
            }
        ),
        wrong!(
            "reader: measurements 5 and 6 read behind a record of 20 bytes",
            fn record_at<'a>(
                &self,
                size: usize,
                sheet: &'a [u8],
                number: usize,
            ) -> Option<Cow<'a, Record>> {
                Document01.record_at(size, sheet, number)?;
                let rest = &sheet[number * size..];
                Some(Cow::Borrowed(&rest[..rest.len().min(SIX_POLLUTANTS)]))
            }
        ),
        wrong!(
            "reader: measurements 5 and 6 exchanged",
            fn measurement(&self, record: &Record, pollutant: usize) -> u32 {
                number_at(record, [4, 8, 12, 16, 24, 20][pollutant])
            }
        ),
        wrong!(
            "reader: measurement 6 not read",
            fn measurement(&self, record: &Record, pollutant: usize) -> u32 {
                match pollutant {
                    5 => 0,
                    _ => Document01.measurement(record, pollutant),
                }
            }
        ),
        wrong!(
            "reader: run-in values 5 and 6 not read",
            fn run_in_value(&self, record: &Record, pollutant: usize) -> u32 {
                match pollutant {
                    4 | 5 => 0,
                    _ => Document01.run_in_value(record, pollutant),
                }
            }
        ),
    ]
}
