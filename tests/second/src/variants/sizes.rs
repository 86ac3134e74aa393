//! Wrong readings of document 02's request F-10, six pollutants, that are seen in what report and
//! append answer. Each is seen at one size, or at a size that is none.

use super::{by_rule, wrong, Wrong};
use crate::check::{number_at, Record, Refusal, Series, FOUR_POLLUTANTS, SIX_POLLUTANTS, SIZES};
use crate::document::{Document, Document01};
use crate::judge::{Judgement, RunIn};
use crate::operations::LONGEST_REPORT;

pub fn sizes() -> Vec<Wrong> {
    let mut all = sizes_named();
    all.extend(order_of_refusals());
    all.extend(bytes_counted());
    all.extend(reports());
    all.extend(records_held());
    all.extend(pollutants());
    all.extend(zeros());
    all
}

/// These sizes are taken for sizes of a record.
struct SizeFits(fn(usize) -> bool);

impl Document for SizeFits {
    fn size_fits(&self, size: usize) -> bool {
        (self.0)(size)
    }
}

/// "30, size not 20 or 28".
fn sizes_named() -> Vec<Wrong> {
    let mut all = no_sizes_accepted("refusal 30");
    all.extend(by_rule(
        SizeFits,
        "refusal 30",
        [
            ("sizes from 20 to 28 accepted", |size| {
                (FOUR_POLLUTANTS..=SIX_POLLUTANTS).contains(&size)
            }),
            ("28 refused", |size| size == FOUR_POLLUTANTS),
        ],
    ));
    all.push(Wrong::new("refusal 30: record 1", RecordOne(30)));
    all
}

/// Sizes that are none, accepted by every operation to which callers name the size.
pub fn no_sizes_accepted(about: &str) -> Vec<Wrong> {
    by_rule(
        SizeFits,
        about,
        [
            ("a size of 24 accepted", |size| {
                size == 24 || Document01.size_fits(size)
            }),
            ("the size taken in one byte", |size| {
                Document01.size_fits(size % (1 << 8))
            }),
            ("the size taken in four bytes", |size| {
                Document01.size_fits(size % (1 << 32))
            }),
        ],
    )
}

/// This refusal names record 1, where it should name none.
pub struct RecordOne(pub u8);

impl Document for RecordOne {
    fn refusal_of_no_record(&self, number: u8) -> Refusal {
        let record = u8::from(number == self.0);
        Refusal { number, record }
    }
}

/// Of no bytes, 1 comes before 30.
pub struct LengthBeforeSize;

impl Document for LengthBeforeSize {
    fn sheet_fault(&self, size: usize, sheet: &[u8]) -> Option<u8> {
        if sheet.is_empty() {
            Some(1)
        } else {
            Document01.sheet_fault(size, sheet)
        }
    }
}

/// "30, [..] before every other".
fn order_of_refusals() -> Vec<Wrong> {
    vec![
        wrong!(
            "report: 15 before 30",
            fn report_fault(&self, size: usize, output: usize) -> Option<u8> {
                if output < size {
                    Some(15)
                } else {
                    Document01.report_fault(size, output)
                }
            }
        ),
        wrong!(
            "append: 14 before 30",
            fn append_fault(&self, size: usize, record: usize, rest: Option<usize>) -> Option<u8> {
                if record != size {
                    Some(14)
                } else {
                    Document01.append_fault(size, record, rest)
                }
            }
        ),
        wrong!(
            "append: 13 before 30",
            fn append_fault(&self, size: usize, record: usize, rest: Option<usize>) -> Option<u8> {
                match Document01.append_fault(size, record, rest) {
                    Some(30) if rest.is_none_or(|rest| rest < size) => Some(13),
                    fault => fault,
                }
            }
        ),
    ]
}

/// "13 to 15 count 28 bytes for the new size".
fn bytes_counted() -> Vec<Wrong> {
    vec![
        wrong!(
            "append: 13 counts 20 bytes for either size",
            fn append_fault(&self, size: usize, record: usize, rest: Option<usize>) -> Option<u8> {
                match Document01.append_fault(size, record, rest) {
                    Some(13) if rest.is_some_and(|rest| rest >= FOUR_POLLUTANTS) => None,
                    fault => fault,
                }
            }
        ),
        wrong!(
            "append: 13 counts 28 bytes for either size",
            fn append_fault(&self, size: usize, record: usize, rest: Option<usize>) -> Option<u8> {
                match Document01.append_fault(size, record, rest) {
                    None if rest.is_some_and(|rest| rest < SIX_POLLUTANTS) => Some(13),
                    fault => fault,
                }
            }
        ),
        wrong!(
            "append: 14 counts 20 bytes for either size",
            fn append_fault(&self, size: usize, record: usize, rest: Option<usize>) -> Option<u8> {
                match Document01.append_fault(size, record, rest) {
                    None if record != FOUR_POLLUTANTS => Some(14),
                    fault => fault,
                }
            }
        ),
        wrong!(
            "append: 14 lets a record of 20 bytes pass for either size",
            fn append_fault(&self, size: usize, record: usize, rest: Option<usize>) -> Option<u8> {
                match Document01.append_fault(size, record, rest) {
                    Some(14) if record == FOUR_POLLUTANTS => {
                        Document01.append_fault(record, record, rest)
                    }
                    fault => fault,
                }
            }
        ),
        wrong!(
            "append: 14 counts 28 bytes for either size",
            fn append_fault(&self, size: usize, record: usize, rest: Option<usize>) -> Option<u8> {
                match Document01.append_fault(size, record, rest) {
                    None if record != SIX_POLLUTANTS => Some(14),
                    fault => fault,
                }
            }
        ),
        wrong!(
            "report: 15 counts 20 bytes for either size",
            fn report_fault(&self, size: usize, output: usize) -> Option<u8> {
                match Document01.report_fault(size, output) {
                    Some(15) if output >= FOUR_POLLUTANTS => None,
                    fault => fault,
                }
            }
        ),
        wrong!(
            "report: 15 counts 28 bytes for either size",
            fn report_fault(&self, size: usize, output: usize) -> Option<u8> {
                match Document01.report_fault(size, output) {
                    None if output < SIX_POLLUTANTS => Some(15),
                    fault => fault,
                }
            }
        ),
    ]
}

/// "Its report is 28 bytes with six pairs and twelve zeros."
fn reports() -> Vec<Wrong> {
    vec![
        wrong!(
            "report: four pairs and sixteen zeros for six pollutants",
            fn report_bytes(&self, _: usize, judgement: &Judgement) -> [u8; LONGEST_REPORT] {
                Document01.report_bytes(FOUR_POLLUTANTS, judgement)
            }
        ),
        wrong!(
            "report: the pair of pollutant 5 dropped",
            fn report_bytes(&self, size: usize, judgement: &Judgement) -> [u8; LONGEST_REPORT] {
                let mut bytes = Document01.report_bytes(size, judgement);
                bytes.copy_within(14.., 12);
                bytes
            }
        ),
        wrong!(
            "report: the pair of pollutant 6 dropped",
            fn report_bytes(&self, size: usize, judgement: &Judgement) -> [u8; LONGEST_REPORT] {
                let mut bytes = Document01.report_bytes(size, judgement);
                bytes[14..16].fill(0);
                bytes
            }
        ),
        wrong!(
            "report: the pairs of pollutants 5 and 6 exchanged",
            fn report_bytes(&self, size: usize, judgement: &Judgement) -> [u8; LONGEST_REPORT] {
                let mut bytes = Document01.report_bytes(size, judgement);
                bytes[12..16].rotate_left(2);
                bytes
            }
        ),
        wrong!(
            "report: the pairs of pollutants 5 and 6 behind the zeros",
            fn report_bytes(&self, size: usize, judgement: &Judgement) -> [u8; LONGEST_REPORT] {
                let mut bytes = Document01.report_bytes(size, judgement);
                bytes[12..].rotate_left(4);
                bytes
            }
        ),
        wrong!(
            "report: the size as the mark",
            fn report_bytes(&self, size: usize, judgement: &Judgement) -> [u8; LONGEST_REPORT] {
                let mut bytes = Document01.report_bytes(size, judgement);
                bytes[0] = if size == SIX_POLLUTANTS { 28 } else { 16 };
                bytes
            }
        ),
        wrong!(
            "report: 20 bytes for either size",
            fn bytes_written(&self, _: usize) -> usize {
                FOUR_POLLUTANTS
            }
        ),
        wrong!(
            "report: eight zeros for either size",
            fn bytes_written(&self, size: usize) -> usize {
                4 + 2 * self.pollutants(size) + 8
            }
        ),
        wrong!(
            "report: 28 bytes for either size",
            fn bytes_written(&self, _: usize) -> usize {
                SIX_POLLUTANTS
            }
        ),
    ]
}

/// "Two records more than the old maximum", and "the checks of a sheet, by its size".
fn records_held() -> Vec<Wrong> {
    vec![
        wrong!(
            "refusal 1: 39 records for either size",
            fn most_records(&self, _: usize) -> usize {
                39
            }
        ),
        wrong!(
            "refusal 1: 41 records for either size",
            fn most_records(&self, _: usize) -> usize {
                41
            }
        ),
        wrong!(
            "refusal 1: one record more for six pollutants",
            fn most_records(&self, size: usize) -> usize {
                match size {
                    SIX_POLLUTANTS => 40,
                    _ => 39,
                }
            }
        ),
        wrong!(
            "refusal 1: three records more for six pollutants",
            fn most_records(&self, size: usize) -> usize {
                match size {
                    SIX_POLLUTANTS => 42,
                    _ => 39,
                }
            }
        ),
        wrong!(
            "refusal 1: for four pollutants 38 records, as before F-2",
            fn most_records(&self, size: usize) -> usize {
                match size {
                    SIX_POLLUTANTS => 41,
                    _ => 38,
                }
            }
        ),
        wrong!(
            "refusal 1: for four pollutants 40 records",
            fn most_records(&self, size: usize) -> usize {
                match size {
                    SIX_POLLUTANTS => 41,
                    _ => 40,
                }
            }
        ),
        wrong!(
            "refusal 1: 780 bytes for either size",
            fn longest_sheet(&self, _: usize) -> usize {
                780
            }
        ),
        wrong!(
            "refusal 1: a multiple of 20 for either size",
            fn length_fits(&self, size: usize, length: usize) -> bool {
                let longest = self.longest_sheet(size);
                length != 0 && length.is_multiple_of(FOUR_POLLUTANTS) && length <= longest
            }
        ),
        wrong!(
            "refusal 1: a multiple of either size",
            fn length_fits(&self, size: usize, length: usize) -> bool {
                let whole = SIZES.iter().any(|size| length.is_multiple_of(*size));
                length != 0 && whole && length <= self.longest_sheet(size)
            }
        ),
        wrong!(
            "refusal 10: two engines more for six pollutants",
            fn is_one_too_many(&self, so_far: &Series) -> bool {
                let more = if so_far.size == SIX_POLLUTANTS { 2 } else { 0 };
                so_far.tested == self.last_row(so_far.plan) + more
            }
        ),
    ]
}

/// "A 28-byte record has six measurements; pollutant numbers run to 6".
fn pollutants() -> Vec<Wrong> {
    vec![
        wrong!(
            "refusal 4: pollutant numbers run to 4 for either size",
            fn pollutant_fits(&self, number: u8, so_far: &Series) -> bool {
                number <= 4 && Document01.pollutant_fits(number, so_far)
            }
        ),
        wrong!(
            "refusal 4: pollutant numbers run to 5",
            fn pollutant_fits(&self, number: u8, so_far: &Series) -> bool {
                number <= 5 && Document01.pollutant_fits(number, so_far)
            }
        ),
        wrong!(
            "refusal 4: pollutant numbers run to 6 for either size",
            fn pollutant_fits(&self, number: u8, so_far: &Series) -> bool {
                (1..=6).contains(&number) && number > so_far.highest_pollutant
            }
        ),
        wrong!(
            "refusal 8: measurements 5 and 6 not looked at",
            fn measurements_fit(&self, record: &Record, so_far: &Series) -> bool {
                let size = FOUR_POLLUTANTS;
                Document01.measurements_fit(record, &Series { size, ..*so_far })
            }
        ),
        wrong!(
            "refusal 8: measurement 6 not looked at",
            fn measurements_fit(&self, record: &Record, so_far: &Series) -> bool {
                let first_five = &record[..record.len().min(24)];
                let mut limits = so_far.limits;
                limits[5] = 0;
                Document01.measurements_fit(first_five, &Series { limits, ..*so_far })
            }
        ),
        wrong!(
            "refusal 8: measurements 5 and 6 of undeclared pollutants not looked at",
            fn measurements_fit(&self, record: &Record, so_far: &Series) -> bool {
                let fits = |pollutant: usize| {
                    let x = self.measurement(record, pollutant);
                    so_far.limits[pollutant] == 0 || self.measurement_fits(x)
                };
                let size = FOUR_POLLUTANTS;
                let first_four = Series { size, ..*so_far };
                Document01.measurements_fit(record, &first_four) && (4..6).all(fits)
            }
        ),
        wrong!(
            "refusal 8: run-in values 5 and 6 not looked at",
            fn run_in_values_fit(&self, record: &Record, so_far: &Series) -> bool {
                let size = FOUR_POLLUTANTS;
                Document01.run_in_values_fit(record, &Series { size, ..*so_far })
            }
        ),
        wrong!(
            "run-in values: pollutants 5 and 6 not corrected",
            fn run_in(&self, series: &Series, pollutant: usize) -> Option<RunIn<u32>> {
                let of_four = pollutant < 4;
                of_four
                    .then(|| Document01.run_in(series, pollutant))
                    .flatten()
            }
        ),
        wrong!(
            "run-in values: 5 and 6 exchanged",
            fn run_in_value(&self, record: &Record, pollutant: usize) -> u32 {
                Document01.run_in_value(record, [0, 1, 2, 3, 5, 4][pollutant])
            }
        ),
        wrong!(
            "refusal 9: pollutants 5 and 6 make no gross emitters",
            fn is_gross_emitter(&self, record: &Record, so_far: &Series) -> bool {
                let size = FOUR_POLLUTANTS;
                Document01.is_gross_emitter(record, &Series { size, ..*so_far })
            }
        ),
        wrong!(
            "refusal 9: pollutant 5 makes no gross emitters",
            fn is_gross_emitter(&self, record: &Record, so_far: &Series) -> bool {
                let mut limits = so_far.limits;
                limits[4] = u32::MAX;
                Document01.is_gross_emitter(record, &Series { limits, ..*so_far })
            }
        ),
        wrong!(
            "refusal 9: pollutant 6 makes no gross emitters",
            fn is_gross_emitter(&self, record: &Record, so_far: &Series) -> bool {
                let mut limits = so_far.limits;
                limits[5] = u32::MAX;
                Document01.is_gross_emitter(record, &Series { limits, ..*so_far })
            }
        ),
        wrong!(
            "sheet: measurements 5 and 6 exchanged",
            fn measurement(&self, record: &Record, pollutant: usize) -> u32 {
                number_at(record, [4, 8, 12, 16, 24, 20][pollutant])
            }
        ),
        wrong!(
            "sheet: measurements 5 and 6 before the others",
            fn measurement(&self, record: &Record, pollutant: usize) -> u32 {
                let six = record.len() == SIX_POLLUTANTS;
                let place = if six { (pollutant + 2) % 6 } else { pollutant };
                number_at(record, 4 + 4 * place)
            }
        ),
        wrong!(
            "the series goes by pollutants 1 to 4",
            fn is_judged(&self, pollutant: usize, limit: u32) -> bool {
                pollutant < 4 && limit != 0
            }
        ),
        wrong!(
            "the series goes by pollutants 1 to 5",
            fn is_judged(&self, pollutant: usize, limit: u32) -> bool {
                pollutant < 5 && limit != 0
            }
        ),
    ]
}

/// "Other fields keep their bytes with the new ones zero".
fn zeros() -> Vec<Wrong> {
    vec![
        wrong!(
            "refusal 12: a pollutant's bytes from 20 on not looked at",
            fn pollutant_rest_is_zero(&self, record: &Record) -> bool {
                Document01.pollutant_rest_is_zero(&record[..FOUR_POLLUTANTS])
            }
        ),
        wrong!(
            "refusal 12: a pollutant's last byte not looked at",
            fn pollutant_rest_is_zero(&self, record: &Record) -> bool {
                Document01.pollutant_rest_is_zero(&record[..record.len() - 1])
            }
        ),
        wrong!(
            "refusal 12: of a pollutant's 28 bytes only the last eight looked at",
            fn pollutant_rest_is_zero(&self, record: &Record) -> bool {
                let mut rest = record.to_vec();
                rest.drain(12..record.len() - 8);
                Document01.pollutant_rest_is_zero(&rest)
            }
        ),
        wrong!(
            "refusal 12: a stop's bytes from 20 on not looked at",
            fn stop_rest_is_zero(&self, record: &Record) -> bool {
                Document01.stop_rest_is_zero(&record[..FOUR_POLLUTANTS])
            }
        ),
        wrong!(
            "refusal 12: of a stop's 28 bytes only the last eight looked at",
            fn stop_rest_is_zero(&self, record: &Record) -> bool {
                let from = if record.len() == SIX_POLLUTANTS {
                    20
                } else {
                    1
                };
                record[from..].iter().all(|&byte| byte == 0)
            }
        ),
        wrong!(
            "refusal 12: a small engine's bytes from 20 on not looked at",
            fn small_engine_rest_is_zero(&self, record: &Record) -> bool {
                Document01.small_engine_rest_is_zero(&record[..FOUR_POLLUTANTS])
            }
        ),
        wrong!(
            "refusal 12: of a small engine's 28 bytes those from 12 to 19 not looked at",
            fn small_engine_rest_is_zero(&self, record: &Record) -> bool {
                let mut rest = record.to_vec();
                rest.drain(12..record.len() - 8);
                Document01.small_engine_rest_is_zero(&rest)
            }
        ),
    ]
}
