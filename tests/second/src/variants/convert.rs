//! Wrong readings of document 02's request F-10 that are seen in what the converter answers.

use super::sizes::{no_sizes_accepted, LengthBeforeSize, RecordOne};
use super::{is_of_record, wrong, Wrong};
use crate::check::{check, Record, Refusal, Series};
use crate::check::{ENGINE, POLLUTANT, RUN_IN, SMALL_ENGINE, STOP};
use crate::check::{FOUR_POLLUTANTS, SIX_POLLUTANTS};
use crate::document::{Document, Document01};

pub fn convert() -> Vec<Wrong> {
    let mut all = sizes_named();
    all.extend(too_narrow());
    all.extend(too_short());
    all.extend(order_of_refusals());
    all.extend(records_of_refusals());
    all.extend(bytes_carried());
    all.extend(sheets_carried());
    all.extend(written());
    all
}

/// "30, size not 20 or 28", and the other of them for the output.
fn sizes_named() -> Vec<Wrong> {
    let mut all = no_sizes_accepted("convert");
    all.extend([
        wrong!(
            "convert: the size is that of the output",
            fn convert_refusal(
                &self,
                size: usize,
                sheet: &[u8],
                output: usize,
                _: Result<Series, Refusal>,
            ) -> Option<Refusal> {
                if !self.size_fits(size) {
                    return Some(Refusal::of_no_record(30));
                }
                let given = self.other_size(size);
                let checked = check(self, given, sheet);
                Document01.convert_refusal(given, sheet, output, checked)
            }
        ),
        wrong!(
            "convert: widened by four bytes",
            fn other_size(&self, size: usize) -> usize {
                match size {
                    SIX_POLLUTANTS => FOUR_POLLUTANTS,
                    _ => 24,
                }
            }
        ),
        wrong!(
            "convert: to 20 bytes from either size",
            fn other_size(&self, _: usize) -> usize {
                FOUR_POLLUTANTS
            }
        ),
        wrong!(
            "convert: to 28 bytes from either size",
            fn other_size(&self, _: usize) -> usize {
                SIX_POLLUTANTS
            }
        ),
    ]);
    all
}

/// "31, narrowing a sheet that declares pollutant 5 or 6".
fn too_narrow() -> Vec<Wrong> {
    vec![
        wrong!(
            "convert: 31 forgotten",
            fn is_too_narrow(&self, _: usize, _: &Series) -> bool {
                false
            }
        ),
        wrong!(
            "convert: 31 for pollutant 6 only",
            fn is_too_narrow(&self, other_size: usize, series: &Series) -> bool {
                other_size == FOUR_POLLUTANTS && series.limits[5] != 0
            }
        ),
        wrong!(
            "convert: 31 for pollutant 5 only",
            fn is_too_narrow(&self, other_size: usize, series: &Series) -> bool {
                other_size == FOUR_POLLUTANTS && series.limits[4] != 0
            }
        ),
        wrong!(
            "convert: 31 for pollutant 4 too",
            fn is_too_narrow(&self, other_size: usize, series: &Series) -> bool {
                other_size == FOUR_POLLUTANTS && series.highest_pollutant >= 4
            }
        ),
        wrong!(
            "convert: 31 for more than four pollutants",
            fn is_too_narrow(&self, other_size: usize, series: &Series) -> bool {
                other_size == FOUR_POLLUTANTS && series.declared > 4
            }
        ),
        wrong!(
            "convert: 31 only where an engine is tested",
            fn is_too_narrow(&self, other_size: usize, series: &Series) -> bool {
                series.tested > 0 && Document01.is_too_narrow(other_size, series)
            }
        ),
        wrong!(
            "convert: 31 for every sheet of 28 bytes a record",
            fn is_too_narrow(&self, other_size: usize, _: &Series) -> bool {
                other_size == FOUR_POLLUTANTS
            }
        ),
    ]
}

/// "32, converter output too short".
fn too_short() -> Vec<Wrong> {
    vec![
        wrong!(
            "convert: 32 for an output of the very length",
            fn is_too_short(&self, output: usize, carried: usize) -> bool {
                output <= carried
            }
        ),
        wrong!(
            "convert: 32 for an output of another length",
            fn is_too_short(&self, output: usize, carried: usize) -> bool {
                output != carried
            }
        ),
        wrong!(
            "convert: 32 forgotten",
            fn is_too_short(&self, _: usize, _: usize) -> bool {
                false
            }
        ),
        wrong!(
            "convert: an output one byte short accepted",
            fn is_too_short(&self, output: usize, carried: usize) -> bool {
                output + 1 < carried
            }
        ),
        wrong!(
            "convert: 32 by the length of the given sheet",
            fn convert_refusal(
                &self,
                size: usize,
                sheet: &[u8],
                output: usize,
                checked: Result<Series, Refusal>,
            ) -> Option<Refusal> {
                let refusal = Document01.convert_refusal(size, sheet, usize::MAX, checked);
                let short = output < sheet.len();
                refusal.or(short.then_some(Refusal::of_no_record(32)))
            }
        ),
        wrong!(
            "convert: 32 by the longest sheet of the other size",
            fn convert_refusal(
                &self,
                size: usize,
                sheet: &[u8],
                output: usize,
                checked: Result<Series, Refusal>,
            ) -> Option<Refusal> {
                let refusal = Document01.convert_refusal(size, sheet, output, checked);
                let short = output < self.longest_sheet(self.other_size(size));
                refusal.or(short.then_some(Refusal::of_no_record(32)))
            }
        ),
    ]
}

/// "30, [..] before every other; 31, [..] after the sheet's checks; 32, [..] after 31".
fn order_of_refusals() -> Vec<Wrong> {
    vec![
        Wrong::new("convert: 1 before 30", LengthBeforeSize),
        wrong!(
            "convert: 32 before 30",
            fn convert_refusal(
                &self,
                size: usize,
                sheet: &[u8],
                output: usize,
                checked: Result<Series, Refusal>,
            ) -> Option<Refusal> {
                match Document01.convert_refusal(size, sheet, output, checked) {
                    Some(Refusal { number: 30, .. }) if output < sheet.len() => {
                        Some(Refusal::of_no_record(32))
                    }
                    refusal => refusal,
                }
            }
        ),
        wrong!(
            "convert: 31 before the sheet's checks",
            fn convert_refusal(
                &self,
                size: usize,
                sheet: &[u8],
                output: usize,
                checked: Result<Series, Refusal>,
            ) -> Option<Refusal> {
                let declares =
                    |record: &Record| record[0] == POLLUTANT && (5..=6).contains(&record[1]);
                if size == SIX_POLLUTANTS && sheet.chunks_exact(size).any(declares) {
                    return Some(Refusal::of_no_record(31));
                }
                Document01.convert_refusal(size, sheet, output, checked)
            }
        ),
        wrong!(
            "convert: 32 before the sheet's checks",
            fn convert_refusal(
                &self,
                size: usize,
                sheet: &[u8],
                output: usize,
                checked: Result<Series, Refusal>,
            ) -> Option<Refusal> {
                let fits = self.size_fits(size);
                if fits && output < self.carried_length(size, sheet.len()) {
                    return Some(Refusal::of_no_record(32));
                }
                Document01.convert_refusal(size, sheet, output, checked)
            }
        ),
        wrong!(
            "convert: 32 before 31",
            fn convert_refusal(
                &self,
                size: usize,
                sheet: &[u8],
                output: usize,
                checked: Result<Series, Refusal>,
            ) -> Option<Refusal> {
                match Document01.convert_refusal(size, sheet, output, checked) {
                    Some(Refusal { number: 31, .. })
                        if output < self.carried_length(size, sheet.len()) =>
                    {
                        Some(Refusal::of_no_record(32))
                    }
                    refusal => refusal,
                }
            }
        ),
    ]
}

/// "30 to 32 return record 0."
fn records_of_refusals() -> Vec<Wrong> {
    vec![
        Wrong::new("convert: record 1 for refusal 30", RecordOne(30)),
        Wrong::new("convert: record 1 for refusal 31", RecordOne(31)),
        Wrong::new("convert: record 1 for refusal 32", RecordOne(32)),
        wrong!(
            "convert: a sheet's own refusal with record 0",
            fn convert_refusal(
                &self,
                size: usize,
                sheet: &[u8],
                output: usize,
                checked: Result<Series, Refusal>,
            ) -> Option<Refusal> {
                let refusal = Document01.convert_refusal(size, sheet, output, checked)?;
                Some(Refusal::of_no_record(refusal.number))
            }
        ),
    ]
}

/// "Added bytes zero", and the others kept. Of an accepted sheet byte 19 is zero, as 9,999,999 has
/// three bytes: that it is not carried over is seen where the output held something else.
fn bytes_carried() -> Vec<Wrong> {
    vec![
        wrong!(
            "convert: added bytes not written",
            fn carry_record(&self, record: &Record, place: &mut Record) {
                let kept = record.len().min(place.len());
                place[..kept].copy_from_slice(&record[..kept]);
            }
        ),
        wrong!(
            "convert: the last added byte not written",
            fn carry_record(&self, record: &Record, place: &mut Record) {
                let last = place[place.len() - 1];
                Document01.carry_record(record, place);
                if place.len() > record.len() {
                    place[place.len() - 1] = last;
                }
            }
        ),
        wrong!(
            "convert: pollutant 4's measurement repeated in the added bytes",
            fn carry_record(&self, record: &Record, place: &mut Record) {
                Document01.carry_record(record, place);
                if place.len() == SIX_POLLUTANTS {
                    place.copy_within(16..20, 20);
                }
            }
        ),
        wrong!(
            "convert: byte 19 not carried over",
            fn carry_record(&self, record: &Record, place: &mut Record) {
                let before = place[19];
                Document01.carry_record(record, place);
                place[19] = before;
            }
        ),
        wrong!(
            "convert: byte 18 left zero",
            fn carry_record(&self, record: &Record, place: &mut Record) {
                Document01.carry_record(record, place);
                place[18] = 0;
            }
        ),
        wrong!(
            // Of an accepted sheet this byte is a small engine's alone, the highest of its date.
            "convert: byte 11 left zero",
            fn carry_record(&self, record: &Record, place: &mut Record) {
                Document01.carry_record(record, place);
                place[11] = 0;
            }
        ),
        wrong!(
            "convert: byte 3 left zero",
            fn carry_record(&self, record: &Record, place: &mut Record) {
                Document01.carry_record(record, place);
                place[3] = 0;
            }
        ),
        wrong!(
            "convert: added bytes before the measurements",
            fn carry_record(&self, record: &Record, place: &mut Record) {
                Document01.carry_record(record, place);
                if place.len() > record.len() {
                    place[4..].rotate_right(8);
                }
            }
        ),
        wrong!(
            "convert: narrowed to the last 20 bytes",
            fn carry_record(&self, record: &Record, place: &mut Record) {
                let dropped = record.len().saturating_sub(place.len());
                Document01.carry_record(&record[dropped..], place);
            }
        ),
        wrong!(
            "convert: all records, then all added bytes",
            fn carry(&self, _: usize, sheet: &[u8], carried: &mut [u8]) {
                self.carry_record(sheet, carried);
            }
        ),
    ]
}

/// "Carries accepted sheets", whole.
fn sheets_carried() -> Vec<Wrong> {
    vec![
        wrong!(
            "convert: the last record not carried",
            fn carried_length(&self, size: usize, length: usize) -> usize {
                Document01.carried_length(size, length.saturating_sub(size))
            }
        ),
        wrong!(
            "convert: a stop not carried",
            fn carry_record(&self, record: &Record, place: &mut Record) {
                if record[0] != STOP {
                    Document01.carry_record(record, place);
                }
            }
        ),
        wrong!(
            "convert: a small engine not carried",
            fn carry_record(&self, record: &Record, place: &mut Record) {
                if record[0] != SMALL_ENGINE {
                    Document01.carry_record(record, place);
                }
            }
        ),
        wrong!(
            "convert: run-in values not carried",
            fn carry_record(&self, record: &Record, place: &mut Record) {
                if record[0] != RUN_IN {
                    Document01.carry_record(record, place);
                }
            }
        ),
        wrong!(
            "convert: run-in values carried as an engine",
            fn carry_record(&self, record: &Record, place: &mut Record) {
                Document01.carry_record(record, place);
                if place[0] == RUN_IN {
                    place[0] = ENGINE;
                }
            }
        ),
        wrong!(
            "convert: the bytes added to run-in values not written",
            fn carry_record(&self, record: &Record, place: &mut Record) {
                let before = place.to_vec();
                Document01.carry_record(record, place);
                if record[0] == RUN_IN && place.len() > record.len() {
                    place[record.len()..].copy_from_slice(&before[record.len()..]);
                }
            }
        ),
        wrong!(
            "convert: 2 for a small engine",
            fn kind_fits(&self, kind: u8) -> bool {
                kind != SMALL_ENGINE && Document01.kind_fits(kind)
            }
        ),
        wrong!(
            "convert: 2 for run-in values",
            fn kind_fits(&self, kind: u8) -> bool {
                kind != RUN_IN && Document01.kind_fits(kind)
            }
        ),
        wrong!(
            "convert: 16 not asked",
            fn small_engine_place_fits(&self, _: &Series) -> bool {
                true
            }
        ),
        wrong!(
            "convert: 17 not asked",
            fn date_fits(&self, _: u32) -> bool {
                true
            }
        ),
        wrong!(
            "convert: 18 not asked",
            fn particulate_limit_fits(&self, _: &Record, _: &Series) -> bool {
                true
            }
        ),
        wrong!(
            "convert: 19 not asked",
            fn run_in_place_fits(&self, _: &Series) -> bool {
                true
            }
        ),
        wrong!(
            "convert: 8 not asked of run-in values",
            fn run_in_values_fit(&self, _: &Record, _: &Series) -> bool {
                true
            }
        ),
        wrong!(
            "convert: 12 not asked of run-in values",
            fn run_in_rest_is_zero(&self, _: &Record) -> bool {
                true
            }
        ),
        wrong!(
            "convert: 9 for a pending vehicle, as before F-5",
            fn gross_cause_fits(&self, cause: u16) -> bool {
                !self.is_pending(cause) && Document01.gross_cause_fits(cause)
            }
        ),
        wrong!(
            "convert: 38 records at most, 40 of 28 bytes",
            fn most_records(&self, size: usize) -> usize {
                Document01.most_records(size) - 1
            }
        ),
        wrong!(
            "convert: a sheet of whole records carried unchecked",
            fn convert_refusal(
                &self,
                size: usize,
                sheet: &[u8],
                output: usize,
                checked: Result<Series, Refusal>,
            ) -> Option<Refusal> {
                match Document01.convert_refusal(size, sheet, output, checked) {
                    Some(refusal) if is_of_record(refusal) => None,
                    refusal => refusal,
                }
            }
        ),
    ]
}

/// "Output bytes past the sheet untouched", and none written by what is turned away.
fn written() -> Vec<Wrong> {
    vec![
        wrong!(
            "convert: bytes past the sheet zeroed",
            fn pass_over(&self, past: &mut [u8]) {
                past.fill(0);
            }
        ),
        wrong!(
            "convert: the byte past the sheet zeroed",
            fn pass_over(&self, past: &mut [u8]) {
                if let Some(byte) = past.first_mut() {
                    *byte = 0;
                }
            }
        ),
        wrong!(
            "convert: a sheet too wide written as far as it fits",
            fn is_carried(&self, refusal: Option<Refusal>) -> bool {
                refusal.is_none_or(|refusal| refusal.number == 31)
            }
        ),
        wrong!(
            "convert: a short output written as far as it goes",
            fn is_carried(&self, refusal: Option<Refusal>) -> bool {
                refusal.is_none_or(|refusal| refusal.number == 32)
            }
        ),
        wrong!(
            "convert: a sheet with a fault written",
            fn is_carried(&self, refusal: Option<Refusal>) -> bool {
                refusal.is_none_or(is_of_record)
            }
        ),
        wrong!(
            "convert: a sheet with a fault in its small engine written",
            fn is_carried(&self, refusal: Option<Refusal>) -> bool {
                refusal.is_none_or(|refusal| (16..=18).contains(&refusal.number))
            }
        ),
        wrong!(
            "convert: a sheet with run-in values in a wrong place written",
            fn is_carried(&self, refusal: Option<Refusal>) -> bool {
                refusal.is_none_or(|refusal| refusal.number == 19)
            }
        ),
    ]
}
