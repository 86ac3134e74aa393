//! "Other operations": evidence, append and report, and the lines the program `verdict` prints.

use crate::check::{check, Refusal, Series, SIX_POLLUTANTS};
use crate::document::Document;
use crate::judge::{judge, walk, Decision};

/// "Report writes 20 bytes", and F-10's "report is 28 bytes".
pub const LONGEST_REPORT: usize = 28;

/// "Evidence hands back the part of the sheet from its start". A reading that goes past the sheet's
/// end gets the whole sheet.
pub fn evidence<'a, D: Document + ?Sized>(
    document: &D,
    size: usize,
    sheet: &'a [u8],
) -> Result<&'a [u8], Refusal> {
    let checked = check(document, size, sheet);
    let series = checked.map_err(|refusal| document.evidence_refusal(refusal))?;
    let judgement = walk(document, &series);
    let through_engine = document.records_through(judgement.engine, &series);
    let whole = sheet.len() / size;
    let records = document.evidence_records(judgement.ground, through_engine, whole);
    let length = document.evidence_length(size, records).min(sheet.len());
    Ok(&sheet[..length])
}

/// "Append adds a record to the sheet in the first u bytes of a lent buffer", here `used`.
pub fn append<D: Document + ?Sized>(
    document: &D,
    size: usize,
    buffer: &mut [u8],
    used: usize,
    record: &[u8],
) -> Result<(), Refusal> {
    let rest = buffer.len().checked_sub(used);
    if let Some(number) = document.append_fault(size, record.len(), rest) {
        return Err(document.refusal_of_no_record(number));
    }
    if document.checks_sheet_there(used) {
        let there = check(document, size, &buffer[..used]).err();
        if let Some(refusal) = document.refusal_of_sheet_there(there) {
            return Err(refusal);
        }
    }
    let end = buffer.len().min(used + record.len());
    append_to_checked(document, size, &mut buffer[..end], used, record)
}

/// Writes the record at the joined sheet's end, and takes it back if the joined sheet is refused.
/// By 13 and 14 there is room for the record; a reading that misses them has it cut short.
fn append_to_checked<D: Document + ?Sized>(
    document: &D,
    size: usize,
    joined: &mut [u8],
    used: usize,
    record: &[u8],
) -> Result<(), Refusal> {
    let added = joined.len() - used;
    let mut before = [0; SIX_POLLUTANTS];
    before[..added].copy_from_slice(&joined[used..]);
    joined[used..].copy_from_slice(&record[..added]);
    let refusal = document.refusal_of_joined_sheet(check(document, size, joined).err());
    if !document.stays_written(refusal) {
        joined[used..].copy_from_slice(&before[..added]);
    }
    refusal.map_or(Ok(()), Err)
}

/// "Report writes 20 bytes", or 28. "Bytes past" them "stay".
pub fn report<D: Document + ?Sized>(
    document: &D,
    size: usize,
    sheet: &[u8],
    output: &mut [u8],
) -> Result<(), Refusal> {
    let judged = judge(document, size, sheet);
    let judgement = document.report_answer(size, output.len(), judged)?;
    let written = document.bytes_written(size).min(output.len());
    output[..written].copy_from_slice(&document.report_bytes(size, &judgement)[..written]);
    Ok(())
}

/// The lines of a sheet, or that of its refusal.
pub fn lines<D: Document + ?Sized>(document: &D, sheet: &[u8]) -> String {
    match check(document, document.size_of_verdict(), sheet) {
        Ok(series) => judgement_lines(document, &series),
        Err(refusal) => document.refused_line(refusal),
    }
}

fn judgement_lines<D: Document + ?Sized>(document: &D, series: &Series) -> String {
    let judgement = walk(document, series);
    let word = document.verdict_word(judgement.verdict);
    let mut text = document.first_line(word, judgement.engine, judgement.ground);
    for (pollutant, (decision, engine)) in judgement.decisions.into_iter().enumerate() {
        if document.has_line(series.limits[pollutant]) {
            let word = match decision {
                Decision::Open => "open",
                Decision::Pass => "pass",
                Decision::Fail => "fail",
            };
            text += &document.pollutant_line(pollutant + 1, word, engine);
        }
    }
    text
}
