//! Wrong readings of F-5 that are seen in what the operation answers that enters a finding, and in
//! what it leaves in the sheet.

use super::{pending_places, PENDING};
use crate::check::{Record, Refusal, Series, ENGINE};
use crate::document::{Document, Document01};
use crate::judge::{walk, Verdict};
use crate::variants::sizes::{no_sizes_accepted, LengthBeforeSize, RecordOne};
use crate::variants::{by_rule, is_of_record, wrong, Wrong};

pub fn finding() -> Vec<Wrong> {
    let mut all = order_of_refusals();
    all.extend(records_of_refusals());
    all.extend(engines_counted());
    all.extend(vehicles_pending());
    all.extend(findings_taken());
    all.extend(sheets_taken());
    all.extend(places_written());
    all.extend(bytes_written());
    all.extend(written());
    all
}

/// What is refused is answered otherwise, by this rule of the refusal, the engine and the finding.
struct Turned<R>(R);

impl<R: Fn(Refusal, u32, u32) -> Option<Refusal>> Document for Turned<R> {
    fn finding_refusal(
        &self,
        engine: u32,
        finding: u32,
        checked: Result<Series, Refusal>,
    ) -> Option<Refusal> {
        let refusal = Document01.finding_refusal(engine, finding, checked)?;
        (self.0)(refusal, engine, finding)
    }
}

/// A refusal gives way to one that comes after it, where that is due for the engine or the finding.
fn sooner(number: u8, before: fn(Refusal) -> bool, due: fn(u32, u32) -> bool) -> impl Document {
    Turned(move |refusal, engine, finding| {
        Some(match before(refusal) && due(engine, finding) {
            true => Refusal::of_no_record(number),
            false => refusal,
        })
    })
}

/// 23 for engine 0.
fn vehicle_sooner(before: fn(Refusal) -> bool) -> impl Document {
    sooner(23, before, |engine, _| engine == 0)
}

/// 24 for what is no finding.
fn finding_sooner(before: fn(Refusal) -> bool) -> impl Document {
    sooner(24, before, |_, finding| !Document01.finding_fits(finding))
}

/// "The sheet's own number; then 23, [..]; 24, [..], after 23".
fn order_of_refusals() -> Vec<Wrong> {
    let of_length = |refusal: Refusal| refusal.number == 1;
    let of_vehicle = |refusal: Refusal| refusal.number == 23;
    vec![
        Wrong::new("finding: 23 before 1", vehicle_sooner(of_length)),
        Wrong::new("finding: 24 before 1", finding_sooner(of_length)),
        Wrong::new(
            "finding: 23 before a record's",
            vehicle_sooner(is_of_record),
        ),
        Wrong::new(
            "finding: 24 before a record's",
            finding_sooner(is_of_record),
        ),
        Wrong::new("finding: 24 before 23", finding_sooner(of_vehicle)),
    ]
}

/// The size, of which F-10 has: "30, [..] before every other".
pub fn finding_by_size() -> Vec<Wrong> {
    let of_size = |refusal: Refusal| refusal.number == 30;
    let mut all = no_sizes_accepted("finding");
    all.extend([
        Wrong::new("finding: 1 before 30", LengthBeforeSize),
        Wrong::new("finding: 23 before 30", vehicle_sooner(of_size)),
        Wrong::new("finding: 24 before 30", finding_sooner(of_size)),
        Wrong::new("finding: record 1 for refusal 30", RecordOne(30)),
    ]);
    all
}

/// "Both return record 0."
fn records_of_refusals() -> Vec<Wrong> {
    vec![
        Wrong::new("finding: record 1 for refusal 23", RecordOne(23)),
        Wrong::new("finding: record 1 for refusal 24", RecordOne(24)),
        Wrong::new(
            "finding: 23 and 24 with the engine",
            Turned(|refusal: Refusal, engine, _| {
                let record = match refusal.number {
                    23 | 24 => engine as u8,
                    _ => refusal.record,
                };
                Some(Refusal { record, ..refusal })
            }),
        ),
        Wrong::new(
            "finding: a sheet's own refusal with record 0",
            Turned(|refusal: Refusal, _, _| Some(Refusal::of_no_record(refusal.number))),
        ),
    ]
}

/// The record of an engine is found by this rule, by the size and in the sheet.
struct Counted(fn(u32, usize, &[u8]) -> Option<usize>);

impl Document for Counted {
    fn place_of_engine(&self, engine: u32, size: usize, sheet: &[u8]) -> Option<usize> {
        (self.0)(engine, size, sheet)
    }
}

fn right(engine: u32, size: usize, sheet: &[u8]) -> Option<usize> {
    Document01.place_of_engine(engine, size, sheet)
}

/// How many records of kind 2 there are.
fn engines_in(size: usize, sheet: &[u8]) -> u32 {
    let records = sheet.chunks_exact(size);
    records.filter(|record| record[0] == ENGINE).count() as u32
}

/// The engine's record among those with such a cause, the first counted as 1.
fn counted_among(engine: u32, size: usize, sheet: &[u8], cause: fn(u16) -> bool) -> Option<usize> {
    let counted = |record: &Record| record[0] == ENGINE && cause(Document01.cause(record));
    let records = sheet.chunks_exact(size).enumerate();
    let mut records = records.filter(|(_, record)| counted(record));
    let (place, _) = records.nth(engine.checked_sub(1)? as usize)?;
    Some(place)
}

/// "That engine, counted from 1".
fn engines_counted() -> Vec<Wrong> {
    by_rule(
        Counted,
        "finding, the engine",
        [
            ("counted from 0", |engine, size, sheet| {
                right(engine.checked_add(1)?, size, sheet)
            }),
            ("0 taken for the first", |engine, size, sheet| {
                right(engine.max(1), size, sheet)
            }),
            ("0 taken for the last", |engine, size, sheet| match engine {
                0 => right(engines_in(size, sheet), size, sheet),
                _ => right(engine, size, sheet),
            }),
            (
                "beyond the last taken for the last",
                |engine, size, sheet| right(engine.min(engines_in(size, sheet)), size, sheet),
            ),
            ("taken in one byte", |engine, size, sheet| {
                right(engine % (1 << 8), size, sheet)
            }),
            ("taken in two bytes", |engine, size, sheet| {
                right(engine % (1 << 16), size, sheet)
            }),
            ("taken without its highest bit", |engine, size, sheet| {
                right(engine % (1 << 31), size, sheet)
            }),
            ("is the record of that number", |engine, size, sheet| {
                let place = engine as usize;
                (place < sheet.len() / size).then_some(place)
            }),
            ("counts pending vehicles alone", |engine, size, sheet| {
                counted_among(engine, size, sheet, |cause| cause == PENDING)
            }),
            ("counts gross emitters alone", |engine, size, sheet| {
                counted_among(engine, size, sheet, |cause| cause != 0)
            }),
            ("counted from the last back", |engine, size, sheet| {
                right(
                    (engines_in(size, sheet) + 1).checked_sub(engine)?,
                    size,
                    sheet,
                )
            }),
        ],
    )
}

/// An engine has a pending vehicle by this rule.
struct PendingAt(fn(u32, &Series) -> bool);

impl Document for PendingAt {
    fn is_pending_at(&self, engine: u32, series: &Series) -> bool {
        (self.0)(engine, series)
    }
}

fn pending(engine: u32, series: &Series) -> bool {
    Document01.is_pending_at(engine, series)
}

/// The cause of an engine, if the sheet has it.
fn cause_of(engine: u32, series: &Series) -> Option<u16> {
    let record = series
        .engines(&Document01)
        .nth(engine.checked_sub(1)? as usize)?;
    Some(Document01.cause(record))
}

fn verdict(series: &Series) -> Verdict {
    walk(&Document01, series).verdict
}

/// "23, no pending vehicle at that engine": one that is pending, wherever it stands.
fn vehicles_pending() -> Vec<Wrong> {
    by_rule(
        PendingAt,
        "finding, 23",
        [
            ("never", |engine, series| cause_of(engine, series).is_some()),
            ("not for a known cause", |engine, series| {
                cause_of(engine, series).is_some_and(|cause| cause != 0)
            }),
            (
                "not for a vehicle that is no gross emitter",
                |engine, series| {
                    cause_of(engine, series).is_some_and(|cause| cause == 0 || cause == PENDING)
                },
            ),
            ("where the sheet is not held", |engine, series| {
                pending(engine, series) && verdict(series) == Verdict::Held
            }),
            ("where the sheet is decided", |engine, series| {
                let decided = walk(&Document01, series).is_decided();
                pending(engine, series) && !decided
            }),
            ("below 3 vehicles", |engine, series| {
                pending(engine, series) && series.tested >= 3
            }),
            ("behind the row of the verdict", |engine, series| {
                let row = walk(&Document01, series).engine;
                pending(engine, series) && engine <= row.into()
            }),
            ("for all but the first pending vehicle", |engine, series| {
                pending_places(series).next() == Some(engine as usize)
            }),
            ("for all but the last pending vehicle", |engine, series| {
                pending_places(series).last() == Some(engine as usize)
            }),
            ("where several vehicles are pending", |engine, series| {
                pending(engine, series) && pending_places(series).count() == 1
            }),
            ("where vehicles follow", |engine, series| {
                pending(engine, series) && series.tested == engine as usize
            }),
            ("for the first vehicle", |engine, series| {
                pending(engine, series) && engine > 1
            }),
            ("for the fifteenth vehicle", |engine, series| {
                pending(engine, series) && engine < 15
            }),
        ],
    )
}

/// These findings are taken.
struct Taken(fn(u32) -> bool);

impl Document for Taken {
    fn finding_fits(&self, finding: u32) -> bool {
        (self.0)(finding)
    }
}

/// "24, finding not 1 to 65,534", asked of all its bits.
fn findings_taken() -> Vec<Wrong> {
    by_rule(
        Taken,
        "finding, 24",
        [
            ("0 taken", |finding| finding <= 65_534),
            ("1 refused", |finding| (2..=65_534).contains(&finding)),
            ("65,534 refused", |finding| (1..=65_533).contains(&finding)),
            ("65,535 taken", |finding| (1..=65_535).contains(&finding)),
            ("65,536 taken", |finding| {
                finding == 65_536 || Document01.finding_fits(finding)
            }),
            ("asked of the low 16 bits alone", |finding| {
                Document01.finding_fits(finding % (1 << 16))
            }),
            ("asked of the low 31 bits alone", |finding| {
                Document01.finding_fits(finding % (1 << 31))
            }),
            ("asked with a sign", |finding| {
                finding != 0 && finding as i32 <= 65_534
            }),
            ("256 refused, as of one byte", |finding| {
                (1..=255).contains(&finding)
            }),
            ("not asked", |_| true),
        ],
    )
}

/// "The sheet's own number": a sheet is checked as every operation checks it.
fn sheets_taken() -> Vec<Wrong> {
    vec![
        Wrong::new(
            "finding: a sheet with a fault taken",
            Turned(|refusal, _, _| Some(refusal).filter(|&refusal| !is_of_record(refusal))),
        ),
        Wrong::new(
            "finding: a sheet with a fault refused with 23",
            sooner(23, is_of_record, |_, _| true),
        ),
        wrong!(
            "finding: 9 for every pending vehicle, as before F-5",
            fn gross_cause_fits(&self, cause: u16) -> bool {
                cause != PENDING && Document01.gross_cause_fits(cause)
            }
        ),
        wrong!(
            "finding: 9 not asked",
            fn cause_fits(&self, _: &Record, _: &Series) -> bool {
                true
            }
        ),
        wrong!(
            "finding: 10 not asked",
            fn is_one_too_many(&self, _: &Series) -> bool {
                false
            }
        ),
    ]
}

/// The pending vehicle is the right one, and this record is written to.
struct WrittenAt(fn(u32, usize, &[u8]) -> Option<usize>);

impl Document for WrittenAt {
    fn is_pending_at(&self, engine: u32, series: &Series) -> bool {
        pending(engine, series)
    }

    fn place_of_engine(&self, engine: u32, size: usize, sheet: &[u8]) -> Option<usize> {
        (self.0)(engine, size, sheet)
    }
}

/// "That record's".
fn places_written() -> Vec<Wrong> {
    let mut all = by_rule(
        WrittenAt,
        "finding, written to",
        [
            ("no record", |_, _, _| None),
            (
                "the place without the pollutants' records",
                |engine, _, _| engine.checked_sub(1).map(|place| place as usize),
            ),
            ("the record before", |engine, size, sheet| {
                right(engine, size, sheet)?.checked_sub(1)
            }),
            ("the record behind", |engine, size, sheet| {
                let behind = right(engine, size, sheet)? + 1;
                (behind < sheet.len() / size).then_some(behind)
            }),
            ("the first pending vehicle", |_, size, sheet| {
                counted_among(1, size, sheet, |cause| cause == PENDING)
            }),
            ("the newest vehicle", |_, size, sheet| {
                right(engines_in(size, sheet), size, sheet)
            }),
        ],
    );
    all.push(wrong!(
        "finding, written to every pending vehicle",
        fn enter(&self, _: u32, finding: u32, size: usize, sheet: &mut [u8]) {
            for record in sheet.chunks_exact_mut(size) {
                if record[0] == ENGINE && self.cause(record) == PENDING {
                    self.enter_cause(record, finding);
                }
            }
        }
    ));
    all
}

/// The finding is written into its record so.
struct Entered(fn(&mut Record, u32));

impl Document for Entered {
    fn enter_cause(&self, record: &mut Record, finding: u32) {
        (self.0)(record, finding);
    }
}

/// "Changes only that record's two cause bytes".
fn bytes_written() -> Vec<Wrong> {
    by_rule(
        Entered,
        "finding, written",
        [
            ("with its bytes exchanged", |record, finding| {
                record[2..4].copy_from_slice(&(finding as u16).to_be_bytes());
            }),
            ("in its low byte alone", |record, finding| {
                record[2] = finding as u8;
            }),
            ("in its high byte alone", |record, finding| {
                record[3] = (finding >> 8) as u8;
            }),
            ("in four bytes", |record, finding| {
                record[2..6].copy_from_slice(&finding.to_le_bytes());
            }),
            ("in three bytes", |record, finding| {
                record[2..5].copy_from_slice(&finding.to_le_bytes()[..3]);
            }),
            ("a byte too early", |record, finding| {
                record[1..3].copy_from_slice(&(finding as u16).to_le_bytes());
            }),
            ("a byte too late", |record, finding| {
                record[3..5].copy_from_slice(&(finding as u16).to_le_bytes());
            }),
            ("with byte 1 marked", |record, finding| {
                Document01.enter_cause(record, finding);
                record[1] = 1;
            }),
            ("with the measurements set to zero", |record, finding| {
                Document01.enter_cause(record, finding);
                record[4..].fill(0);
            }),
            (
                "with the last byte of the record marked",
                |record, finding| {
                    Document01.enter_cause(record, finding);
                    record[record.len() - 1] = 1;
                },
            ),
        ],
    )
}

/// A finding that is turned away with one of these numbers is written.
struct WrittenWith(fn(Refusal) -> bool);

impl Document for WrittenWith {
    fn is_entered(&self, refusal: Option<Refusal>) -> bool {
        refusal.is_none_or(self.0)
    }
}

/// What is turned away writes nothing.
fn written() -> Vec<Wrong> {
    let mut all = by_rule(
        WrittenWith,
        "finding, written though refused",
        [
            ("with 23", |refusal| refusal.number == 23),
            ("with 24", |refusal| refusal.number == 24),
            ("with 9", |refusal| refusal.number == 9),
            ("for a fault of a record", is_of_record),
        ],
    );
    all.push(wrong!(
        "finding: success, and nothing written",
        fn is_entered(&self, _: Option<Refusal>) -> bool {
            false
        }
    ));
    all
}
