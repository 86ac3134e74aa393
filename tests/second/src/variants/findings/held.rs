//! Wrong readings of F-5 that are seen in what report and append answer, in records of either size:
//! which vehicles may be pending, which row is held, and what a held series answers.

use super::{pending_places, PENDING};
use crate::check::{Record, Series};
use crate::document::{Document, Document01};
use crate::judge::{Decision, Ending, GrossEmitters, Ground, Judgement, Verdict};
use crate::operations::LONGEST_REPORT;
use crate::variants::report::AfterStatistics;
use crate::variants::{by_rule, wrong, Wrong};

pub fn held() -> Vec<Wrong> {
    let mut all = marks();
    all.extend(vehicles_admitted());
    all.extend(equal_causes());
    all.extend(order());
    all.extend(rows_held());
    all.extend(engines_named());
    all.extend(behind_the_row());
    all.extend(vehicles_behind());
    all.extend(outside_the_row());
    all.extend(numbers_reported());
    all.extend(decisions());
    all
}

/// Other causes mark a pending finding.
struct Marked(fn(u16) -> bool);

impl Document for Marked {
    fn is_pending(&self, cause: u16) -> bool {
        (self.0)(cause)
    }
}

/// "Cause 65,535 now marks a gross emitter whose finding is pending".
fn marks() -> Vec<Wrong> {
    by_rule(
        Marked,
        "pending is marked by",
        [
            ("0, as of no finding", |cause| cause == 0),
            ("65,534", |cause| cause == 65_534),
            ("65,534 and 65,535", |cause| cause >= 65_534),
            ("a low byte of 255", |cause| cause % 256 == 255),
            ("a high byte of 255", |cause| cause / 256 == 255),
            ("the highest bit", |cause| cause >= 32_768),
        ],
    )
}

/// Refusal 9 admits 65,535 of such engines: by the plan, and by whether it is a gross emitter.
struct Admitted(fn(u8, bool) -> bool);

impl Document for Admitted {
    fn cause_fits(&self, record: &Record, so_far: &Series) -> bool {
        if self.is_pending(self.cause(record)) {
            (self.0)(so_far.plan, self.is_gross_emitter(record, so_far))
        } else {
            Document01.cause_fits(record, so_far)
        }
    }
}

/// "Refusal 9 admits it there": for a gross emitter, of plan 4.
fn vehicles_admitted() -> Vec<Wrong> {
    by_rule(
        Admitted,
        "refusal 9: 65,535 admitted",
        [
            ("nowhere, as before F-5", |_, _| false),
            ("of every engine", |_, _| true),
            ("of every vehicle of plan 4", |plan, _| plan == 4),
            ("of a vehicle that is no gross emitter", |plan, gross| {
                plan == 4 && !gross
            }),
            ("of a gross emitter in every plan", |_, gross| gross),
            ("of a gross emitter in plan 1 too", |plan, gross| {
                gross && [1, 4].contains(&plan)
            }),
            ("of a gross emitter in plan 2 too", |plan, gross| {
                gross && [2, 4].contains(&plan)
            }),
            ("of a gross emitter in plan 3 too", |plan, gross| {
                gross && [3, 4].contains(&plan)
            }),
            ("of a gross emitter in plan 5 too", |plan, gross| {
                gross && [4, 5].contains(&plan)
            }),
        ],
    )
}

/// A vehicle's cause counts as equal to one of those before it by this rule.
struct Equal(fn(&[u16], u16) -> bool);

impl Document for Equal {
    fn is_equal_cause(&self, before: &[u16], cause: u16) -> bool {
        (self.0)(before, cause)
    }
}

/// "Two equal known causes still fail the series".
fn equal_causes() -> Vec<Wrong> {
    by_rule(
        Equal,
        "plan 4, equal cause",
        [
            ("two pending vehicles", |before, cause| {
                before.contains(&cause)
            }),
            ("a pending vehicle and one before it", |before, cause| {
                cause == PENDING && !before.is_empty() || Document01.is_equal_cause(before, cause)
            }),
            ("a pending vehicle and one behind it", |before, cause| {
                before.contains(&PENDING) || Document01.is_equal_cause(before, cause)
            }),
            ("not behind a pending vehicle", |before, cause| {
                !before.contains(&PENDING) && Document01.is_equal_cause(before, cause)
            }),
            (
                "not with a pending vehicle between the two",
                |before, cause| {
                    before.last() != Some(&PENDING) && Document01.is_equal_cause(before, cause)
                },
            ),
        ],
    )
}

const EQUAL_CAUSE: Ending = (Verdict::Fail, Ground::EqualCause);
const HELD: Ending = (Verdict::Held, Ground::Held);
const REFERRED: Ending = (Verdict::Referred, Ground::Referred);

/// "Two equal known causes still fail the series; otherwise the verdict is 4": behind equal cause,
/// and before referral and the row's statistics.
fn order() -> Vec<Wrong> {
    vec![
        wrong!(
            "plan 4: held tested before equal cause",
            fn before_statistics(&self, n: usize, gross: &GrossEmitters) -> Option<Ending> {
                match Document01.before_statistics(n, gross) {
                    Some(EQUAL_CAUSE) if self.is_held(n, gross) => Some(HELD),
                    before => before,
                }
            }
        ),
        wrong!(
            "plan 4: referral tested before held",
            fn before_statistics(&self, n: usize, gross: &GrossEmitters) -> Option<Ending> {
                match Document01.before_statistics(n, gross) {
                    Some(HELD) if self.is_referred(n, gross.count) => Some(REFERRED),
                    before => before,
                }
            }
        ),
        Wrong::new(
            "plan 4: held tested after the statistics",
            AfterStatistics(Ground::Held),
        ),
    ]
}

/// Row n is held by this rule.
struct HeldBy(fn(usize, &GrossEmitters) -> bool);

impl Document for HeldBy {
    fn is_held(&self, n: usize, gross: &GrossEmitters) -> bool {
        (self.0)(n, gross)
    }
}

/// This row is not held.
struct NotHeld {
    row: usize,
}

impl Document for NotHeld {
    fn is_held(&self, n: usize, gross: &GrossEmitters) -> bool {
        n != self.row && Document01.is_held(n, gross)
    }
}

/// One of these vehicles is pending.
fn pending_among<const N: usize>(places: [usize; N], gross: &GrossEmitters) -> bool {
    places.iter().any(|&n| gross.cause_of(n) == Some(PENDING))
}

/// "At the first row with a pending vehicle among its engines".
fn rows_held() -> Vec<Wrong> {
    let mut all = by_rule(
        HeldBy,
        "plan 4, a row is held",
        [
            ("never", |_, _| false),
            ("for its newest vehicle alone", |n, gross| {
                pending_among([n], gross)
            }),
            ("at 3 for its newest vehicle alone", |n, gross| {
                gross.pending > 0 && (n > 3 || pending_among([3], gross))
            }),
            ("at 3 for the first or the second alone", |n, gross| {
                gross.pending > 0 && (n > 3 || pending_among([1, 2], gross))
            }),
            ("at 3 for the first or the third alone", |n, gross| {
                gross.pending > 0 && (n > 3 || pending_among([1, 3], gross))
            }),
            ("at 3 for the second or the third alone", |n, gross| {
                gross.pending > 0 && (n > 3 || pending_among([2, 3], gross))
            }),
            ("at 3 alone", |n, gross| n == 3 && gross.pending > 0),
            ("at 15 alone", |n, gross| n == 15 && gross.pending > 0),
            ("for one pending vehicle, not for more", |_, gross| {
                gross.pending == 1
            }),
            ("for two pending vehicles or more", |_, gross| {
                gross.pending >= 2
            }),
            ("where no other cause is known", |_, gross| {
                gross.pending > 0 && gross.pending == gross.count
            }),
            ("where another cause is known", |_, gross| {
                gross.pending > 0 && gross.pending < gross.count
            }),
            ("for every gross emitter", |_, gross| gross.count > 0),
        ],
    );
    all.extend((3..=15).map(|row| {
        let what = format!("plan 4, a row is held: {row} is not");
        Wrong::new(what, NotHeld { row })
    }));
    all
}

/// A held series has this engine: by its row, and by all its vehicles.
struct HeldAt(fn(usize, &Series) -> usize);

impl Document for HeldAt {
    fn ended(&self, ending: Ending, n: usize, series: &Series) -> (Ending, usize) {
        match ending.0 {
            Verdict::Held => (ending, (self.0)(n, series)),
            _ => (ending, n),
        }
    }
}

/// "At that row".
fn engines_named() -> Vec<Wrong> {
    by_rule(
        HeldAt,
        "plan 4, held at",
        [
            ("its row counted from 0", |n, _| n - 1),
            ("its vehicle, also before row 3", |n, series| {
                pending_places(series).next().unwrap_or(n)
            }),
            ("its last pending vehicle", |n, series| {
                pending_places(series).last().unwrap_or(n).max(3)
            }),
            ("the vehicles so far", |_, series| series.tested),
            ("the record of its row", |n, series| series.declared + n),
            ("row 3", |_, _| 3),
            ("0, as of no decision", |_, _| 0),
        ],
    )
}

/// How a held series, at that row, goes on with all its vehicles.
struct GoesOn(fn(usize, &Series) -> Option<(Ending, usize)>);

impl Document for GoesOn {
    fn ended(&self, ending: Ending, n: usize, series: &Series) -> (Ending, usize) {
        let on = match ending.0 {
            Verdict::Held => (self.0)(n, series),
            _ => None,
        };
        on.unwrap_or((ending, n))
    }
}

/// The first vehicle whose known cause is that of one before it.
fn equal_cause_at(series: &Series) -> Option<usize> {
    let mut causes = Vec::new();
    for (n, vehicle) in (1..).zip(series.engines(&Document01)) {
        let cause = Document01.cause(vehicle);
        if cause != 0 && Document01.is_equal_cause(&causes, cause) {
            return Some(n);
        }
        causes.push(cause);
    }
    None
}

fn is_gross_emitter(vehicle: &Record) -> bool {
    Document01.cause(vehicle) != 0
}

/// Vehicles behind the row are "counted for nothing" there too.
fn behind_the_row() -> Vec<Wrong> {
    by_rule(
        GoesOn,
        "plan 4, a held series goes on",
        [
            ("and fails by equal causes behind its row", |_, series| {
                Some((EQUAL_CAUSE, equal_cause_at(series)?))
            }),
            ("and fails at its row by those behind it", |n, series| {
                equal_cause_at(series).map(|_| (EQUAL_CAUSE, n))
            }),
            ("and is referred at 15", |_, series| {
                let gross = series.engines(&Document01);
                let gross = gross.filter(|vehicle| is_gross_emitter(vehicle)).count();
                let referred = Document01.is_referred(series.tested, gross);
                referred.then_some((REFERRED, 15))
            }),
            ("and is undecided where vehicles follow", |n, series| {
                let follow = series.tested > n;
                follow.then_some(((Verdict::Another, Ground::None), series.tested))
            }),
        ],
    )
}

/// Whether one of the vehicles so far is pending.
fn has_pending(so_far: &Series) -> bool {
    pending_places(so_far).any(|n| n <= so_far.tested)
}

/// "Vehicles may be appended meanwhile", and are checked.
fn vehicles_behind() -> Vec<Wrong> {
    vec![
        wrong!(
            "refusal 10: a vehicle behind a pending one",
            fn is_one_too_many(&self, so_far: &Series) -> bool {
                has_pending(so_far) || Document01.is_one_too_many(so_far)
            }
        ),
        wrong!(
            "refusal 10: a vehicle behind a row that is held",
            fn is_one_too_many(&self, so_far: &Series) -> bool {
                let held = so_far.tested >= 3 && has_pending(so_far);
                held || Document01.is_one_too_many(so_far)
            }
        ),
        wrong!(
            "refusal 9: a second pending vehicle",
            fn cause_fits(&self, record: &Record, so_far: &Series) -> bool {
                let second = self.is_pending(self.cause(record)) && has_pending(so_far);
                !second && Document01.cause_fits(record, so_far)
            }
        ),
        wrong!(
            "refusal 9: not asked of a vehicle behind a pending one",
            fn cause_fits(&self, record: &Record, so_far: &Series) -> bool {
                has_pending(so_far) || Document01.cause_fits(record, so_far)
            }
        ),
        wrong!(
            "refusal 10: not asked behind a pending vehicle",
            fn is_one_too_many(&self, so_far: &Series) -> bool {
                !has_pending(so_far) && Document01.is_one_too_many(so_far)
            }
        ),
    ]
}

/// The rows go on as for a known cause of its own, and a series that none decides is held.
struct HeldAtLast;

impl Document for HeldAtLast {
    fn is_held(&self, _: usize, _: &GrossEmitters) -> bool {
        false
    }

    fn undecided(&self, series: &Series) -> Ending {
        match series.tested >= 3 && has_pending(series) {
            true => HELD,
            false => Document01.undecided(series),
        }
    }
}

/// Below row 3, and where a row has decided the series, nothing is held.
fn outside_the_row() -> Vec<Wrong> {
    vec![
        wrong!(
            "plan 4: held below 3 vehicles too",
            fn undecided(&self, series: &Series) -> Ending {
                match has_pending(series) {
                    true => HELD,
                    false => Document01.undecided(series),
                }
            }
        ),
        Wrong::new(
            "plan 4: held at the last vehicle where no row decides",
            HeldAtLast,
        ),
        wrong!(
            "plan 4: a pending vehicle behind the decision holds the series",
            fn ended(&self, ending: Ending, n: usize, series: &Series) -> (Ending, usize) {
                match has_pending(series) {
                    true => (HELD, n),
                    false => (ending, n),
                }
            }
        ),
    ]
}

/// Of a held series these bytes of the report are others.
struct Reported(fn(&mut [u8; LONGEST_REPORT]));

impl Document for Reported {
    fn report_bytes(&self, size: usize, judgement: &Judgement) -> [u8; LONGEST_REPORT] {
        let mut bytes = Document01.report_bytes(size, judgement);
        if judgement.verdict == Verdict::Held {
            (self.0)(&mut bytes);
        }
        bytes
    }
}

/// "The verdict is 4, [..] with ground 5".
fn numbers_reported() -> Vec<Wrong> {
    by_rule(
        Reported,
        "plan 4, held",
        [
            ("verdict 0, another", |bytes| bytes[1] = 0),
            ("verdict 3, referred", |bytes| bytes[1] = 3),
            ("verdict 5", |bytes| bytes[1] = 5),
            ("ground 0, none", |bytes| bytes[2] = 0),
            ("ground 4, referred", |bytes| bytes[2] = 4),
            ("ground 6", |bytes| bytes[2] = 6),
            ("ground before verdict", |bytes| bytes.swap(1, 2)),
        ],
    )
}

/// A held series leaves open pollutants with this decision, at its row.
struct Left(Decision);

impl Document for Left {
    fn left_open(&self, ending: Ending, n: usize) -> (Decision, u8) {
        match ending {
            HELD => (self.0, n as u8),
            _ => Document01.left_open(ending, n),
        }
    }
}

/// "Open pollutants stay open", and those that have passed keep that.
fn decisions() -> Vec<Wrong> {
    let mut all = by_rule(
        Reported,
        "plan 4, held",
        [
            ("passed pollutants open", |bytes| bytes[4..16].fill(0)),
            ("passed pollutants passed at the row", |bytes| {
                let row = bytes[3];
                let pairs = bytes[4..16].chunks_exact_mut(2);
                pairs
                    .filter(|pair| pair[0] == Decision::Pass as u8)
                    .for_each(|pair| pair[1] = row);
            }),
        ],
    );
    all.extend(by_rule(
        Left,
        "plan 4, held: open pollutants",
        [
            ("fail", Decision::Fail),
            ("pass", Decision::Pass),
            ("open at its row", Decision::Open),
        ],
    ));
    all
}
