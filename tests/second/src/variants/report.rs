//! Wrong readings that are seen in what report and append answer.

use super::increased_sample::increased_sample;
use super::{wrong, Number, OldUnits, SixteenSteps, Wrong};
use crate::check::{Record, Refusal, Series};
use crate::document::{Document, Document01, PLANS};
use crate::judge::{Decision, Ending, GrossEmitters, Ground, Judgement, Verdict};
use crate::judge::{Measured, Row};
use crate::operations::LONGEST_REPORT;
use crate::tables::Column;

pub fn report_and_append() -> Vec<Wrong> {
    let mut all = logarithm_and_rows();
    all.extend(fields());
    all.extend(plans_1_and_2());
    all.extend(plan_3());
    all.extend(plan_4());
    all.extend(increased_sample());
    all.extend(plan_5());
    all.extend(pass_numbers_above_zero());
    all.extend(stops());
    all.extend(refusals());
    all.extend(operations());
    all
}

fn logarithm_and_rows() -> Vec<Wrong> {
    vec![
        wrong!(
            "logarithm: one squaring too few",
            // The twentieth bit is then never found.
            fn twenty_bits(&self, m: u32) -> u32 {
                Document01.twenty_bits(m) & !1
            }
        ),
        Wrong::new("logarithm: sixteen steps, as before F-9", SixteenSteps),
        Wrong::new(
            "logarithm: sixteen steps in units of 1/65,536, beside 1,048,576 in plan 1",
            OldUnits,
        ),
        wrong!(
            "logarithm: a bit is 1 from 2^62 on",
            fn next_bit(&self, q: u64) -> bool {
                q >= 1 << 62
            }
        ),
        wrong!(
            "rows start at 4",
            fn is_row(&self, n: usize) -> bool {
                n >= 4
            }
        ),
        wrong!(
            "fail tested before pass",
            fn decision(&self, row: &Row) -> Decision {
                if row.n < self.last_row(row.plan) && self.fails(row) {
                    Decision::Fail
                } else {
                    Document01.decision(row)
                }
            }
        ),
        wrong!(
            "a later row may fail a passed pollutant",
            fn is_looked_at(&self, _: Decision) -> bool {
                true
            }
        ),
        wrong!(
            "a fail hides the other decisions of its row",
            fn row_goes_on(&self, any_failed: bool) -> bool {
                !any_failed
            }
        ),
        wrong!(
            "a decided series is given all its engines",
            fn ended(&self, ending: Ending, _: usize, series: &Series) -> (Ending, usize) {
                (ending, series.tested)
            }
        ),
        wrong!(
            "the series is settled at row 3",
            fn is_row(&self, n: usize) -> bool {
                n == 3
            }
        ),
    ]
}

fn fields() -> Vec<Wrong> {
    vec![
        wrong!(
            "sheet: a limit of three bytes",
            fn limit(&self, record: &Record) -> u32 {
                Document01.limit(record) % (1 << 24)
            }
        ),
        wrong!(
            "sheet: a deviation of three bytes",
            fn deviation(&self, record: &Record) -> u32 {
                Document01.deviation(record) % (1 << 24)
            }
        ),
        wrong!(
            "sheet: measurements of three bytes",
            fn measurement(&self, record: &Record, pollutant: usize) -> u32 {
                Document01.measurement(record, pollutant) % (1 << 24)
            }
        ),
    ]
}

fn plans_1_and_2() -> Vec<Wrong> {
    vec![
        wrong!(
            "plan 1: pass by D for T",
            fn is_above(&self, row: &Row, a: i64) -> bool {
                let d = -row.d;
                Document01.is_above(&Row { d, ..*row }, a)
            }
        ),
        wrong!(
            "plan 1: fail by D for T",
            fn is_below(&self, row: &Row, b: i64) -> bool {
                let d = -row.d;
                Document01.is_below(&Row { d, ..*row }, b)
            }
        ),
        wrong!(
            "plan 1: B without 1 more from n = 10",
            fn number(&self, plan: u8, column: Column, n: usize) -> Option<i64> {
                let number = Document01.number(plan, column, n)?;
                let one_more = (plan, column) == (1, Column::Fail) && n >= 10;
                Some(number - i64::from(one_more))
            }
        ),
        Wrong::new(
            "plan 1: A at 32 goes on as before",
            Number {
                plan: 1,
                column: Column::Pass,
                n: 32,
                is: 1413,
            },
        ),
        wrong!(
            "plan 1: 693,147,000 for 693,147,181",
            fn ln_2(&self) -> i128 {
                693_147_000
            }
        ),
        wrong!(
            "plan 1: 65,536 as before F-9",
            fn scaled_deviation(&self, row: &Row, number: i64) -> i128 {
                Document01.scaled_deviation(row, number) / 16
            }
        ),
        wrong!(
            "plan 1: pass with 65,536 as before F-9",
            fn is_above(&self, row: &Row, a: i64) -> bool {
                i128::from(-row.d) * self.ln_2() > self.scaled_deviation(row, a) / 16
            }
        ),
        wrong!(
            "plan 1: fail with 65,536 as before F-9",
            fn is_below(&self, row: &Row, b: i64) -> bool {
                i128::from(-row.d) * self.ln_2() < self.scaled_deviation(row, b) / 16
            }
        ),
        wrong!(
            "plan 2: squares compared without the signs",
            fn reaches(&self, column: Column, row: &Row, number: i64) -> bool {
                let (p, c) = (100_000 * i128::from(row.d), i128::from(number));
                let far = p * p >= c * c * self.w(row);
                match column {
                    Column::Pass if number >= 0 => Document01.reaches(column, row, number),
                    _ => far,
                }
            }
        ),
        wrong!(
            "plan 2: pass only below A",
            fn at_most_root(&self, p: i128, a: i64, w: i128) -> bool {
                let on_line = a < 0 && p * p == i128::from(a) * i128::from(a) * w;
                Document01.at_most_root(p, a, w) && !on_line
            }
        ),
        wrong!(
            "plan 2: fail only above B",
            fn at_least_root(&self, p: i128, b: i64, w: i128) -> bool {
                let on_line = p * p == i128::from(b) * i128::from(b) * w;
                Document01.at_least_root(p, b, w) && !on_line
            }
        ),
        wrong!(
            "plan 2: no decision where W is zero",
            fn reaches(&self, column: Column, row: &Row, number: i64) -> bool {
                self.w(row) != 0 && Document01.reaches(column, row, number)
            }
        ),
        wrong!(
            "plan 2: W without the subtracted D squared",
            fn w(&self, row: &Row) -> i128 {
                row.n as i128 * i128::from(row.squares)
            }
        ),
        Wrong::new(
            "plan 2: A at 31 is +449",
            Number {
                plan: 2,
                column: Column::Pass,
                n: 31,
                is: 449,
            },
        ),
        Wrong::new(
            "plan 2: A at 32 is +3876",
            Number {
                plan: 2,
                column: Column::Pass,
                n: 32,
                is: 3876,
            },
        ),
        wrong!(
            "plan 2: row 32 fails only from 3879 on",
            fn fails_in_last_row(&self, row: &Row) -> bool {
                row.plan != 2 || self.reaches(Column::Fail, row, 3879)
            }
        ),
    ]
}

fn plan_3() -> Vec<Wrong> {
    vec![
        wrong!(
            "plan 3: an engine at the limit counts",
            fn is_over(&self, numbers: Measured<u32>) -> bool {
                numbers.x == numbers.limit || Document01.is_over(numbers)
            }
        ),
        Wrong::new(
            "plan 3: row 3 passes with none over the limit",
            Number {
                plan: 3,
                column: Column::Pass,
                n: 3,
                is: 0,
            },
        ),
        Wrong::new(
            "plan 3: row 19 passes up to 7",
            Number {
                plan: 3,
                column: Column::Pass,
                n: 19,
                is: 7,
            },
        ),
        wrong!(
            "plan 3: row 19 fails from 11 and is open below",
            fn fails_in_last_row(&self, row: &Row) -> bool {
                row.plan != 3 || row.c >= 11
            }
        ),
        wrong!(
            "plan 3: the last row is 20",
            fn last_row(&self, plan: u8) -> usize {
                if plan == 3 {
                    20
                } else {
                    Document01.last_row(plan)
                }
            }
        ),
    ]
}

/// What ends the series on this ground comes after the row's statistics.
pub struct AfterStatistics(pub Ground);

impl Document for AfterStatistics {
    fn row_ending(
        &self,
        before: Option<Ending>,
        statistics: &mut dyn FnMut() -> Option<Ending>,
    ) -> Option<Ending> {
        match before {
            Some((_, ground)) if ground == self.0 => statistics().or(before),
            _ => Document01.row_ending(before, statistics),
        }
    }
}

fn plan_4() -> Vec<Wrong> {
    vec![
        Wrong::new(
            "plan 4: A at 15 is plan 2's",
            Number {
                plan: 4,
                column: Column::Pass,
                n: 15,
                is: -46191,
            },
        ),
        wrong!(
            "gross emitter from 2x = 3L on",
            fn is_gross(&self, x: u32, limit: u32) -> bool {
                x > 0 && 2 * u64::from(x) >= 3 * u64::from(limit)
            }
        ),
        wrong!(
            "plan 4: referred from n = 14 on",
            fn is_referred(&self, n: usize, gross: usize) -> bool {
                n >= 14 && gross >= 2
            }
        ),
        wrong!(
            "plan 4: referral tested before equal cause",
            fn before_statistics(&self, n: usize, gross: &GrossEmitters) -> Option<Ending> {
                match Document01.before_statistics(n, gross) {
                    Some((_, Ground::EqualCause)) if self.is_referred(n, gross.count) => {
                        Some((Verdict::Referred, Ground::Referred))
                    }
                    before => before,
                }
            }
        ),
        wrong!(
            "plan 4: one gross emitter at 15 is referred",
            fn is_referred(&self, n: usize, gross: usize) -> bool {
                n == 15 && gross >= 1
            }
        ),
        Wrong::new(
            "plan 4: equal cause tested after the statistics",
            AfterStatistics(Ground::EqualCause),
        ),
        wrong!(
            "plan 4: cause compared with the last gross emitter's only",
            fn is_equal_cause(&self, before: &[u16], cause: u16) -> bool {
                let last = before.len().saturating_sub(1);
                Document01.is_equal_cause(&before[last..], cause)
            }
        ),
        wrong!(
            "plan 4: equal cause and referral fail the open pollutants",
            fn left_open(&self, ending: Ending, n: usize) -> (Decision, u8) {
                match ending.1 {
                    Ground::EqualCause | Ground::Referred => (Decision::Fail, n as u8),
                    _ => (Decision::Open, 0),
                }
            }
        ),
    ]
}

/// Document 02, F-6.
fn plan_5() -> Vec<Wrong> {
    vec![
        Wrong::new(
            "plan 5: A at 31 is plan 2's",
            Number {
                plan: 5,
                column: Column::Pass,
                n: 31,
                is: -449,
            },
        ),
        Wrong::new(
            "plan 5: A at 32 is plan 2's",
            Number {
                plan: 5,
                column: Column::Pass,
                n: 32,
                is: -3876,
            },
        ),
        wrong!(
            "plan 5: row 31 fails what doesn't pass",
            fn fails(&self, row: &Row) -> bool {
                (row.plan, row.n) == (5, 31) || Document01.fails(row)
            }
        ),
        wrong!(
            "plan 5: row 32 fails only from 3879 on",
            fn fails_in_last_row(&self, row: &Row) -> bool {
                row.plan != 5 || self.reaches(Column::Fail, row, 3879)
            }
        ),
        wrong!(
            "plan 5: the last row is 31",
            fn last_row(&self, plan: u8) -> usize {
                match plan {
                    5 => 31,
                    _ => Document01.last_row(plan),
                }
            }
        ),
        wrong!(
            "plan 5: the last row is plan 4's",
            fn last_row(&self, plan: u8) -> usize {
                match plan {
                    5 => 15,
                    _ => Document01.last_row(plan),
                }
            }
        ),
        wrong!(
            "plan 5: a deviation as in plan 1",
            fn deviation_fits(&self, plan: u8, deviation: u32) -> bool {
                Document01.deviation_fits(if plan == 5 { 1 } else { plan }, deviation)
            }
        ),
        wrong!(
            "plan 5: causes as in plan 4",
            fn has_causes(&self, plan: u8) -> bool {
                plan == 4 || plan == 5
            }
        ),
        wrong!(
            "plan 5: a stop refused as in plan 4",
            fn stop_fits(&self, plan: u8) -> bool {
                plan != 4 && plan != 5
            }
        ),
    ]
}

/// Whether P, A and W make a pass.
type Rule = fn(i128, i64, i128) -> bool;

/// One row passes by another rule.
struct RowPasses {
    plan: u8,
    n: usize,
    rule: Rule,
}

impl Document for RowPasses {
    fn reaches(&self, column: Column, row: &Row, number: i64) -> bool {
        if (row.plan, row.n, column) == (self.plan, self.n, Column::Pass) {
            (self.rule)(100_000 * i128::from(row.d), number, self.w(row))
        } else {
            Document01.reaches(column, row, number)
        }
    }
}

/// "For A >= 0, P <= 0 or P squared <= A squared x W", in every row with such an A.
fn pass_numbers_above_zero() -> Vec<Wrong> {
    let rules: [(&str, Rule); 3] = [
        ("only below A", |p, a, w| {
            let on_line = p > 0 && p * p == i128::from(a) * i128::from(a) * w;
            Document01.at_most_root(p, a, w) && !on_line
        }),
        ("only by squares", |p, a, w| {
            p * p <= i128::from(a) * i128::from(a) * w
        }),
        ("only where D is not above zero", |p, _, _| p <= 0),
    ];
    let mut all = Vec::new();
    for (plan, n) in [(4, 15), (5, 31), (5, 32)] {
        for (when, rule) in rules {
            let description = format!("plan {plan}: row {n} passes {when}");
            all.push(Wrong::new(description, RowPasses { plan, n, rule }));
        }
    }
    all
}

fn stops() -> Vec<Wrong> {
    vec![
        wrong!(
            "a stop below 3 engines is ignored",
            fn undecided(&self, series: &Series) -> Ending {
                let stopped = series.stopped && series.tested >= 3;
                Document01.undecided(&Series { stopped, ..*series })
            }
        ),
        wrong!(
            "a stop fails a decided series",
            fn ended(&self, ending: Ending, n: usize, series: &Series) -> (Ending, usize) {
                if series.stopped {
                    ((Verdict::Fail, Ground::Stopped), n)
                } else {
                    (ending, n)
                }
            }
        ),
    ]
}

fn refusals() -> Vec<Wrong> {
    vec![
        wrong!(
            "refusal 1: the most records refused",
            fn length_fits(&self, size: usize, length: usize) -> bool {
                Document01.length_fits(size, length) && length < self.longest_sheet(size)
            }
        ),
        wrong!(
            "refusal 2: kind 0 taken for a stop",
            fn kind_fits(&self, kind: u8) -> bool {
                kind == 0 || Document01.kind_fits(kind)
            }
        ),
        wrong!(
            "refusal 3: records after a stop accepted",
            fn is_misplaced(&self, kind: u8, so_far: &Series) -> bool {
                !so_far.stopped && Document01.is_misplaced(kind, so_far)
            }
        ),
        wrong!(
            "refusal 3 before 2",
            fn fault(&self, record: &Record, so_far: &Series) -> Option<u8> {
                if self.is_misplaced(record[0], so_far) {
                    Some(3)
                } else {
                    Document01.fault(record, so_far)
                }
            }
        ),
        wrong!(
            "refusal 4: an equal number accepted",
            fn pollutant_fits(&self, number: u8, so_far: &Series) -> bool {
                let again = number != 0 && number == so_far.highest_pollutant;
                again || Document01.pollutant_fits(number, so_far)
            }
        ),
        wrong!(
            "refusal 5: plan 5 refused",
            fn plan_fits(&self, plan: u8, so_far: &Series) -> bool {
                plan != 5 && Document01.plan_fits(plan, so_far)
            }
        ),
        wrong!(
            "refusal 5: plan 6 accepted",
            fn plan_fits(&self, plan: u8, so_far: &Series) -> bool {
                plan == 6 || Document01.plan_fits(plan, so_far)
            }
        ),
        wrong!(
            "refusal 5: a plan unlike the first accepted",
            fn plan_fits(&self, plan: u8, _: &Series) -> bool {
                (1..=PLANS).contains(&plan)
            }
        ),
        wrong!(
            "refusal 5: plans 2 and 5 on one sheet accepted",
            fn plan_fits(&self, plan: u8, so_far: &Series) -> bool {
                let alike = [plan, so_far.plan].iter().all(|plan| matches!(plan, 2 | 5));
                alike || Document01.plan_fits(plan, so_far)
            }
        ),
        wrong!(
            "refusal 6: 9,999,999 refused",
            fn limit_fits(&self, limit: u32) -> bool {
                Document01.limit_fits(limit) && limit != 9_999_999
            }
        ),
        wrong!(
            "refusal 7 before 6",
            fn pollutant_fault(&self, record: &Record, so_far: &Series) -> Option<u8> {
                match Document01.pollutant_fault(record, so_far) {
                    Some(6) if !self.deviation_fits(record[2], self.deviation(record)) => Some(7),
                    fault => fault,
                }
            }
        ),
        wrong!(
            "refusal 7: 4,000,000 refused",
            fn deviation_fits(&self, plan: u8, deviation: u32) -> bool {
                Document01.deviation_fits(plan, deviation) && deviation != 4_000_000
            }
        ),
        wrong!(
            "refusal 8: 9,999,999 refused",
            fn measurement_fits(&self, x: u32) -> bool {
                Document01.measurement_fits(x) && x != 9_999_999
            }
        ),
        wrong!(
            "refusal 8: undeclared measurements not looked at",
            fn undeclared_fits(&self, _: u32) -> bool {
                true
            }
        ),
        wrong!(
            "refusal 10 before 8",
            fn engine_fault(&self, record: &Record, so_far: &Series) -> Option<u8> {
                if self.is_one_too_many(so_far) {
                    Some(10)
                } else {
                    Document01.engine_fault(record, so_far)
                }
            }
        ),
        wrong!(
            "refusal 9: a cause accepted where there is none",
            fn other_cause_fits(&self, _: u16) -> bool {
                true
            }
        ),
        wrong!(
            "refusal 11: a stop in plan 4 accepted",
            fn stop_fits(&self, _: u8) -> bool {
                true
            }
        ),
        wrong!(
            "refusal 12: byte 3 of a pollutant not looked at",
            fn pollutant_rest_is_zero(&self, record: &Record) -> bool {
                record[12..].iter().all(|&byte| byte == 0)
            }
        ),
        wrong!(
            "refusal 12: byte 1 of an engine not looked at",
            fn engine_rest_is_zero(&self, _: &Record) -> bool {
                true
            }
        ),
        wrong!(
            "refusal 12: the last byte of a stop not looked at",
            fn stop_rest_is_zero(&self, record: &Record) -> bool {
                record[1..record.len() - 1].iter().all(|&byte| byte == 0)
            }
        ),
    ]
}

fn operations() -> Vec<Wrong> {
    vec![
        wrong!(
            "append: 13 before 14",
            fn append_fault(&self, size: usize, record: usize, rest: Option<usize>) -> Option<u8> {
                let no_space = Document01.append_fault(size, size, rest);
                no_space.or(Document01.append_fault(size, record, rest))
            }
        ),
        wrong!(
            "append: the sheet there not checked by itself",
            fn checks_sheet_there(&self, _: usize) -> bool {
                false
            }
        ),
        wrong!(
            "append: the sheet there checked also when u = 0",
            fn checks_sheet_there(&self, _: usize) -> bool {
                true
            }
        ),
        wrong!(
            "append: a refused record is written",
            fn stays_written(&self, _: Option<Refusal>) -> bool {
                true
            }
        ),
        wrong!(
            "report: 15 after the check",
            fn report_answer(
                &self,
                size: usize,
                output: usize,
                judged: Result<Judgement, Refusal>,
            ) -> Result<Judgement, Refusal> {
                let judgement = judged?;
                Document01.report_answer(size, output, Ok(judgement))
            }
        ),
        wrong!(
            "report: ground before verdict",
            fn report_bytes(&self, size: usize, judgement: &Judgement) -> [u8; LONGEST_REPORT] {
                let mut bytes = Document01.report_bytes(size, judgement);
                bytes.swap(1, 2);
                bytes
            }
        ),
        wrong!(
            "report: the last pollutant first",
            fn report_bytes(&self, size: usize, judgement: &Judgement) -> [u8; LONGEST_REPORT] {
                let mut decisions = judgement.decisions;
                decisions[..self.pollutants(size)].reverse();
                let reversed = Judgement {
                    decisions,
                    ..*judgement
                };
                Document01.report_bytes(size, &reversed)
            }
        ),
        wrong!(
            "report: the zeros behind the pairs not written",
            fn bytes_written(&self, size: usize) -> usize {
                4 + 2 * self.pollutants(size)
            }
        ),
    ]
}
