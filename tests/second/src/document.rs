//! Document 01, "Sequential conformity verdicts", and behind it the requests of document 02 that
//! landed, sentence by sentence: one small method for each sentence or number that can be misread,
//! in the documents' order. `check`, `judge`, `operations`, `reader`, `convert`, `findings` and
//! `declared` put the sentences together and hold for any document. A `size` is that of a record,
//! in bytes: "Callers name the size" (F-10).

use crate::check::{number_at, short_at, Record, Refusal, Series};
use crate::check::{ENGINE, POLLUTANT, RUN_IN, SMALL_ENGINE, STOP};
use crate::check::{FOUR_POLLUTANTS, SIX_POLLUTANTS, SIZES};
use crate::declared::{total, Approval};
use crate::judge::{Decision, Ending, GrossEmitters, Ground, Judgement, Verdict};
use crate::judge::{Measured, Row, RunIn};
use crate::operations::LONGEST_REPORT;
use crate::tables::{self, Column};
use std::borrow::Cow;

/// Document 01 as it stands, and the requests of document 02 that landed.
pub struct Document01;

impl Document for Document01 {}

/// "Limits and measurements are whole thousandths of the limit's unit, 1 to 9,999,999", and the
/// values of F-4 "whole thousandths of g/km, 1 to 9,999,999".
const LARGEST: u32 = 9_999_999;

/// A gross emitter's "cause is 1 to 65,534", and so is a finding (F-5).
const LARGEST_CAUSE: u16 = 65_534;

/// "Pollutant number 1 to 4 (carbon monoxide, hydrocarbons, nitrogen oxides, particulates)", counted
/// from 0.
pub(crate) const PARTICULATES: usize = 3;

/// How many plans there are: document 01's four, and the corrected sheet of F-6, which "becomes
/// plan 5".
pub const PLANS: u8 = 5;

/// The plans of unknown deviation, whose rows compare P with roots of W: plan 2, plan 4 with "rows
/// as plan 2", and plan 5, "otherwise as plan 2" (F-6).
pub const UNKNOWN_DEVIATION: [u8; 3] = [2, 4, 5];

pub trait Document {
    // ---- The logarithm

    /// "For m from 1 to 9,999,999: e is the number of binary digits of m less one, and
    /// M = m x 2^(31-e). [..] g(m) = e x" 1,048,576 "+ the [..] bits [..]. Any other m gets 0."
    /// F-9: "65,536 becomes 1,048,576 in g itself".
    fn g(&self, m: u32) -> i64 {
        if !(1..=LARGEST).contains(&m) {
            return 0;
        }
        let e = u32::BITS - 1 - m.leading_zeros();
        i64::from(e * 1_048_576 + self.twenty_bits(m << (31 - e)))
    }

    /// "Q = M x M", and a bit each time, "first bit highest"; and of F-9: "Take twenty steps in
    /// place of sixteen".
    fn twenty_bits(&self, m: u32) -> u32 {
        let mut m = u64::from(m);
        let mut bits = 0;
        for _ in 0..20 {
            let q = m * m;
            let bit = self.next_bit(q);
            m = self.next_m(q, bit);
            bits = bits << 1 | u32::from(bit);
        }
        bits
    }

    /// "If Q >= 2^63 the next bit is 1 [..], else the bit is 0".
    fn next_bit(&self, q: u64) -> bool {
        q >= 1 << 63
    }

    /// "M becomes Q / 2^32, else [..] Q / 2^31, rounded down."
    fn next_m(&self, q: u64, bit: bool) -> u64 {
        if bit {
            q >> 32
        } else {
            q >> 31
        }
    }

    /// F-9: "Verdicts are compared with the finer definition from here on, also for old sheets",
    /// whatever their plan.
    fn g_under(&self, _plan: u8, m: u32) -> i64 {
        self.g(m)
    }

    /// "For a limit L, engine j has d_j = g(x_j) - g(L)"; and of F-2: "Each d_j becomes g(x_j) +
    /// g(value) - g(x_1) - g(L)", d_1 like the others. Of the numbers themselves nothing is needed.
    fn difference(&self, _numbers: Measured<u32>, logarithms: Measured<i64>) -> i64 {
        let Measured { x, limit, .. } = logarithms;
        match logarithms.run_in {
            Some(RunIn { value, first }) => x + value - first - limit,
            None => x - limit,
        }
    }

    /// "d_j squared", of the same d_j.
    fn difference_squared(&self, numbers: Measured<u32>, logarithms: Measured<i64>) -> i64 {
        let d = self.difference(numbers, logarithms);
        d * d
    }

    /// "W = n x (sum of d_j squared) - D squared".
    fn w(&self, row: &Row) -> i128 {
        row.n as i128 * i128::from(row.squares) - i128::from(row.d) * i128::from(row.d)
    }

    // ---- The sheet

    /// "Records of 20 bytes, no header"; of F-1: "A sheet may hold 38 records"; of F-2: "The record
    /// limit rises by one"; and of F-10: "A sheet of the new size holds two records more than the
    /// old maximum".
    fn most_records(&self, size: usize) -> usize {
        match size {
            SIX_POLLUTANTS => 39 + 2,
            _ => 39,
        }
    }

    /// In bytes: 780, and 1,148 of the new size.
    fn longest_sheet(&self, size: usize) -> usize {
        self.most_records(size) * size
    }

    /// "Pollutant number 1 to 4"; and of F-10: "A 28-byte record has six measurements; pollutant
    /// numbers run to 6".
    fn pollutants(&self, size: usize) -> usize {
        match size {
            SIX_POLLUTANTS => 6,
            _ => 4,
        }
    }

    /// Kind 1: "bytes 4-7 limit L".
    fn limit(&self, record: &Record) -> u32 {
        number_at(record, 4)
    }

    /// Kind 1: "bytes 8-11 deviation t".
    fn deviation(&self, record: &Record) -> u32 {
        number_at(record, 8)
    }

    /// Kind 1: "Byte 3 and bytes 12-19 are zero"; and of F-10: "other fields keep their bytes with
    /// the new ones zero", to byte 27.
    fn pollutant_rest_is_zero(&self, record: &Record) -> bool {
        record[3] == 0 && all_zero(&record[12..])
    }

    /// Kind 2: "byte 1 zero".
    fn engine_rest_is_zero(&self, record: &Record) -> bool {
        record[1] == 0
    }

    /// Kind 2: "bytes 2-3 cause".
    fn cause(&self, record: &Record) -> u16 {
        short_at(record, 2)
    }

    /// Kind 2: "bytes 4-19 four u32 measurements, pollutant 1 first"; and of F-10: "the new ones
    /// [..] measurements 5 and 6". Pollutants count from 0 here.
    fn measurement(&self, record: &Record, pollutant: usize) -> u32 {
        number_at(record, 4 + 4 * pollutant)
    }

    /// Kind 3: "bytes 1-19 zero"; and of F-10: "with the new ones zero", to byte 27.
    fn stop_rest_is_zero(&self, record: &Record) -> bool {
        all_zero(&record[1..])
    }

    /// Kind 5 (F-1): "bytes 2-3 swept volume per cylinder in cm³", any number.
    fn volume(&self, record: &Record) -> u16 {
        short_at(record, 2)
    }

    /// Kind 5 (F-1): "bytes 4-5 rated speed per minute", any number.
    fn speed(&self, record: &Record) -> u16 {
        short_at(record, 4)
    }

    /// Kind 5 (F-1): "bytes 8-11 test date as year x 10000 + month x 100 + day".
    fn date(&self, record: &Record) -> u32 {
        number_at(record, 8)
    }

    /// Kind 5 (F-1): "the others zero under refusal 12", to byte 19 or 27.
    fn small_engine_rest_is_zero(&self, record: &Record) -> bool {
        record[1] == 0 && all_zero(&record[6..8]) && all_zero(&record[12..])
    }

    /// Kind 6 (F-2): the values are "laid out as measurements". Pollutants count from 0 here.
    fn run_in_value(&self, record: &Record, pollutant: usize) -> u32 {
        self.measurement(record, pollutant)
    }

    /// Kind 6 (F-2): "bytes 1-3 are zero".
    fn run_in_rest_is_zero(&self, record: &Record) -> bool {
        all_zero(&record[1..4])
    }

    /// Limits are "1 to 9,999,999".
    fn limit_fits(&self, limit: u32) -> bool {
        (1..=LARGEST).contains(&limit)
    }

    /// Measurements are "1 to 9,999,999".
    fn measurement_fits(&self, x: u32) -> bool {
        (1..=LARGEST).contains(&x)
    }

    /// t is "1 to 4,000,000 in plan 1, zero otherwise".
    fn deviation_fits(&self, plan: u8, deviation: u32) -> bool {
        match plan {
            1 => (1..=4_000_000).contains(&deviation),
            _ => deviation == 0,
        }
    }

    /// "A measurement of an undeclared pollutant is zero."
    fn undeclared_fits(&self, x: u32) -> bool {
        x == 0
    }

    /// "A gross emitter is a vehicle with 2x > 3L for some pollutant"; an undeclared one has x = 0.
    fn is_gross(&self, x: u32, limit: u32) -> bool {
        2 * u64::from(x) > 3 * u64::from(limit)
    }

    /// "In plan 4 its cause is 1 to 65,534 [..]; in plans 1 to 3 cause is 0", and so it is in plan
    /// 5, which is "otherwise as plan 2" (F-6).
    fn has_causes(&self, plan: u8) -> bool {
        plan == 4
    }

    /// A gross emitter's cause "is 1 to 65,534"; and of F-5: "refusal 9 admits" 65,535 "there".
    fn gross_cause_fits(&self, cause: u16) -> bool {
        (1..=LARGEST_CAUSE).contains(&cause) || self.is_pending(cause)
    }

    /// F-5: "Cause 65,535 now marks a gross emitter whose finding is pending".
    fn is_pending(&self, cause: u16) -> bool {
        cause == 65_535
    }

    /// "Any other vehicle's is 0", as is every cause outside plan 4.
    fn other_cause_fits(&self, cause: u16) -> bool {
        cause == 0
    }

    /// "A sheet under reading is the lent bytes and the number of the next record": the record of
    /// that number, if it is there whole. In another size than 20 or 28 there is none.
    fn record_at<'a>(
        &self,
        size: usize,
        sheet: &'a [u8],
        number: usize,
    ) -> Option<Cow<'a, Record>> {
        if !self.size_fits(size) {
            return None;
        }
        sheet.chunks_exact(size).nth(number).map(Cow::Borrowed)
    }

    // ---- The small engine (document 02, F-1)

    /// "17, date not in the Gregorian calendar of years 1 to 9999"; the calendar is taken back to
    /// year 1.
    fn date_fits(&self, date: u32) -> bool {
        let (year, month, day) = (date / 10_000, date / 100 % 100, date % 100);
        let days = 1..=self.days_in(year, month);
        self.year_fits(year) && self.month_fits(month) && days.contains(&day)
    }

    /// "Of years 1 to 9999".
    fn year_fits(&self, year: u32) -> bool {
        (1..=9999).contains(&year)
    }

    /// Of twelve months.
    fn month_fits(&self, month: u32) -> bool {
        (1..=12).contains(&month)
    }

    /// How many days a month of the calendar has.
    fn days_in(&self, year: u32, month: u32) -> u32 {
        match month {
            2 if self.is_leap_year(year) => 29,
            2 => 28,
            4 | 6 | 9 | 11 => 30,
            _ => 31,
        }
    }

    /// In the Gregorian calendar every fourth year is one, but of the hundredth years only every
    /// fourth.
    fn is_leap_year(&self, year: u32) -> bool {
        let by = |years| year.is_multiple_of(years);
        by(400) || by(4) && !by(100)
    }

    /// "The particulate limit of production is 250 through 19980930 and 150 after [..]; every other
    /// engine has 150."
    fn particulate_limit(&self, record: &Record) -> u32 {
        let small = self.is_small(self.volume(record), self.speed(record));
        if small && self.is_in_time(self.date(record)) {
            250
        } else {
            150
        }
    }

    /// "Under 700 cm³ and above 3000 per minute"; document 001, 8.1.1.1.1: "a swept volume of less
    /// than 0,7 dm³ and a rated power speed of more than 3 000 min⁻¹".
    fn is_small(&self, volume: u16, speed: u16) -> bool {
        volume < 700 && speed > 3000
    }

    /// "Through 19980930"; document 001, 8.1.1.1.1: "until 30 September 1998".
    fn is_in_time(&self, date: u32) -> bool {
        date <= 19_980_930
    }

    // ---- The run-in engine (document 02, F-2)

    /// "Makers run in the first engine and correct the others (document 001, 8.1.1.2.2)": of a
    /// pollutant the first engine's value after running-in, and what it measured before. Without an
    /// engine there is nothing to correct.
    fn run_in(&self, series: &Series, pollutant: usize) -> Option<RunIn<u32>> {
        let values = series.run_in_record()?;
        let first = series.engines(self).next()?;
        Some(RunIn {
            value: self.run_in_value(values, pollutant),
            first: self.measurement(first, pollutant),
        })
    }

    // ---- Plans

    /// "The last row belongs to the plan: 32, 32, 19 and 15 engines", and for plan 5 "ending at 32"
    /// (F-6). What refusal 5 does not admit as a plan has no row.
    fn last_row(&self, plan: u8) -> usize {
        match plan {
            1 | 2 | 5 => 32,
            3 => 19,
            4 => 15,
            _ => 0,
        }
    }

    /// "Decisions start at n = 3."
    fn is_row(&self, n: usize) -> bool {
        n >= 3
    }

    /// "A row gives pass, fail or open; pass is tested first."
    fn decision(&self, row: &Row) -> Decision {
        if self.passes(row) {
            Decision::Pass
        } else if self.fails(row) {
            Decision::Fail
        } else {
            Decision::Open
        }
    }

    /// Plan 3, besides the others below: "Pass if c <= [..]; fail if c >= [..]".
    fn passes(&self, row: &Row) -> bool {
        let Some(a) = self.number(row.plan, Column::Pass, row.n) else {
            return false;
        };
        match row.plan {
            1 => self.is_above(row, a),
            2 | 4 | 5 => self.reaches(Column::Pass, row, a),
            3 => row.c <= a,
            _ => false,
        }
    }

    /// As `passes`, with B.
    fn fails(&self, row: &Row) -> bool {
        if row.n == self.last_row(row.plan) {
            return self.fails_in_last_row(row);
        }
        let Some(b) = self.number(row.plan, Column::Fail, row.n) else {
            return false;
        };
        match row.plan {
            1 => self.is_below(row, b),
            2 | 4 | 5 => self.reaches(Column::Fail, row, b),
            3 => row.c >= b,
            _ => false,
        }
    }

    /// "In the last row, what doesn't pass fails": B is not looked at there, not even plan 5's.
    fn fails_in_last_row(&self, _: &Row) -> bool {
        true
    }

    /// A and B: the printed columns.
    fn number(&self, plan: u8, column: Column, n: usize) -> Option<i64> {
        tables::printed(plan, column, n)
    }

    /// Plan 1: "T = -D. Pass if T x 693,147,181 > A x t x" 1,048,576.
    fn is_above(&self, row: &Row, a: i64) -> bool {
        i128::from(-row.d) * self.ln_2() > self.scaled_deviation(row, a)
    }

    /// "Fail if less than the same with B."
    fn is_below(&self, row: &Row, b: i64) -> bool {
        i128::from(-row.d) * self.ln_2() < self.scaled_deviation(row, b)
    }

    /// "A x t x" 1,048,576, or "the same with B"; F-9: "65,536 becomes 1,048,576 in g itself, in
    /// plan 1 and in the bracket".
    fn scaled_deviation(&self, row: &Row, number: i64) -> i128 {
        i128::from(number) * i128::from(row.deviation) * 1_048_576
    }

    /// Plan 1's number for the natural logarithm of 2.
    fn ln_2(&self) -> i128 {
        693_147_181
    }

    /// Plans 2, 4 and 5: "P = 100,000 x D. Pass if P <= A root W, fail if P >= B root W".
    fn reaches(&self, column: Column, row: &Row, number: i64) -> bool {
        let (p, w) = (100_000 * i128::from(row.d), self.w(row));
        match column {
            Column::Pass => self.at_most_root(p, number, w),
            Column::Fail => self.at_least_root(p, number, w),
        }
    }

    /// "For A < 0, P <= A root W means P <= 0 and P squared >= A squared x W; for A >= 0, P <= 0
    /// or P squared <= A squared x W."
    fn at_most_root(&self, p: i128, a: i64, w: i128) -> bool {
        let bound = i128::from(a) * i128::from(a) * w;
        if a < 0 {
            p <= 0 && p * p >= bound
        } else {
            p <= 0 || p * p <= bound
        }
    }

    /// "For B > 0, P >= B root W means P >= 0 and P squared >= B squared x W."
    fn at_least_root(&self, p: i128, b: i64, w: i128) -> bool {
        p >= 0 && p * p >= i128::from(b) * i128::from(b) * w
    }

    /// Plan 3: "c = engines with x > L"; and of F-2: "attributes compare x_j x value with L x x_1".
    /// The products have 47 binary digits at most.
    fn is_over(&self, numbers: Measured<u32>) -> bool {
        let [x, limit] = [numbers.x, numbers.limit].map(u64::from);
        match numbers.run_in {
            Some(RunIn { value, first }) => x * u64::from(value) > limit * u64::from(first),
            None => x > limit,
        }
    }

    /// Plan 4: "Before a row's statistics, in order: two gross emitters of equal cause among the
    /// first n: the series fails. n = 15 and two or more gross emitters: referred to the
    /// authority." F-11: "Equal cause and referral come first as before." And between the two, of
    /// F-5: "two equal known causes still fail the series; otherwise the verdict is 4".
    fn before_statistics(&self, n: usize, gross: &GrossEmitters) -> Option<Ending> {
        if gross.equal_cause {
            Some((Verdict::Fail, Ground::EqualCause))
        } else if self.is_held(n, gross) {
            Some((Verdict::Held, Ground::Held))
        } else if self.is_referred(n, gross.count) {
            Some((Verdict::Referred, Ground::Referred))
        } else {
            None
        }
    }

    /// "Two gross emitters of equal cause": whether a vehicle's is that of one before it; and of
    /// F-5: "two equal known causes", of which a pending finding is none.
    fn is_equal_cause(&self, before: &[u16], cause: u16) -> bool {
        !self.is_pending(cause) && before.contains(&cause)
    }

    /// F-5: "At the first row with a pending vehicle among its engines", whichever row that is.
    fn is_held(&self, _n: usize, gross: &GrossEmitters) -> bool {
        gross.pending > 0
    }

    /// "n = 15 and two or more gross emitters".
    fn is_referred(&self, n: usize, gross: usize) -> bool {
        n == 15 && gross >= 2
    }

    /// F-11: "The authorities now run the statistics on every increased sample [..], so only row 3
    /// is left open for gross emitters."
    fn is_left_open(&self, n: usize, gross: &GrossEmitters) -> bool {
        n == 3 && gross.count > 0
    }

    /// What ends the series "before a row's statistics" keeps them from being looked at.
    fn row_ending(
        &self,
        before: Option<Ending>,
        statistics: &mut dyn FnMut() -> Option<Ending>,
    ) -> Option<Ending> {
        before.or_else(statistics)
    }

    // ---- The series

    /// "Its engines are its records of kind 2."
    fn is_engine(&self, kind: u8) -> bool {
        kind == ENGINE
    }

    /// "All passed: pass", of the declared pollutants, which have a limit. Pollutants count from 0
    /// here.
    fn is_judged(&self, _pollutant: usize, limit: u32) -> bool {
        limit != 0
    }

    /// "A pollutant that has passed is not looked at again."
    fn is_looked_at(&self, decision: Decision) -> bool {
        decision != Decision::Pass
    }

    /// "Any fail in a row: the series fails there, and every other pollutant deciding in that row
    /// keeps its decision": the row goes on after a fail.
    fn row_goes_on(&self, _any_failed: bool) -> bool {
        true
    }

    /// "Equal cause, a stop and referral leave open pollutants open"; and of F-5: "open pollutants
    /// stay open".
    fn left_open(&self, _: Ending, _n: usize) -> (Decision, u8) {
        (Decision::Open, 0)
    }

    /// "A stop on an undecided series fails it at the engines tested, also below 3. Otherwise:
    /// another."
    fn undecided(&self, series: &Series) -> Ending {
        if series.stopped {
            (Verdict::Fail, Ground::Stopped)
        } else {
            (Verdict::Another, Ground::None)
        }
    }

    /// A series decided at n. "Engines after the decision are checked and counted for nothing",
    /// and a stop is for an undecided series. Or one held "at that row" (F-5): "Vehicles may be
    /// appended meanwhile", and are counted for nothing too.
    fn ended(&self, ending: Ending, n: usize, _: &Series) -> (Ending, usize) {
        (ending, n)
    }

    // ---- Other operations

    /// "Through the deciding engine's record": the pollutants, the small engine (F-1) and the
    /// run-in values (F-2) if there are any, and the engines up to that one, in records.
    fn records_through(&self, engine: u8, series: &Series) -> usize {
        series.declared + series.small_engines + series.run_ins + usize::from(engine)
    }

    /// "Evidence hands back the part of the sheet from its start through the deciding engine's
    /// record; the whole sheet where undecided, stopped or referred", in records; and of F-5: "A
    /// held sheet counts as undecided".
    fn evidence_records(&self, ground: Ground, through_engine: usize, whole: usize) -> usize {
        match ground {
            Ground::Row | Ground::EqualCause => through_engine,
            Ground::None | Ground::Stopped | Ground::Referred | Ground::Held => whole,
        }
    }

    /// "The part of the sheet", in bytes.
    fn evidence_length(&self, size: usize, records: usize) -> usize {
        records * size
    }

    /// "Report writes 20 bytes, one for each value: 16 as the mark of a report, verdict, ground,
    /// engine, four pairs of decision and engine, pollutant 1 first, eight zeros"; and of F-10:
    /// "its report is 28 bytes with six pairs and twelve zeros".
    fn report_bytes(&self, size: usize, judgement: &Judgement) -> [u8; LONGEST_REPORT] {
        let mut bytes = [0; LONGEST_REPORT];
        bytes[0] = 16;
        bytes[1] = judgement.verdict as u8;
        bytes[2] = judgement.ground as u8;
        bytes[3] = judgement.engine;
        let pairs = judgement.decisions.into_iter().take(self.pollutants(size));
        for (pollutant, (decision, engine)) in pairs.enumerate() {
            bytes[4 + 2 * pollutant] = decision as u8;
            bytes[5 + 2 * pollutant] = engine;
        }
        bytes
    }

    /// "Report writes 20 bytes", and F-10's "report is 28 bytes", all of them: as many as a record
    /// has.
    fn bytes_written(&self, size: usize) -> usize {
        size
    }

    // ---- What each operation turns down

    /// F-10: "30, size not 20 or 28".
    fn size_fits(&self, size: usize) -> bool {
        SIZES.contains(&size)
    }

    /// "A refusal that names no record, here or later, returns record 0"; of F-5, of 23 and 24:
    /// "both return record 0"; and of F-10: "30 to 32 return record 0".
    fn refusal_of_no_record(&self, number: u8) -> Refusal {
        Refusal::of_no_record(number)
    }

    /// "It returns number and record counted from 0"; of F-1 too: "18, at the kind 5 record".
    fn refusal_of_record(&self, number: u8, record: usize) -> Refusal {
        let record = record as u8;
        Refusal { number, record }
    }

    /// "Judge: 1, [..]. Then the first faulty record"; and of F-10: "30, [..] before every other".
    fn sheet_fault(&self, size: usize, sheet: &[u8]) -> Option<u8> {
        if !self.size_fits(size) {
            Some(30)
        } else if !self.length_fits(size, sheet.len()) {
            Some(1)
        } else {
            None
        }
    }

    /// "1, no bytes, a length not a multiple of 20, or over" 780 "bytes": the 39 records of F-1 and
    /// F-2; and of F-10: "the checks of a sheet, by its size".
    fn length_fits(&self, size: usize, length: usize) -> bool {
        length != 0 && length.is_multiple_of(size) && length <= self.longest_sheet(size)
    }

    /// "The first faulty record, and in it the" first "of": 2, 3, and what its kind can have. With
    /// F-1, whose 16 is "after 3; 17 [..] after 16; 18 [..] after 17", and F-2, whose 19 is "after
    /// 18", they stand in the order 2, 3, 16, 17, 18, 19, 4 to 12.
    fn fault(&self, record: &Record, so_far: &Series) -> Option<u8> {
        if !self.kind_fits(record[0]) {
            Some(2)
        } else if self.is_misplaced(record[0], so_far) {
            Some(3)
        } else {
            match record[0] {
                POLLUTANT => self.pollutant_fault(record, so_far),
                ENGINE => self.engine_fault(record, so_far),
                SMALL_ENGINE => self.small_engine_fault(record, so_far),
                RUN_IN => self.run_in_fault(record, so_far),
                _ => self.stop_fault(record, so_far),
            }
        }
    }

    /// "2, kind not 1 to 3"; of F-1: "Add record kind 5"; and of F-2: "Record kind 6".
    fn kind_fits(&self, kind: u8) -> bool {
        [POLLUTANT, ENGINE, STOP, SMALL_ENGINE, RUN_IN].contains(&kind)
    }

    /// "3, first record not kind 1, kind 1 after another kind, or anything after kind 3".
    fn is_misplaced(&self, kind: u8, so_far: &Series) -> bool {
        let first = so_far.declared == 0;
        let late = kind == POLLUTANT && so_far.has_other_kinds();
        first && kind != POLLUTANT || late || so_far.stopped
    }

    /// F-1: "16, [..], after 3; 17, [..], after 16; 18, [..], after 17", and 12 behind them.
    fn small_engine_fault(&self, record: &Record, so_far: &Series) -> Option<u8> {
        if !self.small_engine_place_fits(so_far) {
            Some(16)
        } else if !self.date_fits(self.date(record)) {
            Some(17)
        } else if !self.particulate_limit_fits(record, so_far) {
            Some(18)
        } else if !self.small_engine_rest_is_zero(record) {
            Some(12)
        } else {
            None
        }
    }

    /// "16, a second kind 5, one elsewhere or in plan 4".
    fn small_engine_place_fits(&self, so_far: &Series) -> bool {
        self.follows_pollutants(so_far) && self.has_small_engine(so_far.plan)
    }

    /// "Allowed once, straight after the pollutant records".
    fn follows_pollutants(&self, so_far: &Series) -> bool {
        !so_far.has_other_kinds()
    }

    /// Not "in plan 4".
    fn has_small_engine(&self, plan: u8) -> bool {
        plan != 4
    }

    /// "18, at the kind 5 record, a declared particulate limit not the rule's": without pollutant 4
    /// nothing is asked.
    fn particulate_limit_fits(&self, record: &Record, so_far: &Series) -> bool {
        let limit = so_far.limits[PARTICULATES];
        limit == 0 || limit == self.particulate_limit(record)
    }

    /// F-2: "19, [..] after 18"; and behind it "refusals 8 and 12 read it as they read an engine".
    fn run_in_fault(&self, record: &Record, so_far: &Series) -> Option<u8> {
        if !self.run_in_place_fits(so_far) {
            Some(19)
        } else if !self.run_in_values_fit(record, so_far) {
            Some(8)
        } else if !self.run_in_rest_is_zero(record) {
            Some(12)
        } else {
            None
        }
    }

    /// "19, a second kind 6, one after an engine or in plan 4".
    fn run_in_place_fits(&self, so_far: &Series) -> bool {
        self.is_first_run_in(so_far)
            && self.precedes_engines(so_far)
            && self.has_run_in(so_far.plan)
    }

    /// Not "a second kind 6".
    fn is_first_run_in(&self, so_far: &Series) -> bool {
        so_far.run_ins == 0
    }

    /// "Before the first engine": not "after an engine".
    fn precedes_engines(&self, so_far: &Series) -> bool {
        so_far.tested == 0
    }

    /// Not "in plan 4".
    fn has_run_in(&self, plan: u8) -> bool {
        plan != 4
    }

    /// "8, measurement, also one not zero of an undeclared pollutant", read "as they read an
    /// engine".
    fn run_in_values_fit(&self, record: &Record, so_far: &Series) -> bool {
        self.measurements_fit(record, so_far)
    }

    /// The lowest of "4 [..]; 5 [..]; 6, limit out of range; 7, deviation; [..] 12, another byte
    /// that must be zero".
    fn pollutant_fault(&self, record: &Record, so_far: &Series) -> Option<u8> {
        let (number, plan) = (record[1], record[2]);
        if !self.pollutant_fits(number, so_far) {
            Some(4)
        } else if !self.plan_fits(plan, so_far) {
            Some(5)
        } else if !self.limit_fits(self.limit(record)) {
            Some(6)
        } else if !self.deviation_fits(plan, self.deviation(record)) {
            Some(7)
        } else if !self.pollutant_rest_is_zero(record) {
            Some(12)
        } else {
            None
        }
    }

    /// "4, pollutant number not 1 to 4 or not above the one before"; and of F-10: "pollutant numbers
    /// run to 6".
    fn pollutant_fits(&self, number: u8, so_far: &Series) -> bool {
        let numbers = 1..=self.pollutants(so_far.size);
        numbers.contains(&number.into()) && number > so_far.highest_pollutant
    }

    /// "5, plan not 1 to 4 or unlike the first"; and of F-6: "Refusal 5 admits plan 5."
    fn plan_fits(&self, plan: u8, so_far: &Series) -> bool {
        (1..=PLANS).contains(&plan) && (so_far.declared == 0 || plan == so_far.plan)
    }

    /// The lowest of "8, measurement [..]; 9, cause; 10, more engines than the last row; [..] 12,
    /// another byte that must be zero".
    fn engine_fault(&self, record: &Record, so_far: &Series) -> Option<u8> {
        if !self.measurements_fit(record, so_far) {
            Some(8)
        } else if !self.cause_fits(record, so_far) {
            Some(9)
        } else if self.is_one_too_many(so_far) {
            Some(10)
        } else if !self.engine_rest_is_zero(record) {
            Some(12)
        } else {
            None
        }
    }

    /// "8, measurement, also one not zero of an undeclared pollutant".
    fn measurements_fit(&self, record: &Record, so_far: &Series) -> bool {
        let mut pollutants = 0..self.pollutants(so_far.size);
        pollutants.all(|pollutant| {
            let x = self.measurement(record, pollutant);
            match so_far.limits[pollutant] {
                0 => self.undeclared_fits(x),
                _ => self.measurement_fits(x),
            }
        })
    }

    /// "9, cause".
    fn cause_fits(&self, record: &Record, so_far: &Series) -> bool {
        if self.has_causes(so_far.plan) && self.is_gross_emitter(record, so_far) {
            self.gross_cause_fits(self.cause(record))
        } else {
            self.other_cause_fits(self.cause(record))
        }
    }

    /// "A vehicle with 2x > 3L for some pollutant", of as many as the size has.
    fn is_gross_emitter(&self, record: &Record, so_far: &Series) -> bool {
        let mut pollutants = 0..self.pollutants(so_far.size);
        pollutants.any(|pollutant| {
            let x = self.measurement(record, pollutant);
            self.is_gross(x, so_far.limits[pollutant])
        })
    }

    /// "10, more engines than the last row".
    fn is_one_too_many(&self, so_far: &Series) -> bool {
        so_far.tested == self.last_row(so_far.plan)
    }

    /// The lowest of "11, stop in plan 4; 12, another byte that must be zero".
    fn stop_fault(&self, record: &Record, so_far: &Series) -> Option<u8> {
        if !self.stop_fits(so_far.plan) {
            Some(11)
        } else if !self.stop_rest_is_zero(record) {
            Some(12)
        } else {
            None
        }
    }

    /// "11, stop in plan 4".
    fn stop_fits(&self, plan: u8) -> bool {
        plan != 4
    }

    /// "Evidence: as judge, with an empty part."
    fn evidence_refusal(&self, refusal: Refusal) -> Refusal {
        refusal
    }

    /// "Append, in this order: 14, record not 20 bytes; 13, fewer than 20 bytes after u, or u
    /// beyond the buffer"; and of F-10: "13 to 15 count 28 bytes for the new size; 30, [..] before
    /// every other". Beyond the buffer there is no rest.
    fn append_fault(&self, size: usize, record: usize, rest: Option<usize>) -> Option<u8> {
        if !self.size_fits(size) {
            Some(30)
        } else if record != size {
            Some(14)
        } else if rest.is_none_or(|rest| rest < size) {
            Some(13)
        } else {
            None
        }
    }

    /// "1 to 12 for the sheet there, unless u = 0".
    fn checks_sheet_there(&self, used: usize) -> bool {
        used != 0
    }

    /// "1 to 12 for the sheet there"; and of F-1: "Here and later, a sheet's new refusals stand with
    /// 1 to 12 in append."
    fn refusal_of_sheet_there(&self, refusal: Option<Refusal>) -> Option<Refusal> {
        refusal
    }

    /// "1 to 12 for the joined sheet", and those of F-1 and F-2 with them.
    fn refusal_of_joined_sheet(&self, refusal: Option<Refusal>) -> Option<Refusal> {
        refusal
    }

    /// "On success only the 20 bytes at u change", and on a refusal none.
    fn stays_written(&self, refusal: Option<Refusal>) -> bool {
        refusal.is_none()
    }

    /// "Report: 15, output under 20 bytes, record 0; then as judge."
    fn report_answer(
        &self,
        size: usize,
        output: usize,
        judged: Result<Judgement, Refusal>,
    ) -> Result<Judgement, Refusal> {
        match self.report_fault(size, output) {
            Some(number) => Err(self.refusal_of_no_record(number)),
            None => judged,
        }
    }

    /// "15, output under 20 bytes"; and of F-10: "13 to 15 count 28 bytes for the new size; 30,
    /// [..] before every other".
    fn report_fault(&self, size: usize, output: usize) -> Option<u8> {
        if !self.size_fits(size) {
            Some(30)
        } else if output < size {
            Some(15)
        } else {
            None
        }
    }

    // ---- The program `verdict`

    /// F-10: "`verdict` reads 20-byte sheets."
    fn size_of_verdict(&self) -> usize {
        FOUR_POLLUTANTS
    }

    /// "Verdict word (another, pass, fail, referred)"; and of F-5: "printed `held`".
    fn verdict_word(&self, verdict: Verdict) -> &'static str {
        match verdict {
            Verdict::Another => "another",
            Verdict::Pass => "pass",
            Verdict::Fail => "fail",
            Verdict::Referred => "referred",
            Verdict::Held => "held",
        }
    }

    /// "Line 1: verdict word (another, pass, fail, referred), engine, ground".
    fn first_line(&self, word: &str, engine: u8, ground: Ground) -> String {
        format!("{word} {engine} {}\n", ground as u8)
    }

    /// "Then a line for each declared pollutant", which has a limit.
    fn has_line(&self, limit: u32) -> bool {
        limit != 0
    }

    /// "Number, open/pass/fail, engine."
    fn pollutant_line(&self, number: usize, word: &str, engine: u8) -> String {
        format!("{number} {word} {engine}\n")
    }

    /// "A refusal prints `refused`, number, record."
    fn refused_line(&self, Refusal { number, record }: Refusal) -> String {
        format!("refused {number} {record}\n")
    }

    // ---- The converter (document 02, F-10)

    /// "A converter carries accepted sheets both ways": from either size to the other.
    fn other_size(&self, size: usize) -> usize {
        match size {
            SIX_POLLUTANTS => FOUR_POLLUTANTS,
            _ => SIX_POLLUTANTS,
        }
    }

    /// All records of a sheet, in bytes of the other size.
    fn carried_length(&self, size: usize, length: usize) -> usize {
        length / size * self.other_size(size)
    }

    /// "Record by record".
    fn carry(&self, size: usize, sheet: &[u8], carried: &mut [u8]) {
        let places = carried.chunks_exact_mut(self.other_size(size));
        for (record, place) in sheet.chunks_exact(size).zip(places) {
            self.carry_record(record, place);
        }
    }

    /// "Other fields keep their bytes", "added bytes zero".
    fn carry_record(&self, record: &Record, place: &mut Record) {
        let kept = record.len().min(place.len());
        place[..kept].copy_from_slice(&record[..kept]);
        place[kept..].fill(0);
    }

    /// "Output bytes past the sheet untouched."
    fn pass_over(&self, _past: &mut [u8]) {}

    /// A converter carries "accepted sheets": what is turned away writes nothing.
    fn is_carried(&self, refusal: Option<Refusal>) -> bool {
        refusal.is_none()
    }

    /// "Turned away: the checks of a sheet, by its size; [..] 31, [..] after the sheet's checks;
    /// 32, converter output too short, after 31".
    fn convert_refusal(
        &self,
        size: usize,
        sheet: &[u8],
        output: usize,
        checked: Result<Series, Refusal>,
    ) -> Option<Refusal> {
        let series = match checked {
            Ok(series) => series,
            Err(refusal) => return Some(refusal),
        };
        if self.is_too_narrow(self.other_size(size), &series) {
            Some(self.refusal_of_no_record(31))
        } else if self.is_too_short(output, self.carried_length(size, sheet.len())) {
            Some(self.refusal_of_no_record(32))
        } else {
            None
        }
    }

    /// "31, narrowing a sheet that declares pollutant 5 or 6".
    fn is_too_narrow(&self, other_size: usize, series: &Series) -> bool {
        usize::from(series.highest_pollutant) > self.pollutants(other_size)
    }

    /// "32, converter output too short".
    fn is_too_short(&self, output: usize, carried: usize) -> bool {
        output < carried
    }

    // ---- The finding (document 02, F-5)

    /// "Turned away: the sheet's own number; then 23, [..]; 24, [..], after 23; both return record
    /// 0."
    fn finding_refusal(
        &self,
        engine: u32,
        finding: u32,
        checked: Result<Series, Refusal>,
    ) -> Option<Refusal> {
        let series = match checked {
            Ok(series) => series,
            Err(refusal) => return Some(refusal),
        };
        if !self.is_pending_at(engine, &series) {
            Some(self.refusal_of_no_record(23))
        } else if !self.finding_fits(finding) {
            Some(self.refusal_of_no_record(24))
        } else {
            None
        }
    }

    /// "23, no pending vehicle at that engine"; there may be one behind the decision too.
    fn is_pending_at(&self, engine: u32, series: &Series) -> bool {
        let place = self.place_of_engine(engine, series.size, series.sheet);
        let record = place.and_then(|place| series.records().nth(place));
        record.is_some_and(|record| self.is_pending(self.cause(record)))
    }

    /// "That engine, counted from 1": the number of its record, which counts from 0.
    fn place_of_engine(&self, engine: u32, size: usize, sheet: &[u8]) -> Option<usize> {
        let before = engine.checked_sub(1)? as usize;
        let records = sheet.chunks_exact(size).enumerate();
        let mut engines = records.filter(|(_, record)| self.is_engine(record[0]));
        engines.nth(before).map(|(place, _)| place)
    }

    /// "24, finding not 1 to 65,534", of all its bits.
    fn finding_fits(&self, finding: u32) -> bool {
        (1..=LARGEST_CAUSE.into()).contains(&finding)
    }

    /// What is turned away writes nothing.
    fn is_entered(&self, refusal: Option<Refusal>) -> bool {
        refusal.is_none()
    }

    /// "Enters the finding" where the sheet has the engine, and nowhere else.
    fn enter(&self, engine: u32, finding: u32, size: usize, sheet: &mut [u8]) {
        if let Some(place) = self.place_of_engine(engine, size, sheet) {
            self.enter_cause(&mut sheet[place * size..][..size], finding);
        }
    }

    /// "Changes only that record's two cause bytes": "bytes 2-3 cause", and "numbers are
    /// little-endian".
    fn enter_cause(&self, record: &mut Record, finding: u32) {
        record[2..4].copy_from_slice(&(finding as u16).to_le_bytes());
    }

    // ---- Declared carbon dioxide (document 02, F-4)

    /// Document 004, 6.5.1: whether the value measured does "exceed the declared value by more
    /// than 4 %"; 6.5.2: whether "the average of the two test results" does. "Compared exactly":
    /// both sides are taken 100 times, and once for each test. "The measured value can be lower
    /// without any limitations."
    fn exceeds(&self, declared: u32, tests: &[u32]) -> bool {
        let declared = tests.len() as i128 * i128::from(declared);
        let excess = total(tests) - declared;
        100 * excess > self.percent() * declared
    }

    /// "More than 4 %", which is more than "104/100 of it".
    fn percent(&self) -> i128 {
        4
    }

    /// "Sum and count (declared value and 1 where it stands)", whichever tests let it stand.
    fn standing(&self, declared: u32, _tests: &[u32]) -> Approval {
        Approval::Value {
            sum: declared,
            count: 1,
        }
    }

    /// 6.5.3: "The average of the three test results is taken as the type-approval value",
    /// wherever it lies.
    fn mean_of_three(&self, _declared: u32, tests: [u32; 3]) -> Approval {
        Approval::Value {
            sum: total(&tests) as u32,
            count: 3,
        }
    }

    /// "Turned away: 20, [..]; 21, [..], after 20; 22, [..], after 21."
    fn approval_fault(&self, declared: u32, tests: &[u32]) -> Option<u8> {
        if !self.test_count_fits(tests.len()) {
            Some(20)
        } else if !self.values_fit(declared, tests) {
            Some(21)
        } else if self.has_late_test(declared, tests) {
            Some(22)
        } else {
            None
        }
    }

    /// "20, no tests or more than three".
    fn test_count_fits(&self, count: usize) -> bool {
        (1..=3).contains(&count)
    }

    /// "21, value out of range": the declared value or any test.
    fn values_fit(&self, declared: u32, tests: &[u32]) -> bool {
        self.declared_fits(declared) && tests.iter().all(|&test| self.test_fits(test))
    }

    /// The declared value is one of the "values [..] 1 to 9,999,999".
    fn declared_fits(&self, declared: u32) -> bool {
        (1..=LARGEST).contains(&declared)
    }

    /// Each test is one of the "values [..] 1 to 9,999,999".
    fn test_fits(&self, test: u32) -> bool {
        (1..=LARGEST).contains(&test)
    }

    /// "22, a test after the decision": a second where the value stands by the first, or a third
    /// where it stands by the first or by the mean of two.
    fn has_late_test(&self, declared: u32, tests: &[u32]) -> bool {
        match *tests {
            [first, _] => !self.exceeds(declared, &[first]),
            [first, second, _, ..] => {
                !self.exceeds(declared, &[first]) || !self.exceeds(declared, &[first, second])
            }
            _ => false,
        }
    }

    /// "A refusal that names no record, here or later, returns record 0."
    fn approval_refusal(&self, number: u8, _tests: &[u32]) -> Refusal {
        Refusal::of_no_record(number)
    }

    /// What a refusal returns in C: "number x 256 + record".
    fn approval_code(&self, refusal: Refusal) -> u32 {
        refusal.code()
    }

    /// What C finds written as sum and as divisor: 0 and 0 for another test, and nothing on a
    /// refusal.
    fn written(&self, answer: Result<Approval, Refusal>) -> [Option<u32>; 2] {
        match answer {
            Ok(Approval::Another) => [Some(0), Some(0)],
            Ok(Approval::Value { sum, count }) => [Some(sum), Some(count)],
            Err(_) => [None, None],
        }
    }
}

fn all_zero(bytes: &[u8]) -> bool {
    bytes.iter().all(|&byte| byte == 0)
}
