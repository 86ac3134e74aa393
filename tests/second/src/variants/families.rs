//! Wrong readings of one number among many alike: the printed decision numbers, W in one row, the
//! logarithm of one m, and the equality of causes.

use super::{Family, Wrong};
use crate::document::{Document, Document01, PLANS, UNKNOWN_DEVIATION};
use crate::judge::Row;
use crate::tables::Column;

/// Another decision number.
pub struct Number {
    pub plan: u8,
    pub column: Column,
    pub n: usize,
    pub is: i64,
}

impl Document for Number {
    fn number(&self, plan: u8, column: Column, n: usize) -> Option<i64> {
        if (plan, column, n) == (self.plan, self.column, self.n) {
            Some(self.is)
        } else {
            Document01.number(plan, column, n)
        }
    }
}

/// W some units off in one row of one plan.
struct WOff {
    plan: u8,
    n: usize,
    by: i128,
}

impl Document for WOff {
    fn w(&self, row: &Row) -> i128 {
        let here = (row.plan, row.n) == (self.plan, self.n);
        Document01.w(row) + if here { self.by } else { 0 }
    }
}

/// The logarithm of one m some units off.
pub struct GOff {
    pub m: u32,
    pub by: i64,
}

impl Document for GOff {
    fn g(&self, m: u32) -> i64 {
        Document01.g(m) + if m == self.m { self.by } else { 0 }
    }
}

/// Two vehicles of this cause count as different.
struct CauseIgnored(u16);

impl Document for CauseIgnored {
    fn is_equal_cause(&self, before: &[u16], cause: u16) -> bool {
        cause != self.0 && Document01.is_equal_cause(before, cause)
    }
}

/// Every printed number one unit more, and one unit less.
pub fn decision_numbers() -> Vec<Family> {
    let mut families = Vec::new();
    for plan in 1..=PLANS {
        for column in [Column::Pass, Column::Fail] {
            for by in [1, -1] {
                let title = format!("{column:?} numbers off by {by:+}");
                let rows = 3..=Document01.last_row(plan);
                let readings = rows.filter_map(|n| number_off(plan, column, n, by));
                families.push(Family::new(title, plan, readings));
            }
        }
    }
    families
}

/// Plan 3 passes nothing new at an odd n but the last, and fails nothing new at an even n: there
/// its pass number one less, and its fail number one more, is the same plan. "In the last row, what
/// doesn't pass fails": the fail number that plan 5 has there decides nothing, whatever it is.
fn number_off(plan: u8, column: Column, n: usize, by: i64) -> Option<Wrong> {
    let odd = n % 2 == 1;
    let last = n == Document01.last_row(plan);
    let same = match column {
        Column::Pass => plan == 3 && by < 0 && odd && !last,
        Column::Fail => last || plan == 3 && by > 0 && !odd,
    };
    let is = Document01.number(plan, column, n)? + by;
    let number = Number {
        plan,
        column,
        n,
        is,
    };
    (!same).then(|| Wrong::new(format!("row {n}"), number))
}

/// W one unit more, and one unit less, in every row that asks for it.
pub fn variances() -> Vec<Family> {
    let mut families = Vec::new();
    for plan in UNKNOWN_DEVIATION {
        for by in [1, -1] {
            let title = format!("W off by {by:+}");
            let rows = 3..=Document01.last_row(plan);
            let off = |n| Wrong::new(format!("row {n}"), WOff { plan, n, by });
            families.push(Family::new(title, plan, rows.map(off)));
        }
    }
    families
}

/// The logarithm of one m a unit more, and a unit less, each with the m: at the ends of the range,
/// at primes, at 3,000,000, which the sweep measures on many sheets, and at the middle, where it
/// turns from double to half the limit.
pub fn logarithms() -> Vec<(u32, Wrong)> {
    let ends = [1, 2, 3, 9_999_999];
    let inside = [65_539, 3_000_000];
    let middle = [4_999_999, 5_000_000, 5_000_001, 5_000_011];
    let mut all = Vec::new();
    for m in ends.into_iter().chain(inside).chain(middle) {
        for by in [1, -1] {
            let description = format!("logarithm of {m} off by {by:+}");
            all.push((m, Wrong::new(description, GOff { m, by })));
        }
    }
    all
}

/// Two known causes count as equal if these of their bytes are.
struct CausesAlike(fn(u16) -> u16);

impl Document for CausesAlike {
    fn is_equal_cause(&self, before: &[u16], cause: u16) -> bool {
        let mut known = before.iter().filter(|&&other| !self.is_pending(other));
        !self.is_pending(cause) && known.any(|&other| (self.0)(other) == (self.0)(cause))
    }
}

/// The equality of causes, which have two bytes.
pub fn causes() -> Vec<Family> {
    let ignored = [1, 7, 254, 255, 256, 257, 300, 511, 32_768, 65_279, 65_534]
        .map(|cause| Wrong::new(format!("cause {cause}"), CauseIgnored(cause)));
    let one_byte = [
        Wrong::new("low bytes", CausesAlike(|cause| cause % 256)),
        Wrong::new("high bytes", CausesAlike(|cause| cause / 256)),
    ];
    vec![
        Family::new("equality of one cause ignored".to_string(), 4, ignored),
        Family::new("causes compared by one byte only".to_string(), 4, one_byte),
    ]
}
