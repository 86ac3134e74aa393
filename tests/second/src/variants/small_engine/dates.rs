//! "17, date not in the Gregorian calendar of years 1 to 9999".

use super::{by_rule, Wrong};
use crate::document::{Document, Document01};

pub fn all() -> Vec<Wrong> {
    let mut all = dates();
    all.extend(years());
    all.extend(leap_years());
    all.extend(months());
    all.extend(days());
    all.extend(months_off());
    all
}

/// Other dates accepted.
struct Dates(fn(u32) -> bool);

impl Document for Dates {
    fn date_fits(&self, date: u32) -> bool {
        (self.0)(date)
    }
}

/// "Test date as year x 10000 + month x 100 + day"; "17, date not in the Gregorian calendar".
fn dates() -> Vec<Wrong> {
    by_rule(
        Dates,
        "refusal 17",
        [
            ("any date accepted", |_| true),
            ("the date as year, day and month", |date| {
                let (year, day, month) = (date / 10_000, date / 100 % 100, date % 100);
                Document01.date_fits(year * 10_000 + month * 100 + day)
            }),
            ("the date as day, month and year", |date| {
                let (day, month, year) = (date / 1_000_000, date / 10_000 % 100, date % 10_000);
                Document01.date_fits(year * 10_000 + month * 100 + day.min(99))
            }),
            ("day 0 accepted", |date| {
                let first = u32::from(date.is_multiple_of(100));
                Document01.date_fits(date + first)
            }),
            ("ten days of October 1582 refused", |date| {
                let left_out = 15_821_005..=15_821_014;
                !left_out.contains(&date) && Document01.date_fits(date)
            }),
        ],
    )
}

/// Other years accepted.
struct Years(fn(u32) -> bool);

impl Document for Years {
    fn year_fits(&self, year: u32) -> bool {
        (self.0)(year)
    }
}

/// "Of years 1 to 9999".
fn years() -> Vec<Wrong> {
    by_rule(
        Years,
        "refusal 17",
        [
            ("year 0 accepted", |year| year <= 9999),
            ("year 1 refused", |year| (2..=9999).contains(&year)),
            ("years under 1000 refused", |year| {
                (1000..=9999).contains(&year)
            }),
            ("years before the Gregorian calendar refused", |year| {
                (1583..=9999).contains(&year)
            }),
            ("year 9999 refused", |year| (1..9999).contains(&year)),
            ("year 10000 accepted", |year| (1..=10_000).contains(&year)),
            ("every year from 1 on accepted", |year| year >= 1),
            ("a year of two bytes", |year| {
                Document01.year_fits(year % (1 << 16))
            }),
        ],
    )
}

/// Other leap years.
struct LeapYears(fn(u32) -> bool);

impl Document for LeapYears {
    fn is_leap_year(&self, year: u32) -> bool {
        (self.0)(year)
    }
}

/// "The Gregorian calendar", taken back to year 1.
fn leap_years() -> Vec<Wrong> {
    by_rule(
        LeapYears,
        "refusal 17",
        [
            ("no leap years", |_| false),
            ("leap years only", |_| true),
            ("every fourth year a leap year, 1900 too", |year| {
                year.is_multiple_of(4)
            }),
            ("every fourth year a leap year before 1583", |year| {
                Document01.is_leap_year(year) || year < 1583 && year.is_multiple_of(4)
            }),
            ("no hundredth year a leap year, not even 2000", |year| {
                Document01.is_leap_year(year) && !year.is_multiple_of(100)
            }),
            ("of the hundredth years only 2000 a leap year", |year| {
                Document01.is_leap_year(year) && (year == 2000 || !year.is_multiple_of(100))
            }),
            ("every two hundredth year a leap year", |year| {
                Document01.is_leap_year(year) || year.is_multiple_of(200)
            }),
        ],
    )
}

/// Other months accepted.
struct Months(fn(u32) -> bool);

impl Document for Months {
    fn month_fits(&self, month: u32) -> bool {
        (self.0)(month)
    }
}

/// The calendar's months.
fn months() -> Vec<Wrong> {
    by_rule(
        Months,
        "refusal 17",
        [
            ("month 0 accepted", |month| month <= 12),
            ("month 13 accepted", |month| (1..=13).contains(&month)),
            ("any month accepted", |_| true),
            ("December refused", |month| (1..12).contains(&month)),
        ],
    )
}

/// Other numbers of days in a month, by the right one.
struct Days(fn(u32) -> u32);

impl Document for Days {
    fn days_in(&self, year: u32, month: u32) -> u32 {
        (self.0)(Document01.days_in(year, month))
    }
}

/// The calendar's days.
fn days() -> Vec<Wrong> {
    by_rule(
        Days,
        "refusal 17",
        [
            ("31 days in every month", |_| 31),
            ("at most 30 days in a month", |days| days.min(30)),
            ("30 February of a leap year accepted", |days| {
                days + u32::from(days == 29)
            }),
        ],
    )
}

/// One month some days longer or shorter, in every year.
struct MonthOff {
    month: u32,
    by: i32,
}

impl Document for MonthOff {
    fn days_in(&self, year: u32, month: u32) -> u32 {
        let days = Document01.days_in(year, month);
        if month == self.month {
            days.saturating_add_signed(self.by)
        } else {
            days
        }
    }
}

/// Each month a day longer, and a day shorter.
fn months_off() -> Vec<Wrong> {
    let mut all = Vec::new();
    for month in 1..=12 {
        for by in [1, -1] {
            let description = format!("refusal 17: the days of month {month} off by {by:+}");
            all.push(Wrong::new(description, MonthOff { month, by }));
        }
    }
    all
}
