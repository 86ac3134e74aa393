//! The Gregorian calendar by a count of its days, in place of the months' lengths and the leap years
//! that the implementations under test go by: 400 years have 146,097 days, and a year that begins
//! with March has its leap day last.

use random::Random;
use std::iter::Peekable;

/// 1 January of year 1, in days from 1 March of year 0.
const FIRST: u32 = 306;
/// How many days there are from 1 January of year 1 to 31 December of year 9999.
const DAYS: u32 = 3_652_059;
/// 30 September 1998, the last day of the limit 250, in days from 1 March of year 0.
const LAST_DAY: u32 = 729_967;

/// "Year x 10000 + month x 100 + day" of the day that is so many days behind 1 March of year 0.
fn date(days: u32) -> u32 {
    let (cycle, day) = (days / 146_097, days % 146_097);
    let year = (day - day / 1460 + day / 36_524 - day / 146_096) / 365;
    let day = day - (365 * year + year / 4 - year / 100);
    // Five months from March or August on have 153 days: 31, 30, 31, 30 and 31.
    let month = (5 * day + 2) / 153;
    let day = day - (153 * month + 2) / 5 + 1;
    let of_next_year = month / 10;
    let year = 400 * cycle + year + of_next_year;
    year * 10_000 + (month + 3 - 12 * of_next_year) * 100 + day
}

/// Every day of years 1 to 9999, in order.
pub fn days() -> impl Iterator<Item = u32> {
    (FIRST..FIRST + DAYS).map(date)
}

/// An end of the calendar, a day within two or within a thousand of 30 September 1998, the last of a
/// month, or any day.
pub fn random_day(random: &mut Random) -> u32 {
    let any = |random: &mut Random| random.between(FIRST, FIRST + DAYS - 1);
    match random.below(8) {
        0 => random.pick(&[10_101, 99_991_231]),
        1 | 2 => date(random.between(LAST_DAY - 2, LAST_DAY + 2)),
        3 => last_of_month(any(random)),
        4 => date(random.between(LAST_DAY - 1000, LAST_DAY + 1000)),
        _ => date(any(random)),
    }
}

/// The last day of the month that a day is in.
fn last_of_month(days: u32) -> u32 {
    let day = date(days) % 100;
    let next_first = (days - day + 28..).find(|&days| date(days) % 100 == 1);
    date(next_first.expect("every month ends") - 1)
}

/// Numbers in rising order, each with whether it is a day.
pub fn with_days(numbers: impl Iterator<Item = u32>) -> impl Iterator<Item = (u32, bool)> {
    let mut days = days().peekable();
    numbers.map(move |number| (number, is_next(&mut days, number)))
}

/// Moves on to the first day that is not before the number.
fn is_next(days: &mut Peekable<impl Iterator<Item = u32>>, number: u32) -> bool {
    while days.next_if(|&day| day < number).is_some() {}
    days.peek() == Some(&number)
}
