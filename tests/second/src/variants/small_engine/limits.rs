//! "18, at the kind 5 record, a declared particulate limit not the rule's": which limit is the rule's,
//! and of what it is asked.

use super::{by_rule, wrong, Wrong};
use crate::check::{Record, Series};
use crate::document::{Document, Document01, PARTICULATES};

pub fn all() -> Vec<Wrong> {
    let mut all = engines_of_the_rule();
    all.extend(last_days_of_the_rule());
    all.extend(limits_of_the_rule());
    all.extend(limits_accepted());
    all.extend(engines_asked());
    all.extend(limits_asked());
    all
}

/// Other small engines, by volume and speed.
struct Small(fn(u16, u16) -> bool);

impl Document for Small {
    fn is_small(&self, volume: u16, speed: u16) -> bool {
        (self.0)(volume, speed)
    }
}

/// "Under 700 cm³ and above 3000 per minute".
fn engines_of_the_rule() -> Vec<Wrong> {
    by_rule(
        Small,
        "refusal 18",
        [
            ("700 cm³ is under 700", |volume, speed| {
                volume <= 700 && speed > 3000
            }),
            ("699 cm³ is not under 700", |volume, speed| {
                volume < 699 && speed > 3000
            }),
            ("above 700 cm³", |volume, speed| {
                volume > 700 && speed > 3000
            }),
            ("a volume of 0 is not under 700", |volume, speed| {
                (1..700).contains(&volume) && speed > 3000
            }),
            ("the volume not looked at", |_, speed| speed > 3000),
            ("3000 per minute is above 3000", |volume, speed| {
                volume < 700 && speed >= 3000
            }),
            ("3001 per minute is not above 3000", |volume, speed| {
                volume < 700 && speed > 3001
            }),
            ("under 3000 per minute", |volume, speed| {
                volume < 700 && speed < 3000
            }),
            ("the speed not looked at", |volume, _| volume < 700),
            ("a speed with a sign", |volume, speed| {
                volume < 700 && speed as i16 > 3000
            }),
            (
                "under 700 cm³ or above 3000 per minute",
                |volume, speed| volume < 700 || speed > 3000,
            ),
        ],
    )
}

/// Other dates with the limit 250.
struct InTime(fn(u32) -> bool);

impl Document for InTime {
    fn is_in_time(&self, date: u32) -> bool {
        (self.0)(date)
    }
}

/// "250 through 19980930 and 150 after". In document 001 the same words with 30 September 1997 stand
/// in a footnote to section 6.2.1.
fn last_days_of_the_rule() -> Vec<Wrong> {
    by_rule(
        InTime,
        "refusal 18",
        [
            ("through 19980929", |date| date < 19_980_930),
            ("through 19981001", |date| date <= 19_981_001),
            ("through 19970930", |date| date <= 19_970_930),
            ("through 1998", |date| date < 19_990_000),
            ("after 19980930", |date| date > 19_980_930),
            ("the date not looked at", |_| true),
        ],
    )
}

/// "250 [..] and 150 after [..]; every other engine has 150."
fn limits_of_the_rule() -> Vec<Wrong> {
    vec![
        wrong!(
            "refusal 18: 250 and 150 exchanged",
            fn particulate_limit(&self, record: &Record) -> u32 {
                400 - Document01.particulate_limit(record)
            }
        ),
        wrong!(
            "refusal 18: 150 for every engine",
            fn particulate_limit(&self, _: &Record) -> u32 {
                150
            }
        ),
        wrong!(
            "refusal 18: 250 for every engine",
            fn particulate_limit(&self, _: &Record) -> u32 {
                250
            }
        ),
    ]
}

/// Other limits accepted, by the declared limit and the rule's.
struct Accepts(fn(u32, u32) -> bool);

impl Document for Accepts {
    fn particulate_limit_fits(&self, record: &Record, so_far: &Series) -> bool {
        let limit = so_far.limits[PARTICULATES];
        limit == 0 || (self.0)(limit, self.particulate_limit(record))
    }
}

/// "18, [..] a declared particulate limit not the rule's".
fn limits_accepted() -> Vec<Wrong> {
    by_rule(
        Accepts,
        "refusal 18",
        [
            ("any limit accepted", |_, _| true),
            ("a limit under the rule's accepted", |limit, rule| {
                limit <= rule
            }),
            ("a limit over the rule's accepted", |limit, rule| {
                limit >= rule
            }),
            ("limits compared by one byte", |limit, rule| {
                limit % (1 << 8) == rule
            }),
            ("limits compared by two bytes", |limit, rule| {
                limit % (1 << 16) == rule
            }),
            ("150 accepted for every engine", |limit, rule| {
                limit == 150 || limit == rule
            }),
            ("250 accepted for every engine", |limit, rule| {
                limit == 250 || limit == rule
            }),
        ],
    )
}

/// "Every other engine has 150", and "sheets [..] without kind 5 are judged as before".
fn engines_asked() -> Vec<Wrong> {
    vec![
        wrong!(
            "refusal 18: engines of 700 cm³ and more or up to 3000 per minute not asked",
            fn particulate_limit_fits(&self, record: &Record, so_far: &Series) -> bool {
                let small = self.is_small(self.volume(record), self.speed(record));
                !small || Document01.particulate_limit_fits(record, so_far)
            }
        ),
        wrong!(
            "refusal 18: engines after 19980930 not asked",
            fn particulate_limit_fits(&self, record: &Record, so_far: &Series) -> bool {
                let in_time = self.is_in_time(self.date(record));
                !in_time || Document01.particulate_limit_fits(record, so_far)
            }
        ),
        wrong!(
            "refusal 18: 150 asked of sheets without kind 5",
            fn engine_fault(&self, record: &Record, so_far: &Series) -> Option<u8> {
                let fits = [0, 150].contains(&so_far.limits[PARTICULATES]);
                if so_far.small_engines == 0 && !fits {
                    Some(18)
                } else {
                    Document01.engine_fault(record, so_far)
                }
            }
        ),
    ]
}

/// "A declared particulate limit", and no other pollutant's.
fn limits_asked() -> Vec<Wrong> {
    vec![
        wrong!(
            "refusal 18: asked of undeclared particulates too",
            fn particulate_limit_fits(&self, record: &Record, so_far: &Series) -> bool {
                so_far.limits[PARTICULATES] == self.particulate_limit(record)
            }
        ),
        wrong!(
            "refusal 18: asked of the first pollutant",
            fn particulate_limit_fits(&self, record: &Record, so_far: &Series) -> bool {
                let mut declared = so_far.limits.iter().filter(|&&limit| limit != 0);
                declared.next() == Some(&self.particulate_limit(record))
            }
        ),
        wrong!(
            "refusal 18: asked of the last pollutant",
            fn particulate_limit_fits(&self, record: &Record, so_far: &Series) -> bool {
                let last = usize::from(so_far.highest_pollutant) - 1;
                so_far.limits[last] == self.particulate_limit(record)
            }
        ),
        wrong!(
            "refusal 18: asked of every declared pollutant",
            fn particulate_limit_fits(&self, record: &Record, so_far: &Series) -> bool {
                let rule = self.particulate_limit(record);
                let mut limits = so_far.limits.iter();
                limits.all(|&limit| limit == 0 || limit == rule)
            }
        ),
        wrong!(
            "refusal 18: asked of nitrogen oxides",
            fn particulate_limit_fits(&self, record: &Record, so_far: &Series) -> bool {
                let limit = so_far.limits[PARTICULATES - 1];
                limit == 0 || limit == self.particulate_limit(record)
            }
        ),
        wrong!(
            "refusal 18: asked only where particulates are the only pollutant",
            fn particulate_limit_fits(&self, record: &Record, so_far: &Series) -> bool {
                so_far.declared > 1 || Document01.particulate_limit_fits(record, so_far)
            }
        ),
    ]
}
