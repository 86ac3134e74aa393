//! Declared carbon dioxide values with their tests: all of small numbers, the ends of the range,
//! those about the line of 104/100, and random ones.

use crate::draft::LARGEST;
use random::Random;
use std::ops::{ControlFlow, RangeInclusive};

/// How much is gone through.
pub struct Scale {
    /// The small numbers: declared values, and tests.
    pub declared: RangeInclusive<u32>,
    pub tests: RangeInclusive<u32>,
    pub lines: usize,
    pub random: usize,
}

pub const FULL: Scale = Scale {
    declared: 0..=60,
    tests: 0..=70,
    lines: 20_000,
    random: 2_000_000,
};

pub const QUICK: Scale = Scale {
    declared: 24..=25,
    tests: 0..=28,
    lines: 20,
    random: 2_000,
};

pub type Visit<'a> = dyn FnMut(u32, &[u32]) -> ControlFlow<()> + 'a;

/// Shows every declared value with its tests.
pub fn visit_declared(scale: &Scale, visit: &mut Visit) -> ControlFlow<()> {
    let small = Vec::from_iter(scale.tests.clone());
    for declared in scale.declared.clone() {
        visit_lists(declared, &small, 3, &mut vec![], visit)?;
    }
    for declared in ENDS {
        visit_lists(declared, &ENDS, 4, &mut vec![], visit)?;
    }
    let mut random = Random::new(0xC02);
    for declared in ON_A_LINE {
        visit_line(declared, visit)?;
    }
    for _ in 0..scale.lines {
        visit_line(random.magnitude(1, LARGEST), visit)?;
    }
    for _ in 0..scale.random {
        let (declared, tests) = any_values(&mut random);
        visit(declared, &tests)?;
    }
    ControlFlow::Continue(())
}

/// Every list of these tests, up to so many, that begins as is given.
fn visit_lists(
    declared: u32,
    values: &[u32],
    longest: usize,
    begun: &mut Vec<u32>,
    visit: &mut Visit,
) -> ControlFlow<()> {
    visit(declared, begun)?;
    if begun.len() < longest {
        for &value in values {
            begun.push(value);
            visit_lists(declared, values, longest, begun, visit)?;
            begun.pop();
        }
    }
    ControlFlow::Continue(())
}

/// The ends of the range and of a number's word, and just beyond.
const ENDS: [u32; 8] = [
    0,
    1,
    2,
    LARGEST - 1,
    LARGEST,
    LARGEST + 1,
    1 << 31,
    u32::MAX,
];

/// Declared values of which 104/100 is whole, or just not, and those of which it is the greatest
/// value there is.
const ON_A_LINE: [u32; 12] = [
    24, 25, 26, 50, 75, 100_000, 9_615_350, 9_615_375, 9_615_383, 9_615_384, 9_615_385, 9_999_975,
];

/// The first test about the line, then the sum of two about theirs.
fn visit_line(declared: u32, visit: &mut Visit) -> ControlFlow<()> {
    let line = |count: i64| 104 * count * i64::from(declared) / 100;
    for first in (-2..=2).map(|by| line(1) + by) {
        for second in (-2..=2).map(|by| line(2) + by - first) {
            let [Ok(first), Ok(second)] = [first, second].map(u32::try_from) else {
                continue;
            };
            visit(declared, &[first])?;
            visit(declared, &[first, second])?;
            for third in [1, declared, LARGEST] {
                visit(declared, &[first, second, third])?;
            }
        }
    }
    ControlFlow::Continue(())
}

/// None to five tests, or 256 and 259, which in one byte are none and three.
fn any_values(random: &mut Random) -> (u32, Vec<u32>) {
    let declared = any_value(random, 100_000);
    let count = random.pick(&[0, 1, 2, 2, 3, 3, 3, 3, 4, 5, 256, 259]);
    let tests = (0..count).map(|_| any_value(random, declared));
    (declared, tests.collect())
}

/// Mostly in the range, and often within a few hundredths of another value.
fn any_value(random: &mut Random, other: u32) -> u32 {
    match random.below(16) {
        0 => random.number() as u32,
        1 | 2 => random.magnitude(1, LARGEST),
        _ => {
            let hundredths = u64::from(random.between(95, 115));
            let near = u64::from(other) * hundredths / 100 + random.number() % 3;
            u32::try_from(near).unwrap_or(LARGEST)
        }
    }
}
