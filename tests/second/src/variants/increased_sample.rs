//! Wrong readings of F-11: which rows of plan 4 are left open for gross emitters, and what comes
//! first.

use super::{by_rule, wrong, Wrong};
use crate::document::{Document, Document01};
use crate::judge::{Ending, GrossEmitters, Ground};

/// Row n is left open by this rule.
struct LeftOpen(fn(usize, &GrossEmitters) -> bool);

impl Document for LeftOpen {
    fn is_left_open(&self, n: usize, gross: &GrossEmitters) -> bool {
        (self.0)(n, gross)
    }
}

/// A row behind row 3 is left open too, where the newest vehicle is a gross emitter.
struct NewestLeaves {
    row: usize,
}

impl Document for NewestLeaves {
    fn is_left_open(&self, n: usize, gross: &GrossEmitters) -> bool {
        Document01.is_left_open(n, gross) || n == self.row && gross.has(n)
    }
}

pub fn increased_sample() -> Vec<Wrong> {
    let mut all = by_rule(
        LeftOpen,
        "plan 4, a row is left open",
        [
            ("for its newest vehicle, as before F-11", |n, gross| {
                n < 15 && (gross.has(n) || n == 3 && gross.count > 0)
            }),
            ("for its newest vehicle, also at 3", |n, gross| {
                n < 15 && gross.has(n)
            }),
            ("for any gross emitter so far", |n, gross| {
                n < 15 && gross.count > 0
            }),
            ("never", |_, _| false),
            ("at 3 and at 4", |n, gross| n <= 4 && gross.count > 0),
            ("at 3 for the newest vehicle alone", |n, gross| {
                n == 3 && gross.has(3)
            }),
            ("at 3 for the first or the second alone", |n, gross| {
                n == 3 && (gross.has(1) || gross.has(2))
            }),
            ("at 3 for the first or the third alone", |n, gross| {
                n == 3 && (gross.has(1) || gross.has(3))
            }),
            ("at 3 for the second or the third alone", |n, gross| {
                n == 3 && (gross.has(2) || gross.has(3))
            }),
            ("at 3 for one gross emitter, not for more", |n, gross| {
                n == 3 && gross.count == 1
            }),
            ("at 3 for two gross emitters or three", |n, gross| {
                n == 3 && gross.count >= 2
            }),
        ],
    );
    all.extend((4..=15).map(|row| {
        let what = format!("plan 4, a row is left open: {row} too, for its newest vehicle");
        Wrong::new(what, NewestLeaves { row })
    }));
    all.push(wrong!(
        "plan 4: a row that is left open does not fail for equal cause",
        fn before_statistics(&self, n: usize, gross: &GrossEmitters) -> Option<Ending> {
            let before = Document01.before_statistics(n, gross);
            before
                .filter(|(_, ground)| *ground != Ground::EqualCause || !self.is_left_open(n, gross))
        }
    ));
    all
}
