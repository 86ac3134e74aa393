//! Document 01 as it stood before F-9, in part: "Take twenty steps in place of sixteen; units
//! become 1/1,048,576".

use super::{Family, Wrong};
use crate::document::{Document, Document01};

/// Sixteen steps in the new units: the last four bits are zero.
pub struct SixteenSteps;

impl Document for SixteenSteps {
    fn twenty_bits(&self, m: u32) -> u32 {
        Document01.twenty_bits(m) & !15
    }
}

/// Sixteen steps in units of 1/65,536.
pub struct OldUnits;

impl Document for OldUnits {
    fn g(&self, m: u32) -> i64 {
        Document01.g(m) >> 4
    }
}

/// The sheets of one plan keep the sixteen steps.
struct SixteenStepsUnder(u8);

impl Document for SixteenStepsUnder {
    fn g_under(&self, plan: u8, m: u32) -> i64 {
        if plan == self.0 {
            SixteenSteps.g(m)
        } else {
            Document01.g(m)
        }
    }
}

/// "Verdicts are compared with the finer definition from here on, also for old sheets", under each
/// plan that asks for logarithms.
pub fn sixteen_steps_under_one_plan() -> Vec<Family> {
    let under = |plan| {
        let reading = Wrong::new("sixteen steps", SixteenStepsUnder(plan));
        Family::new(
            "sixteen steps under this plan alone".to_string(),
            plan,
            [reading],
        )
    };
    [1, 2, 4, 5].map(under).into()
}
