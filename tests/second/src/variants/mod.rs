//! The wrong readings: each is document 01 and the landed requests of document 02 with one
//! sentence misread, and each has to be noticed by the comparison.
//!
//! Three wrong readings are missing because no sheet can tell them from the right ones.
//! "≥ in plan 1" differs only where T x 693,147,181 = A x t x 1,048,576, or the same with B;
//! 693,147,181 is a prime above |A|, |B| and t, none of which is zero, and 1,048,576 is a power of
//! 2, so the two sides are never equal. In the logarithm Q is a square, which 2^63 is not, so
//! "Q > 2^63" is the same as "Q >= 2^63". And in row 32 of plan 5 A and B are the same number, so
//! that P >= B root W wherever P is above A root W: "fail by B" fails there just what doesn't pass.
//!
//! Document 01 before F-9, with sixteen steps and 65,536 in plan 1 too, answers every sheet as
//! sixteen steps in the new unit do: D, the root of W and plan 1's lines are all 16 times smaller.

mod before_f_9;
mod convert;
mod declared;
mod families;
mod findings;
mod increased_sample;
mod new_kind;
mod probe;
mod report;
mod run_in;
mod sizes;
mod small_engine;

use crate::check::Refusal;
use crate::document::Document;
use before_f_9::OldUnits;
use families::Number;

pub use before_f_9::{sixteen_steps_under_one_plan, SixteenSteps};
pub use convert::convert;
pub use declared::declared;
pub use families::{causes, decision_numbers, logarithms, variances};
pub use findings::{finding, finding_by_size, held};
pub use probe::{brackets, brackets_of_few, logarithm};
pub use probe::{evidence, evidence_by_size, lines, reader, reader_by_size};
pub use report::report_and_append;
pub use run_in::run_in;
pub use sizes::sizes;
pub use small_engine::small_engine;

/// One wrong reading.
pub struct Wrong {
    pub description: String,
    pub reading: Box<dyn Document>,
}

impl Wrong {
    fn new(description: impl Into<String>, reading: impl Document + 'static) -> Self {
        Wrong {
            description: description.into(),
            reading: Box::new(reading),
        }
    }
}

/// Readings of one sentence, each by its own rule.
fn by_rule<R, D: Document + 'static, const N: usize>(
    reading: impl Fn(R) -> D,
    about: &str,
    rules: [(&str, R); N],
) -> Vec<Wrong> {
    let wrong = |(what, rule)| Wrong::new(format!("{about}: {what}"), reading(rule));
    rules.map(wrong).into()
}

/// The refusals that name a record.
fn is_of_record(refusal: Refusal) -> bool {
    matches!(refusal.number, 2..=12 | 16..=19)
}

/// Wrong readings of the same kind, all of one plan.
pub struct Family {
    pub title: String,
    pub plan: u8,
    pub readings: Vec<Wrong>,
}

impl Family {
    fn new(title: String, plan: u8, readings: impl IntoIterator<Item = Wrong>) -> Self {
        Family {
            title: format!("plan {plan}, {title}"),
            plan,
            readings: readings.into_iter().collect(),
        }
    }
}

/// `Document01` with this method for its own.
macro_rules! wrong {
    ($description:literal, $($method:tt)*) => {{
        struct Reading;
        impl Document for Reading {
            $($method)*
        }
        Wrong::new($description, Reading)
    }};
}
use wrong;
