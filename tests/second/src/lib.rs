//! A second, independent implementation of document 01 ("Sequential conformity verdicts") and of
//! the requests of document 02 that landed, written from their words, from the printed columns of
//! documents 001, 000 and 004, and from section 6.5 of document 004. The delivered library is
//! compared with it, and timed against it. It aims at being plain: one function for each sentence,
//! rows walked in order, statistics in 128-bit integers.
//!
//! The sentences are the methods of the trait `Document`, and `Document01` is the documents as
//! they stand. Every operation takes the document it goes by. `variants` are wrong readings of
//! single sentences, each of which the comparison has to notice.

#![forbid(unsafe_code)]

mod check;
mod convert;
mod declared;
mod document;
mod findings;
mod judge;
mod operations;
mod reader;
mod tables;
pub mod variants;

pub use check::{check, Record, Refusal, Series};
pub use check::{FOUR_POLLUTANTS, MOST_POLLUTANTS, SIX_POLLUTANTS, SIZES};
pub use convert::convert;
pub use declared::{approve, declared, Approval};
pub use document::{Document, Document01, PLANS, UNKNOWN_DEVIATION};
pub use findings::finding;
pub use judge::{judge, Decision, Ending, GrossEmitters, Ground, Judgement, Verdict};
pub use judge::{Measured, Row, RunIn};
pub use operations::{append, evidence, lines, report, LONGEST_REPORT};
pub use reader::{Reader, Step};
pub use tables::Column;
