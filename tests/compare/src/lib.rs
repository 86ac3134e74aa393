//! What the programs of the comparison share: the sheets, the calls, the lent memory and the
//! counting. `compare` holds report and append of the delivered library against the second
//! implementation; `compare_probe` holds the logarithm, evidence, the printed lines and the reader,
//! and the logarithm also against its bracket; `compare_convert` holds the converter, and what it
//! makes against the sheets that it was given; `compare_findings` holds the operation that enters a
//! finding, and the reports before and after it; `compare_declared` holds declared values with their
//! tests. Sheets are of records of 20 bytes, and again of records of 28.

pub mod attributes;
pub mod bracket;
pub mod calendar;
pub mod cases;
pub mod clauses;
pub mod conversions;
pub mod corpus;
pub mod corrected;
pub mod declared;
pub mod draft;
pub mod exact;
pub mod findings;
pub mod kinds;
pub mod memory;
pub mod natural;
pub mod pairs;
pub mod paper;
pub mod pending;
pub mod program;
pub mod promises;
pub mod refusals;
pub mod run_in;
pub mod seen;
pub mod service;
pub mod small_engines;
pub mod sweeps;
pub mod tally;
