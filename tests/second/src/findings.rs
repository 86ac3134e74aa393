//! Document 02, F-5: "A new operation enters the finding".

use crate::check::{check, Refusal};
use crate::document::Document;

/// The finding for an engine of the sheet, "counted from 1".
pub fn finding<D: Document + ?Sized>(
    document: &D,
    size: usize,
    sheet: &mut [u8],
    engine: u32,
    finding: u32,
) -> Result<(), Refusal> {
    let checked = check(document, size, sheet);
    let refusal = document.finding_refusal(engine, finding, checked);
    if document.is_entered(refusal) {
        document.enter(engine, finding, size, sheet);
    }
    refusal.map_or(Ok(()), Err)
}
