//! Document 02, F-10: "A converter carries accepted sheets both ways".

use crate::check::{check, Refusal};
use crate::document::Document;

/// The size is that of the given sheet, and the output gets the other.
pub fn convert<D: Document + ?Sized>(
    document: &D,
    size: usize,
    sheet: &[u8],
    output: &mut [u8],
) -> Result<(), Refusal> {
    let checked = check(document, size, sheet);
    let refusal = document.convert_refusal(size, sheet, output.len(), checked);
    if document.is_carried(refusal) {
        let length = document.carried_length(size, sheet.len());
        let (carried, past) = output.split_at_mut(length.min(output.len()));
        document.carry(size, sheet, carried);
        document.pass_over(past);
    }
    refusal.map_or(Ok(()), Err)
}
