//! Wrong readings of document 02's request F-5, testing on while a cause is sought.
//!
//! Some wrong readings are missing because no sheet can tell them from the right ones. A row with a
//! pending vehicle among its engines has no statistics, is never left open and is never referred:
//! that such a vehicle is no gross emitter for row 3 or for referral, or that its measurements are
//! left out of D and W, changes no answer. Equal known causes are complete in the first row with a
//! pending vehicle only if that is row 3: the newest vehicle of a later one is pending itself. So
//! "held before equal cause" differs where the first three vehicles are two of equal cause and one
//! that is pending, and nowhere else.

mod held;
mod operation;

use crate::check::Series;
use crate::document::{Document, Document01};

pub use held::held;
pub use operation::{finding, finding_by_size};

const PENDING: u16 = 65_535;

/// The pending vehicles, counted from 1 with the others.
fn pending_places<'a>(series: &Series<'a>) -> impl Iterator<Item = usize> + use<'a> {
    let vehicles = (1..).zip(series.engines(&Document01));
    let pending = vehicles.filter(|(_, vehicle)| Document01.cause(vehicle) == PENDING);
    pending.map(|(n, _)| n)
}
