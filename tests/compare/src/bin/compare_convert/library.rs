//! The converter of the delivered library, and its report.

use compare::cases::Reporter;
use compare::conversions::Converter;
use compare::memory::Empty;
use entries::{conformity_convert, conformity_report_sized};

pub const LIBRARY: Library = Library(Empty::Slice);
pub const WITH_NULL: Library = Library(Empty::Null);

pub struct Library(Empty);

// SAFETY of both calls: every pointer is that of a slice, and its length goes with it; or it is
// NULL, and its length is 0.
impl Converter for Library {
    fn convert(&self, size: usize, sheet: &[u8], output: &mut [u8]) -> u32 {
        let (place, length) = (self.0.place_mut(output), output.len());
        unsafe { conformity_convert(size, self.0.place(sheet), sheet.len(), place, length) }
    }
}

impl Reporter for Library {
    fn report(&self, size: usize, sheet: &[u8], output: &mut [u8]) -> u32 {
        let (place, length) = (self.0.place_mut(output), output.len());
        unsafe { conformity_report_sized(size, self.0.place(sheet), sheet.len(), place, length) }
    }
}
