//! The operation of the delivered library that enters a finding, and its report.

use compare::cases::Reporter;
use compare::findings::Findings;
use compare::memory::Empty;
use entries::{conformity_finding, conformity_report_sized};

pub const LIBRARY: Library = Library(Empty::Slice);
pub const WITH_NULL: Library = Library(Empty::Null);

pub struct Library(Empty);

// SAFETY of both calls: every pointer is that of a slice, and its length goes with it; or it is
// NULL, and its length is 0.
impl Findings for Library {
    fn enter(&self, size: usize, sheet: &mut [u8], engine: u32, finding: u32) -> u32 {
        let (place, length) = (self.0.place_mut(sheet), sheet.len());
        unsafe { conformity_finding(size, place, length, engine, finding) }
    }
}

impl Reporter for Library {
    fn report(&self, size: usize, sheet: &[u8], output: &mut [u8]) -> u32 {
        let (place, length) = (self.0.place_mut(output), output.len());
        unsafe { conformity_report_sized(size, self.0.place(sheet), sheet.len(), place, length) }
    }
}
