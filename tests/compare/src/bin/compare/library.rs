//! Report and append of the delivered library.

use compare::cases::{Operations, Reporter};
use compare::memory::Empty;
use entries::{conformity_append, conformity_append_sized};
use entries::{conformity_report, conformity_report_sized};
use second::FOUR_POLLUTANTS;

/// The entries that name the size.
pub const LIBRARY: Library = Library {
    names_size: true,
    empty: Empty::Slice,
};
/// The entries for records of 20 bytes.
pub const OF_FOUR: Library = Library {
    names_size: false,
    ..LIBRARY
};

#[derive(Clone, Copy)]
pub struct Library {
    names_size: bool,
    empty: Empty,
}

impl Library {
    /// All entries for a size.
    pub fn of(size: usize) -> &'static [Library] {
        match size {
            FOUR_POLLUTANTS => &[LIBRARY, OF_FOUR],
            _ => &[LIBRARY],
        }
    }

    /// With NULL for what is empty.
    pub fn with_null(self) -> Self {
        let empty = Empty::Null;
        Library { empty, ..self }
    }
}

// SAFETY of the calls: every pointer is that of a slice, and its length goes with it; or it is
// NULL, and its length is 0.
impl Reporter for Library {
    fn report(&self, size: usize, sheet: &[u8], output: &mut [u8]) -> u32 {
        let (sheet, sheet_length) = (self.empty.place(sheet), sheet.len());
        let (place, length) = (self.empty.place_mut(output), output.len());
        if self.names_size {
            unsafe { conformity_report_sized(size, sheet, sheet_length, place, length) }
        } else {
            assert_eq!(size, FOUR_POLLUTANTS);
            unsafe { conformity_report(sheet, sheet_length, place, length) }
        }
    }
}

impl Operations for Library {
    fn append(&self, size: usize, buffer: &mut [u8], used: usize, record: &[u8]) -> u32 {
        let (place, length) = (self.empty.place_mut(buffer), buffer.len());
        let (record, record_length) = (self.empty.place(record), record.len());
        if self.names_size {
            unsafe { conformity_append_sized(size, place, length, used, record, record_length) }
        } else {
            assert_eq!(size, FOUR_POLLUTANTS);
            unsafe { conformity_append(place, length, used, record, record_length) }
        }
    }
}
