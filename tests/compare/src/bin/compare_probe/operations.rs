//! What the probe library has entries for, of it and of the second implementation.

use compare::memory::{numbers_in, Edge, Empty, Lender};
use entries::{probe_evidence, probe_lines, probe_logarithm, probe_step};
use second::{evidence, lines, Document, Reader, Step};

/// What evidence answers: the length of the part, 0 for a refusal, and the refusal's code, 0 for
/// none.
pub type Evidence = (usize, u32);

/// What stands at a reader: how many whole records are left, which step, and its fields.
pub type Standing = (usize, [u32; 8]);

pub trait Operations {
    fn logarithm(&self, m: u32) -> i64;
    fn evidence(&self, size: usize, sheet: &[u8]) -> Evidence;
    /// Writes the lines of a 20-byte sheet if there is room, and answers how long they are.
    fn lines(&self, sheet: &[u8], output: &mut [u8]) -> usize;
    /// Moves a reader on k times, or to the end, and writes the step and its fields.
    fn step(&self, size: usize, sheet: &[u8], k: usize, numbers: &mut [u8]) -> usize;
}

pub const LIBRARY: Library = Library(Empty::Slice);
pub const WITH_NULL: Library = Library(Empty::Null);

/// The probe library.
pub struct Library(Empty);

// SAFETY of the calls: every pointer is that of a slice, and its length goes with it; or it is
// NULL, and its length is 0; or it is that of the numbers to write.
impl Operations for Library {
    fn logarithm(&self, m: u32) -> i64 {
        i64::from(unsafe { probe_logarithm(m) })
    }

    fn evidence(&self, size: usize, sheet: &[u8]) -> Evidence {
        let mut code = u32::MAX;
        let (place, length) = (self.0.place(sheet), sheet.len());
        let part = unsafe { probe_evidence(size, place, length, &mut code) };
        (part, code)
    }

    fn lines(&self, sheet: &[u8], output: &mut [u8]) -> usize {
        let (place, length) = (self.0.place_mut(output), output.len());
        unsafe { probe_lines(self.0.place(sheet), sheet.len(), place, length) }
    }

    fn step(&self, size: usize, sheet: &[u8], k: usize, numbers: &mut [u8]) -> usize {
        let place = numbers.as_mut_ptr().cast::<[u32; 8]>();
        assert!(place.is_aligned() && numbers.len() == NUMBERS);
        unsafe { probe_step(size, self.0.place(sheet), sheet.len(), k, place) }
    }
}

/// The second implementation by some document.
pub struct Second<'a, D: ?Sized>(pub &'a D);

impl<D: Document + ?Sized> Operations for Second<'_, D> {
    fn logarithm(&self, m: u32) -> i64 {
        self.0.g(m)
    }

    fn evidence(&self, size: usize, sheet: &[u8]) -> Evidence {
        match evidence(self.0, size, sheet) {
            Ok(part) => (part.len(), 0),
            Err(refusal) => (0, refusal.code()),
        }
    }

    fn lines(&self, sheet: &[u8], output: &mut [u8]) -> usize {
        let text = lines(self.0, sheet);
        if let Some(room) = output.get_mut(..text.len()) {
            room.copy_from_slice(text.as_bytes());
        }
        text.len()
    }

    fn step(&self, size: usize, sheet: &[u8], k: usize, numbers: &mut [u8]) -> usize {
        let mut reader = Reader::new(self.0, size, sheet);
        let mut moved = 0;
        while moved < k && reader.step() != Step::End {
            reader.move_on();
            moved += 1;
        }
        let fields = fields(reader.step()).map(u32::to_ne_bytes);
        numbers.copy_from_slice(fields.as_flattened());
        reader.left()
    }
}

/// The step's number, which is its record's kind where that is known, and its seven fields.
fn fields(step: Step) -> [u32; 8] {
    match step {
        Step::Pollutant {
            number,
            plan,
            limit,
            deviation,
        } => [1, number.into(), plan.into(), limit, deviation, 0, 0, 0],
        Step::Engine {
            cause,
            measurements: [one, two, three, four, five, six],
        } => [2, cause.into(), one, two, three, four, five, six],
        Step::Stop => [3, 0, 0, 0, 0, 0, 0, 0],
        Step::SmallEngine {
            volume,
            speed,
            date,
        } => [5, volume.into(), speed.into(), date, 0, 0, 0, 0],
        Step::RunIn {
            values: [one, two, three, four, five, six],
        } => [6, 0, one, two, three, four, five, six],
        Step::Other { kind } => [100, kind.into(), 0, 0, 0, 0, 0, 0],
        Step::End => [101, 0, 0, 0, 0, 0, 0, 0],
    }
}

/// The room that the longest lines fit into.
pub const LINES: usize = 64;
/// The bytes of eight numbers.
const NUMBERS: usize = 32;
/// What memory holds before it is written.
const UNWRITTEN: u8 = 0xA5;

pub fn evidence_of(
    operations: &dyn Operations,
    size: usize,
    sheet: &[u8],
    lender: &mut impl Lender,
    edge: Edge,
) -> Evidence {
    let evidence = |sheet: &[u8], _: &mut [u8]| operations.evidence(size, sheet);
    lender.lend(sheet, &[], edge, evidence).0
}

/// How long the lines are, and what the output of so much room holds then.
pub fn lines_of(
    operations: &dyn Operations,
    sheet: &[u8],
    room: usize,
    lender: &mut impl Lender,
    edge: Edge,
) -> (usize, String) {
    let lines = |sheet: &[u8], output: &mut [u8]| operations.lines(sheet, output);
    let (length, output) = lender.lend(sheet, &[UNWRITTEN; LINES][..room], edge, lines);
    (length, String::from_utf8_lossy(&output).into_owned())
}

pub fn step_at(
    operations: &dyn Operations,
    size: usize,
    sheet: &[u8],
    k: usize,
    lender: &mut impl Lender,
    edge: Edge,
) -> Standing {
    let step = |sheet: &[u8], numbers: &mut [u8]| operations.step(size, sheet, k, numbers);
    let (left, bytes) = lender.lend(sheet, &[UNWRITTEN; NUMBERS], edge, step);
    (left, numbers_in(&bytes))
}
