//! The calls to compare: report and append on one sheet, with lent memory of ordinary and of
//! awkward lengths, and with sizes of a record that are none.

use crate::draft::{random_draft, run_in_record, stop_record, RUN_IN, SMALL};
use crate::memory::{Edge, Lender};
use crate::paper::{measured_alone, Report, Reported};
use crate::tally::hexadecimal;
use random::Random;
use second::{append, report, Document, Document01, Refusal};
use second::{FOUR_POLLUTANTS, LONGEST_REPORT, SIX_POLLUTANTS, SIZES};
use std::fmt;
use std::ops::ControlFlow;

/// Report as the bench's control program calls it, of the delivered library or of the second
/// implementation.
pub trait Reporter {
    fn report(&self, size: usize, sheet: &[u8], output: &mut [u8]) -> u32;
}

/// Report and append.
pub trait Operations: Reporter {
    fn append(&self, size: usize, buffer: &mut [u8], used: usize, record: &[u8]) -> u32;
}

/// The second implementation by some document.
pub struct Second<'a, D: ?Sized>(pub &'a D);

impl<D: Document + ?Sized> Reporter for Second<'_, D> {
    fn report(&self, size: usize, sheet: &[u8], output: &mut [u8]) -> u32 {
        code(report(self.0, size, sheet, output))
    }
}

impl<D: Document + ?Sized> Operations for Second<'_, D> {
    fn append(&self, size: usize, buffer: &mut [u8], used: usize, record: &[u8]) -> u32 {
        code(append(self.0, size, buffer, used, record))
    }
}

/// "Both return number 0 and record 0 on success."
pub fn code(result: Result<(), Refusal>) -> u32 {
    result.err().map_or(0, Refusal::code)
}

/// What the call returns, and the report of a sheet.
pub fn reported(reporter: &dyn Reporter, size: usize, sheet: &[u8]) -> Reported {
    let mut report = unwritten_report(size);
    let code = reporter.report(size, sheet, &mut report[..size]);
    (code, report)
}

/// What has to be reported of a refused sheet: nothing is written.
pub fn refused(size: usize, number: u8, record: u8) -> Reported {
    let code = Refusal { number, record }.code();
    (code, unwritten_report(size))
}

fn unwritten_report(size: usize) -> Report {
    let mut report = [0; LONGEST_REPORT];
    report[..size].fill(UNWRITTEN);
    report
}

/// One call with all it is lent.
pub enum Case<'a> {
    Report {
        size: usize,
        sheet: &'a [u8],
        output: Vec<u8>,
    },
    Append {
        size: usize,
        buffer: Vec<u8>,
        used: usize,
        record: Vec<u8>,
    },
}

/// What a call returns, and every byte of the memory it may write, afterwards.
#[derive(Clone, PartialEq, Eq)]
pub struct Answer {
    pub code: u32,
    pub bytes: Vec<u8>,
}

impl fmt::Debug for Answer {
    fn fmt(&self, formatter: &mut fmt::Formatter) -> fmt::Result {
        let (number, record) = (self.code / 256, self.code % 256);
        write!(
            formatter,
            "number {number}, record {record}, then {}",
            hexadecimal(&self.bytes)
        )
    }
}

impl fmt::Display for Case<'_> {
    fn fmt(&self, formatter: &mut fmt::Formatter) -> fmt::Result {
        match self {
            Case::Report { size, output, .. } => {
                let length = output.len();
                write!(formatter, "report by {size} into {length} bytes")
            }
            Case::Append {
                size,
                buffer,
                used,
                record,
            } => {
                let (length, record) = (buffer.len(), hexadecimal(record));
                let buffer = hexadecimal(buffer);
                write!(
                    formatter,
                    "append by {size} of {record} after {used} of {length} bytes {buffer}"
                )
            }
        }
    }
}

impl Case<'_> {
    pub fn run(&self, operations: &dyn Operations, lender: &mut impl Lender, edge: Edge) -> Answer {
        let (code, bytes) = match self {
            Case::Report {
                size,
                sheet,
                output,
            } => lender.lend(sheet, output, edge, |sheet, output| {
                operations.report(*size, sheet, output)
            }),
            Case::Append {
                size,
                buffer,
                used,
                record,
            } => lender.lend(record, buffer, edge, |record, buffer| {
                operations.append(*size, buffer, *used, record)
            }),
        };
        Answer { code, bytes }
    }

    /// A refusal without a record: every byte is as it was lent.
    pub fn refused(&self, number: u8) -> Answer {
        let (Case::Report { output: lent, .. } | Case::Append { buffer: lent, .. }) = self;
        Answer {
            code: Refusal::of_no_record(number).code(),
            bytes: lent.clone(),
        }
    }
}

/// How many of the awkward lengths a sheet is tried with.
#[derive(Clone, Copy, PartialEq, Eq)]
pub enum Lengths {
    Few,
    All,
}

pub type Visit<'a> = dyn FnMut(&Case) -> ControlFlow<()> + 'a;

/// Shows every case of one sheet.
pub fn visit_cases(
    size: usize,
    sheet: &[u8],
    lengths: Lengths,
    random: &mut Random,
    visit: &mut Visit,
) -> ControlFlow<()> {
    match lengths {
        Lengths::Few => visit_few(size, sheet, random, visit),
        Lengths::All => {
            for length in [0, 1, 19, 20, 21, 27, 28, 29, 64] {
                visit(&report_case(size, sheet, length))?;
            }
            visit_append_grid(size, sheet, visit)
        }
    }
}

/// One report, the sheet's last record appended to the others, and one awkward append.
fn visit_few(size: usize, sheet: &[u8], random: &mut Random, visit: &mut Visit) -> ControlFlow<()> {
    let output = size + random.pick(&[0, 0, 1, 8]);
    visit(&report_case(size, sheet, output))?;
    if let Some(used) = sheet.len().checked_sub(size) {
        let length = sheet.len() + random.below(3);
        let record = sheet[used..].to_vec();
        visit(&append_case(size, sheet, length, used, record))?;
    }
    let length = random.pick(&buffer_lengths(size, sheet.len()));
    let used = random.pick(&used_lengths(size, sheet.len()));
    let record = random.pick(&records(size, sheet)).bytes(size, sheet);
    visit(&append_case(size, sheet, length, used, record))
}

fn visit_append_grid(size: usize, sheet: &[u8], visit: &mut Visit) -> ControlFlow<()> {
    for record in records(size, sheet) {
        for length in buffer_lengths(size, sheet.len()) {
            for used in used_lengths(size, sheet.len()) {
                let record = record.bytes(size, sheet);
                visit(&append_case(size, sheet, length, used, record))?;
            }
        }
    }
    ControlFlow::Continue(())
}

/// One pollutant and no engine.
fn shortest_sheet(size: usize) -> Vec<u8> {
    let mut sheet = vec![1, 1, 3, 0, 150];
    sheet.resize(size, 0);
    sheet
}

/// Report and append with every part that is lent empty or not.
pub fn visit_empty(size: usize, visit: &mut Visit) -> ControlFlow<()> {
    let sheet = shortest_sheet(size);
    for sheet in [&[][..], &sheet] {
        for length in [0, size] {
            visit(&report_case(size, sheet, length))?;
        }
    }
    for length in [0, 2 * size] {
        for record in [&[][..], &sheet] {
            for used in [0, 1, size, size + 1, usize::MAX] {
                visit(&append_case(size, &sheet, length, used, record.to_vec()))?;
            }
        }
    }
    ControlFlow::Continue(())
}

/// Sizes of a record that are none: beside 20 and 28, between them, and those that one or four
/// bytes of the number would take for them.
pub const NO_SIZES: [usize; 16] = [
    0,
    1,
    4,
    19,
    21,
    24,
    27,
    29,
    32,
    40,
    256 + 20,
    256 + 28,
    (1 << 32) + 20,
    (1 << 32) + 28,
    usize::MAX - 3,
    usize::MAX,
];

/// Sheets of both sizes, no bytes, and bytes that are no sheet, to be called by sizes that are none.
pub fn sheets_of_either_size() -> Vec<Vec<u8>> {
    let mut random = Random::new(0x30);
    let mut sheets = vec![vec![], vec![2; 24], vec![1; 48]];
    for size in SIZES {
        sheets.extend((0..8).map(|_| random_draft(size, &mut random).bytes()));
    }
    sheets
}

/// Report and append by sizes that are none, with what is right in either size and with what would
/// be refused for something else.
pub fn visit_no_sizes(visit: &mut Visit) -> ControlFlow<()> {
    for size in NO_SIZES {
        let [four, six] = SIZES.map(shortest_sheet);
        for sheet in [&[][..], &four, &six, &[9; 24]] {
            for length in [0, 1, FOUR_POLLUTANTS, 24, SIX_POLLUTANTS, 64] {
                visit(&report_case(size, sheet, length))?;
            }
            for record in [&[][..], &four, &six, &[0; 24]] {
                for length in [0, sheet.len(), sheet.len() + 24, 64] {
                    for used in [0, 1, sheet.len(), 65, usize::MAX] {
                        visit(&append_case(size, sheet, length, used, record.to_vec()))?;
                    }
                }
            }
        }
    }
    ControlFlow::Continue(())
}

/// Behind the sheet one byte less than a record of either size, as many, and one more; none, some
/// to spare, and no sheet.
fn buffer_lengths(size: usize, sheet: usize) -> [usize; 12] {
    [
        0,
        FOUR_POLLUTANTS,
        SIX_POLLUTANTS,
        sheet,
        sheet + 19,
        sheet + 20,
        sheet + 21,
        sheet + 27,
        sheet + 28,
        sheet + 29,
        sheet + 60,
        longest_buffer(size),
    ]
}

fn longest_buffer(size: usize) -> usize {
    Document01.longest_sheet(size) + 60
}

/// Before the sheet's end, at it, behind the buffer, and where adding a record would overflow.
fn used_lengths(size: usize, sheet: usize) -> [usize; 11] {
    [
        0,
        1,
        sheet.saturating_sub(size),
        sheet.saturating_sub(1),
        sheet,
        sheet + 1,
        sheet + size + 1,
        longest_buffer(size) + 1,
        usize::MAX - size,
        usize::MAX - size + 1,
        usize::MAX,
    ]
}

/// A record to append: one that is on the sheet, a small engine, run-in values of pollutant 1 or
/// those that are the last record's measurements, a stop, or no record by its length.
#[derive(Clone, Copy)]
enum Added {
    First,
    Last,
    SmallEngine,
    RunIn,
    RunInOfLast,
    Stop(usize),
    Zeros(usize),
}

fn records(size: usize, sheet: &[u8]) -> Vec<Added> {
    let mut records: Vec<Added> = [0, 19, 21, 27, 29].map(Added::Zeros).into();
    records.extend([Added::Zeros(size), Added::SmallEngine, Added::RunIn]);
    records.extend(SIZES.map(Added::Stop));
    if sheet.len() >= size {
        records.extend([Added::First, Added::Last, Added::RunInOfLast]);
    }
    records
}

impl Added {
    fn bytes(self, size: usize, sheet: &[u8]) -> Vec<u8> {
        match self {
            Added::First => sheet[..size].to_vec(),
            Added::Last => sheet[sheet.len() - size..].to_vec(),
            Added::SmallEngine => SMALL.record(size),
            Added::RunIn => run_in_record(size, &measured_alone(1, 150)),
            Added::RunInOfLast => {
                let mut record = Added::Last.bytes(size, sheet);
                record[..4].copy_from_slice(&[RUN_IN, 0, 0, 0]);
                record
            }
            Added::Stop(size) => stop_record(size),
            Added::Zeros(length) => vec![0; length],
        }
    }
}

/// What memory holds before it is written: no byte of a report, no sheet.
const UNWRITTEN: u8 = 0xA5;

fn report_case(size: usize, sheet: &[u8], length: usize) -> Case<'_> {
    Case::Report {
        size,
        sheet,
        output: vec![UNWRITTEN; length],
    }
}

/// A buffer of that length, with as much of the sheet as it holds and unwritten bytes behind.
fn append_case(
    size: usize,
    sheet: &[u8],
    length: usize,
    used: usize,
    record: Vec<u8>,
) -> Case<'static> {
    let mut buffer = vec![UNWRITTEN; length];
    let held = length.min(sheet.len());
    if used > 0 {
        buffer[..held].copy_from_slice(&sheet[..held]);
    }
    Case::Append {
        size,
        buffer,
        used,
        record,
    }
}
