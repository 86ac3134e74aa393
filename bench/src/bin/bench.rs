//! Times report of the delivered library against the second implementation and against doubles,
//! and shows what a call takes of heap and stack.

use bench::sheets;
use bench::timing::{against, time};
use entries::{conformity_append, conformity_append_sized, conformity_convert};
use entries::{conformity_finding, conformity_report, conformity_report_sized};
use second::{append, convert, finding, report, Document, Document01, Refusal};
use second::{FOUR_POLLUTANTS, LONGEST_REPORT, PLANS, SIX_POLLUTANTS, SIZES};
use std::ffi::c_void;
use std::hint::black_box;

extern "C" {
    fn doubles_report(
        sheet: *const u8,
        sheet_length: usize,
        output: *mut u8,
        output_length: usize,
    ) -> u32;
    fn allocations_so_far() -> u64;
    fn stack_depth(function: extern "C" fn(*mut c_void), argument: *mut c_void) -> usize;
}

/// How many different sheets each row is timed on.
const SHEETS: usize = 64;
const BY_SECOND: f64 = 0.7;
/// The same of the check alone, of append alone and of a finding.
const PART_BY_SECOND: f64 = 1.0;
const GROWTH: f64 = 4.5;

/// Full sheets of six pollutants by those of four, which have two thirds as many measurements.
const SIX_BY_FOUR: f64 = 1.6;

/// F-1 and F-2: no small engine and no run-in values "in plan 4".
const PRODUCTION: &[u8] = &[1, 2, 3, 5];
/// Gross emitters are of plan 4 alone.
const IN_SERVICE: u8 = 4;

/// Puts something into a sheet.
type PutIn = fn(usize, &[u8]) -> Vec<u8>;

/// What is put into typical sheets, and in which plans.
const PUT_IN: [(&str, PutIn, &[u8]); 4] = [
    ("a small engine", sheets::with_small_engine, PRODUCTION),
    ("run-in values", sheets::with_run_in, PRODUCTION),
    ("a gross emitter", sheets::with_gross_emitter, &[IN_SERVICE]),
    ("a pending finding", sheets::with_pending, &[IN_SERVICE]),
];

/// The room for a report of either size.
type Output = [u8; LONGEST_REPORT];
type Report = fn(&[u8], &mut Output) -> u32;
type Append = fn(&mut [u8], usize, &[u8]) -> u32;
type Convert = fn(&[u8], &mut [u8]) -> u32;
type Enter = fn(&mut [u8], u32, u32) -> u32;

// SAFETY of the calls below: every pointer is that of a slice, and its length goes with it.
fn library_report(sheet: &[u8], output: &mut Output) -> u32 {
    let place = output.as_mut_ptr();
    unsafe { conformity_report(sheet.as_ptr(), sheet.len(), place, FOUR_POLLUTANTS) }
}

/// The entry that names the size.
fn library_report_by<const SIZE: usize>(sheet: &[u8], output: &mut Output) -> u32 {
    let place = output.as_mut_ptr();
    unsafe { conformity_report_sized(SIZE, sheet.as_ptr(), sheet.len(), place, SIZE) }
}

fn doubles(sheet: &[u8], output: &mut Output) -> u32 {
    let place = output.as_mut_ptr();
    unsafe { doubles_report(sheet.as_ptr(), sheet.len(), place, FOUR_POLLUTANTS) }
}

fn library_append(buffer: &mut [u8], used: usize, record: &[u8]) -> u32 {
    let (place, length) = (buffer.as_mut_ptr(), buffer.len());
    unsafe { conformity_append(place, length, used, record.as_ptr(), record.len()) }
}

/// The entry that names the size.
fn library_append_by<const SIZE: usize>(buffer: &mut [u8], used: usize, record: &[u8]) -> u32 {
    let (place, length) = (buffer.as_mut_ptr(), buffer.len());
    let (record, record_length) = (record.as_ptr(), record.len());
    unsafe { conformity_append_sized(SIZE, place, length, used, record, record_length) }
}

fn library_convert_from<const SIZE: usize>(sheet: &[u8], output: &mut [u8]) -> u32 {
    let (place, length) = (output.as_mut_ptr(), output.len());
    unsafe { conformity_convert(SIZE, sheet.as_ptr(), sheet.len(), place, length) }
}

fn library_finding_by<const SIZE: usize>(sheet: &mut [u8], engine: u32, cause: u32) -> u32 {
    unsafe { conformity_finding(SIZE, sheet.as_mut_ptr(), sheet.len(), engine, cause) }
}

#[inline(never)]
fn second_report_by<const SIZE: usize>(sheet: &[u8], output: &mut Output) -> u32 {
    code(report(&Document01, SIZE, sheet, &mut output[..SIZE]))
}

#[inline(never)]
fn second_append_by<const SIZE: usize>(buffer: &mut [u8], used: usize, record: &[u8]) -> u32 {
    code(append(&Document01, SIZE, buffer, used, record))
}

#[inline(never)]
fn second_convert_from<const SIZE: usize>(sheet: &[u8], output: &mut [u8]) -> u32 {
    code(convert(&Document01, SIZE, sheet, output))
}

#[inline(never)]
fn second_finding_by<const SIZE: usize>(sheet: &mut [u8], engine: u32, cause: u32) -> u32 {
    code(finding(&Document01, SIZE, sheet, engine, cause))
}

fn code(answer: Result<(), Refusal>) -> u32 {
    answer.err().map_or(0, Refusal::code)
}

fn main() {
    print_agreement();
    print_reports();
    print_sizes();
    print_put_in();
    print_growth();
    print_check();
    print_append();
    print_finding();
    print_heap();
    print_stack();
}

/// The contestants do the same work only if they answer alike on what they are timed on.
fn print_agreement() {
    let (four, six) = (all_sheets(FOUR_POLLUTANTS), all_sheets(SIX_POLLUTANTS));
    println!(
        "of {} sheets the library answers unlike the second on {}, unlike doubles on {}, unlike \
         itself by the size on {}",
        four.len(),
        unlike(&four, library_report, second_report_by::<FOUR_POLLUTANTS>),
        unlike(&four, library_report, doubles),
        unlike(&four, library_report, library_report_by::<FOUR_POLLUTANTS>)
    );
    let [library, second]: [Report; 2] = [
        library_report_by::<SIX_POLLUTANTS>,
        second_report_by::<SIX_POLLUTANTS>,
    ];
    println!(
        "of {} sheets of 28-byte records it answers unlike the second on {}",
        six.len(),
        unlike(&six, library, second)
    );
}

fn unlike(sheets: &[Vec<u8>], one: Report, other: Report) -> usize {
    let answer = |report: Report, sheet: &[u8]| {
        let mut output = [0; LONGEST_REPORT];
        (report(sheet, &mut output), output)
    };
    let differ = |sheet: &&Vec<u8>| answer(one, sheet) != answer(other, sheet);
    sheets.iter().filter(differ).count()
}

/// One pass: a report of every sheet.
fn reporting(report: Report, sheets: &[Vec<u8>]) -> impl FnMut() + '_ {
    let mut output = [0; LONGEST_REPORT];
    move || {
        for sheet in sheets {
            black_box(report(black_box(sheet), &mut output));
            black_box(&output);
        }
    }
}

/// The goals by doubles. At sixteen squarings they were 1.6 and 0.95; F-9 lets the squarings'
/// share, 0.69 of the time of plan 1's full sheets and 0.56 of its typical ones, grow to 20/16 of
/// it. Plan 3 takes no logarithm.
fn full_by_doubles(plan: u8) -> f64 {
    if plan == 3 {
        0.6
    } else {
        1.87
    }
}

fn typical_by_doubles(plan: u8) -> f64 {
    if plan == 3 {
        0.55
    } else {
        1.08
    }
}

fn print_reports() {
    println!("report, time of the library by that of the second implementation, and of doubles:");
    for plan in 1..=PLANS {
        print_report(
            &format!("plan {plan}, full sheets"),
            &full(FOUR_POLLUTANTS, plan),
            full_by_doubles(plan),
        );
    }
    for plan in 1..=PLANS {
        print_report(
            &format!("plan {plan}, typical sheets"),
            &sheets::typical(FOUR_POLLUTANTS, plan, SHEETS),
            typical_by_doubles(plan),
        );
    }
}

/// To the plan's last row.
fn full(size: usize, plan: u8) -> Vec<Vec<u8>> {
    sheets::full(size, plan, Document01.last_row(plan), SHEETS)
}

fn print_report(title: &str, sheets: &[Vec<u8>], goal_by_doubles: f64) {
    let times = time(&mut [
        &mut reporting(library_report, sheets),
        &mut reporting(second_report_by::<FOUR_POLLUTANTS>, sheets),
        &mut reporting(doubles, sheets),
    ]);
    let by_second = against(times.ratio(0, 1), BY_SECOND);
    let by_doubles = against(times.ratio(0, 2), goal_by_doubles);
    let nanoseconds = times.seconds(0) / sheets.len() as f64 * 1e9;
    println!("  {title:<24} second {by_second:<22} doubles {by_doubles:<24} {nanoseconds:6.0} ns");
}

/// Sheets of 28-byte records by those of 20, and the entry that names the size by the one that does
/// not.
fn print_sizes() {
    println!("report by the size, time of the library; sheets of 28-byte records by those of 20:");
    for plan in 1..=PLANS {
        let sheets = SIZES.map(|size| full(size, plan));
        let by_four = |ratio| against(ratio, SIX_BY_FOUR);
        print_size(&format!("plan {plan}, full sheets"), &sheets, by_four);
    }
    for plan in 1..=PLANS {
        let sheets = SIZES.map(|size| sheets::typical(size, plan, SHEETS));
        let by_four = |ratio| format!("{ratio:5.2}");
        print_size(&format!("plan {plan}, typical sheets"), &sheets, by_four);
    }
}

fn print_size(title: &str, [four, six]: &[Vec<Vec<u8>>; 2], by_four: fn(f64) -> String) {
    let times = time(&mut [
        &mut reporting(library_report, four),
        &mut reporting(library_report_by::<FOUR_POLLUTANTS>, four),
        &mut reporting(library_report_by::<SIX_POLLUTANTS>, six),
        &mut reporting(second_report_by::<SIX_POLLUTANTS>, six),
    ]);
    let by_four = by_four(times.ratio(2, 0));
    let by_second = against(times.ratio(2, 3), BY_SECOND);
    let nanoseconds = times.seconds(2) / six.len() as f64 * 1e9;
    println!(
        "  {title:<24} by 20 {by_four:<22} second {by_second:<22} {nanoseconds:6.0} ns; at 20 by \
         the entry without a size {:5.2}",
        times.ratio(1, 0)
    );
}

/// Typical sheets with what is put in, by the same without it.
fn print_put_in() {
    for (name, put_in, plans) in PUT_IN {
        println!(
            "report of typical sheets with {name}, time of the library by that of the same \
             without:"
        );
        for &plan in plans {
            let without = sheets::typical(FOUR_POLLUTANTS, plan, SHEETS);
            let with = typical_with(FOUR_POLLUTANTS, plan, put_in);
            let times = time(&mut [
                &mut reporting(library_report, &with),
                &mut reporting(library_report, &without),
                &mut reporting(second_report_by::<FOUR_POLLUTANTS>, &with),
                &mut reporting(doubles, &with),
            ]);
            let by_second = against(times.ratio(0, 2), BY_SECOND);
            let nanoseconds = times.seconds(0) / with.len() as f64 * 1e9;
            println!(
                "  plan {plan}: {:5.2}, second {by_second} doubles {:5.2} {nanoseconds:6.0} ns",
                times.ratio(0, 1),
                times.ratio(0, 3)
            );
        }
    }
}

fn typical_with(size: usize, plan: u8, put_in: PutIn) -> Vec<Vec<u8>> {
    let typical = sheets::typical(size, plan, SHEETS);
    typical.iter().map(|sheet| put_in(size, sheet)).collect()
}

fn print_growth() {
    println!("growth with the engines, time of the library by that at 8 engines:");
    for plan in [1, 2] {
        let [eight, sixteen, all] =
            [8, 16, 32].map(|n| sheets::full(FOUR_POLLUTANTS, plan, n, SHEETS));
        let second_report = second_report_by::<FOUR_POLLUTANTS>;
        let times = time(&mut [
            &mut reporting(library_report, &eight),
            &mut reporting(library_report, &sixteen),
            &mut reporting(library_report, &all),
            &mut reporting(second_report, &eight),
            &mut reporting(second_report, &all),
        ]);
        let (sixteen, all) = (times.ratio(1, 0), against(times.ratio(2, 0), GROWTH));
        let second = times.ratio(4, 3);
        println!("  plan {plan}: 16 engines {sixteen:5.2}, 32 engines {all}; second, 32 engines {second:5.2}");
    }
}

fn print_check() {
    let sheets = [sheets::refused_at_the_end()];
    let times = time(&mut [
        &mut reporting(library_report, &sheets),
        &mut reporting(second_report_by::<FOUR_POLLUTANTS>, &sheets),
        &mut reporting(doubles, &sheets),
    ]);
    let rate = sheets[0].len() as f64 / times.seconds(0) / 1e6;
    println!("check, 740 bytes refused at the last record, time of the library:");
    let by_second = against(times.ratio(0, 1), PART_BY_SECOND);
    let by_doubles = times.ratio(0, 2);
    println!("  by the second {by_second}, by doubles' check {by_doubles:5.2}; {rate:.0} megabytes a second");
}

fn print_append() {
    let sheets = sheets::full(FOUR_POLLUTANTS, 1, 32, SHEETS);
    let appending = |append: Append| {
        let mut buffers = sheets.clone();
        move || {
            for buffer in &mut buffers {
                append_last(append, FOUR_POLLUTANTS, buffer);
            }
        }
    };
    let times = time(&mut [
        &mut appending(library_append),
        &mut appending(second_append_by::<FOUR_POLLUTANTS>),
    ]);
    println!("append of the 32nd engine, time of the library:");
    println!(
        "  by the second {}",
        against(times.ratio(0, 1), PART_BY_SECOND)
    );
}

/// The sheet's last record, to the others.
fn append_last(append: Append, size: usize, sheet: &mut [u8]) {
    let used = sheet.len() - size;
    let mut last = [0; SIX_POLLUTANTS];
    let record = &mut last[..size];
    record.copy_from_slice(&sheet[used..]);
    black_box(append(sheet, used, black_box(record)));
}

/// The finding of the first vehicle, of typical sheets of plan 4 that are held.
fn print_finding() {
    let sheets = typical_with(FOUR_POLLUTANTS, IN_SERVICE, sheets::with_pending);
    let entering = |enter: Enter| {
        let mut sheets = sheets.clone();
        move || {
            for sheet in &mut sheets {
                enter_first(enter, FOUR_POLLUTANTS, sheet);
            }
        }
    };
    let times = time(&mut [
        &mut entering(library_finding_by::<FOUR_POLLUTANTS>),
        &mut entering(second_finding_by::<FOUR_POLLUTANTS>),
        &mut reporting(library_report, &sheets),
    ]);
    println!("a finding for the first vehicle of a held sheet, time of the library:");
    println!(
        "  by the second {}, by a report of the sheet {:5.2}",
        against(times.ratio(0, 1), PART_BY_SECOND),
        times.ratio(0, 2)
    );
}

/// The finding of the first vehicle, if the sheet has one pollutant and the finding is pending; the
/// cause is as it was afterwards.
fn enter_first(enter: Enter, size: usize, sheet: &mut [u8]) {
    let place = size + 2..size + 4;
    let mut cause = [0; 2];
    cause.copy_from_slice(&sheet[place.clone()]);
    black_box(enter(sheet, 1, black_box(7)));
    sheet[place].copy_from_slice(&cause);
}

/// One implementation of each operation, for one size.
struct Operations {
    size: usize,
    report: Report,
    append: Append,
    convert: Convert,
    enter: Enter,
}

const LIBRARY: [Operations; 2] = [
    Operations {
        size: FOUR_POLLUTANTS,
        report: library_report,
        append: library_append,
        convert: library_convert_from::<FOUR_POLLUTANTS>,
        enter: library_finding_by::<FOUR_POLLUTANTS>,
    },
    Operations {
        size: SIX_POLLUTANTS,
        report: library_report_by::<SIX_POLLUTANTS>,
        append: library_append_by::<SIX_POLLUTANTS>,
        convert: library_convert_from::<SIX_POLLUTANTS>,
        enter: library_finding_by::<SIX_POLLUTANTS>,
    },
];

const SECOND: [Operations; 2] = [
    Operations {
        size: FOUR_POLLUTANTS,
        report: second_report_by::<FOUR_POLLUTANTS>,
        append: second_append_by::<FOUR_POLLUTANTS>,
        convert: second_convert_from::<FOUR_POLLUTANTS>,
        enter: second_finding_by::<FOUR_POLLUTANTS>,
    },
    Operations {
        size: SIX_POLLUTANTS,
        report: second_report_by::<SIX_POLLUTANTS>,
        append: second_append_by::<SIX_POLLUTANTS>,
        convert: second_convert_from::<SIX_POLLUTANTS>,
        enter: second_finding_by::<SIX_POLLUTANTS>,
    },
];

/// Sheets of each size, and room for what is converted.
struct Work {
    sheets: [Vec<Vec<u8>>; 2],
    room: Vec<u8>,
}

impl Work {
    fn new() -> Self {
        Work {
            sheets: SIZES.map(all_sheets),
            room: vec![0; Document01.longest_sheet(SIX_POLLUTANTS)],
        }
    }

    /// Every operation on every sheet, once; how many calls.
    fn call_all(&mut self, operations: &[Operations; 2]) -> usize {
        let mut output = [0; LONGEST_REPORT];
        let mut calls = 0;
        for (operations, sheets) in operations.iter().zip(&mut self.sheets) {
            for sheet in sheets {
                black_box((operations.report)(sheet, &mut output));
                append_last(operations.append, operations.size, sheet);
                black_box((operations.convert)(sheet, &mut self.room));
                enter_first(operations.enter, operations.size, sheet);
                calls += 4;
            }
        }
        calls
    }
}

/// Everything that a report is timed on.
fn all_sheets(size: usize) -> Vec<Vec<u8>> {
    let full = (1..=PLANS).flat_map(|plan| full(size, plan));
    let typical = (1..=PLANS).flat_map(|plan| sheets::typical(size, plan, SHEETS));
    let put_in = PUT_IN.into_iter().flat_map(|(_, put_in, plans)| {
        let plans = plans.iter();
        plans.flat_map(move |&plan| typical_with(size, plan, put_in))
    });
    let mut sheets: Vec<Vec<u8>> = full.chain(typical).chain(put_in).collect();
    if size == FOUR_POLLUTANTS {
        sheets.push(sheets::refused_at_the_end());
    }
    sheets
}

fn print_heap() {
    let mut work = Work::new();
    // SAFETY: it only reads a counter; this program has one thread.
    let before = unsafe { allocations_so_far() };
    let calls = work.call_all(&LIBRARY);
    let made = unsafe { allocations_so_far() } - before;
    println!("heap, counted in a stand-in for the C library's malloc and its kin:");
    println!("  {made} allocations in {calls} calls of the library");
}

fn print_stack() {
    let mut work = Work::new();
    let mut depth = |function| {
        // SAFETY: the function gets the work, which nothing else uses until it returns.
        unsafe { stack_depth(function, (&raw mut work).cast()) }
    };
    let [library, second] = [run_library, run_second].map(&mut depth);
    println!("stack, the deepest byte changed of a painted stack, over the same calls:");
    println!("  library {library} bytes, second implementation {second} bytes");
}

extern "C" fn run_library(work: *mut c_void) {
    // SAFETY: `print_stack` passes its work.
    unsafe { &mut *work.cast::<Work>() }.call_all(&LIBRARY);
}

extern "C" fn run_second(work: *mut c_void) {
    // SAFETY: `print_stack` passes its work.
    unsafe { &mut *work.cast::<Work>() }.call_all(&SECOND);
}
