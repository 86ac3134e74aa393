//! The C entries of the delivered libraries: those of `include/conformity.h`, and those that crate
//! `probe` has for tests. A build script says which program links which library.

extern "C" {
    pub fn conformity_append(
        buffer: *mut u8,
        buffer_length: usize,
        used: usize,
        record: *const u8,
        record_length: usize,
    ) -> u32;
    pub fn conformity_append_sized(
        size: usize,
        buffer: *mut u8,
        buffer_length: usize,
        used: usize,
        record: *const u8,
        record_length: usize,
    ) -> u32;
    pub fn conformity_report(
        sheet: *const u8,
        sheet_length: usize,
        output: *mut u8,
        output_length: usize,
    ) -> u32;
    pub fn conformity_report_sized(
        size: usize,
        sheet: *const u8,
        sheet_length: usize,
        output: *mut u8,
        output_length: usize,
    ) -> u32;
    pub fn conformity_convert(
        size: usize,
        sheet: *const u8,
        sheet_length: usize,
        output: *mut u8,
        output_length: usize,
    ) -> u32;
    pub fn conformity_finding(
        size: usize,
        sheet: *mut u8,
        sheet_length: usize,
        engine: u32,
        finding: u32,
    ) -> u32;
    pub fn conformity_declared(
        declared: u32,
        tests: *const u32,
        count: usize,
        sum: *mut u32,
        divisor: *mut u32,
    ) -> u32;
    pub fn probe_logarithm(m: u32) -> u32;
    pub fn probe_evidence(
        size: usize,
        sheet: *const u8,
        sheet_length: usize,
        code: *mut u32,
    ) -> usize;
    pub fn probe_lines(
        sheet: *const u8,
        sheet_length: usize,
        output: *mut u8,
        output_length: usize,
    ) -> usize;
    pub fn probe_step(
        size: usize,
        sheet: *const u8,
        sheet_length: usize,
        k: usize,
        numbers: *mut [u32; 8],
    ) -> usize;
}
