//! Lent memory with an exact end. A `Pages` lends bytes that end (or start) where a page without
//! any access begins, and shows sheets through a read-only view, so that one stray byte, or one
//! write to a sheet, stops the program. `Boxes` lends allocations of the exact size, for a run
//! under valgrind.

use std::ffi::{c_char, c_int, c_uint, c_void};
use std::ptr;

extern "C" {
    fn mmap(
        address: *mut c_void,
        length: usize,
        protection: c_int,
        flags: c_int,
        file: c_int,
        offset: i64,
    ) -> *mut c_void;
    fn memfd_create(name: *const c_char, flags: c_uint) -> c_int;
    fn ftruncate(file: c_int, length: i64) -> c_int;
    fn close(file: c_int) -> c_int;
}

const NO_ACCESS: c_int = 0;
const READ: c_int = 1;
const WRITE: c_int = 2;
const SHARED: c_int = 1;
const PRIVATE: c_int = 2;
const FIXED: c_int = 16;
const ANONYMOUS: c_int = 32;

const PAGE: usize = 4096;

/// Which end of the lent bytes touches the page without access.
#[derive(Clone, Copy, PartialEq, Eq)]
pub enum Edge {
    Start,
    End,
}

impl Edge {
    /// The start at every eighth call.
    pub fn of_call(call: usize) -> Self {
        if call.is_multiple_of(8) {
            Edge::Start
        } else {
            Edge::End
        }
    }
}

/// How a slice without bytes is handed to C.
#[derive(Clone, Copy)]
pub enum Empty {
    Slice,
    Null,
}

impl Empty {
    pub fn place(self, bytes: &[u8]) -> *const u8 {
        match self {
            Empty::Null if bytes.is_empty() => ptr::null(),
            _ => bytes.as_ptr(),
        }
    }

    pub fn place_mut(self, bytes: &mut [u8]) -> *mut u8 {
        match self {
            Empty::Null if bytes.is_empty() => ptr::null_mut(),
            _ => bytes.as_mut_ptr(),
        }
    }
}

/// One page of memory seen twice: through `writer`, and, between two pages without access,
/// through `view`.
struct Window {
    writer: *mut u8,
    view: *mut u8,
}

impl Window {
    fn new(protection: c_int) -> Self {
        // SAFETY: the calls make new mappings of a new file; each result is checked.
        unsafe {
            let file = memfd_create(c"lent".as_ptr(), 0);
            assert!(file >= 0 && ftruncate(file, PAGE as i64) == 0);
            let writer = mmap(ptr::null_mut(), PAGE, READ | WRITE, SHARED, file, 0);
            let flags = PRIVATE | ANONYMOUS;
            let guarded = mmap(ptr::null_mut(), 3 * PAGE, NO_ACCESS, flags, -1, 0);
            assert!(writer as isize != -1 && guarded as isize != -1);
            let middle = guarded.cast::<u8>().add(PAGE).cast();
            let view = mmap(middle, PAGE, protection, SHARED | FIXED, file, 0);
            assert!(view == middle && close(file) == 0);
            Window {
                writer: writer.cast(),
                view: view.cast(),
            }
        }
    }

    /// Puts the bytes at an edge of the page and gives their place in the view.
    fn place(&mut self, bytes: &[u8], edge: Edge) -> *mut u8 {
        assert!(bytes.len() <= PAGE);
        let offset = match edge {
            Edge::Start => 0,
            Edge::End => PAGE - bytes.len(),
        };
        // SAFETY: the bytes fit into the page behind both views, as asserted.
        unsafe {
            ptr::copy_nonoverlapping(bytes.as_ptr(), self.writer.add(offset), bytes.len());
            self.view.add(offset)
        }
    }
}

pub struct Pages {
    read_only: Window,
    writable: Window,
}

impl Default for Pages {
    fn default() -> Self {
        Pages {
            read_only: Window::new(READ),
            writable: Window::new(READ | WRITE),
        }
    }
}

/// Lends a part to read and a part to write, and hands back the written part as it is afterwards.
pub trait Lender {
    fn lend<T>(
        &mut self,
        read: &[u8],
        written: &[u8],
        edge: Edge,
        operation: impl FnOnce(&[u8], &mut [u8]) -> T,
    ) -> (T, Vec<u8>);
}

impl Lender for Pages {
    fn lend<T>(
        &mut self,
        read: &[u8],
        written: &[u8],
        edge: Edge,
        operation: impl FnOnce(&[u8], &mut [u8]) -> T,
    ) -> (T, Vec<u8>) {
        let read_place = self.read_only.place(read, edge);
        let written_place = self.writable.place(written, edge);
        // SAFETY: both places hold as many bytes, in two mappings that only this call uses.
        unsafe {
            let lent = std::slice::from_raw_parts(read_place, read.len());
            let output = std::slice::from_raw_parts_mut(written_place, written.len());
            let result = operation(lent, output);
            (result, output.to_vec())
        }
    }
}

pub struct Boxes;

impl Lender for Boxes {
    fn lend<T>(
        &mut self,
        read: &[u8],
        written: &[u8],
        _: Edge,
        operation: impl FnOnce(&[u8], &mut [u8]) -> T,
    ) -> (T, Vec<u8>) {
        let lent: Box<[u8]> = read.into();
        let mut output: Box<[u8]> = written.into();
        let result = operation(&lent, &mut output);
        (result, output.into_vec())
    }
}

/// The first numbers that lent bytes hold.
pub fn numbers_in<const COUNT: usize>(bytes: &[u8]) -> [u32; COUNT] {
    let mut numbers = [0; COUNT];
    for (number, bytes) in numbers.iter_mut().zip(bytes.as_chunks().0) {
        *number = u32::from_ne_bytes(*bytes);
    }
    numbers
}
