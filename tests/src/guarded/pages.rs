//! Pages between two that cannot be touched: a read or a write past an end of them
//! ends the process.

use std::ffi::{c_int, c_long, c_void};
use std::{ptr, slice};

const PAGE: usize = 4_096;

// As the headers of x86-64 Linux have them.
const PROT_NONE: c_int = 0;
const PROT_READ: c_int = 1;
const PROT_WRITE: c_int = 2;
const MAP_PRIVATE: c_int = 2;
const MAP_ANONYMOUS: c_int = 32;

extern "C" {
    fn mmap(
        address: *mut c_void,
        length: usize,
        protection: c_int,
        flags: c_int,
        file: c_int,
        offset: c_long,
    ) -> *mut c_void;
    fn mprotect(address: *mut c_void, length: usize, protection: c_int) -> c_int;
    fn munmap(address: *mut c_void, length: usize) -> c_int;
}

pub struct Pages {
    /// Of the page before.
    outer: *mut u8,
    /// Bytes between the two.
    inner: usize,
}

impl Pages {
    /// As many as so many bytes need; none for none.
    pub fn of(bytes: usize) -> Self {
        let inner = bytes.next_multiple_of(PAGE);
        // SAFETY: a new mapping, at an address that is free.
        let outer = unsafe {
            let flags = MAP_PRIVATE | MAP_ANONYMOUS;
            mmap(ptr::null_mut(), inner + 2 * PAGE, PROT_NONE, flags, -1, 0)
        };
        assert_ne!(outer as isize, -1, "no pages");
        let outer = outer.cast();
        let pages = Pages { outer, inner };
        pages.protect(PROT_READ | PROT_WRITE);
        pages
    }

    pub fn read_only(&mut self) {
        self.protect(PROT_READ);
    }

    fn protect(&self, protection: c_int) {
        if self.inner > 0 {
            // SAFETY: these pages are of this mapping, and whole.
            let failed = unsafe { mprotect(self.first().cast(), self.inner, protection) };
            assert_eq!(failed, 0, "pages keep their protection");
        }
    }

    fn first(&self) -> *mut u8 {
        self.outer.wrapping_add(PAGE)
    }

    pub fn bytes(&self) -> &[u8] {
        // SAFETY: the pages can be read as long as they are mapped.
        unsafe { slice::from_raw_parts(self.first(), self.inner) }
    }

    /// A pointer to the byte of this number, which may be the one after the last.
    pub fn at(&mut self, number: usize) -> *mut u8 {
        assert!(number <= self.inner);
        self.first().wrapping_add(number)
    }

    pub fn fill(&mut self, byte: u8) {
        // SAFETY: the pages can be written from `of` to `read_only`.
        unsafe { ptr::write_bytes(self.first(), byte, self.inner) };
    }
}

impl Drop for Pages {
    fn drop(&mut self) {
        // SAFETY: the whole mapping, of which no reference is left.
        unsafe { munmap(self.outer.cast(), self.inner + 2 * PAGE) };
    }
}
