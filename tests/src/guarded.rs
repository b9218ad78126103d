//! Areas between two pages that nothing may touch, on Linux and x86-64: a read or write one byte before or behind such an area ends the process.

use crate::lent::Area;
use std::ffi::{c_int, c_void};
use std::ptr::null_mut;
use std::slice;

unsafe extern "C" {
    fn mmap(address: *mut c_void, length: usize, protection: c_int, flags: c_int, file: c_int, offset: i64) -> *mut c_void;
    fn mprotect(address: *mut c_void, length: usize, protection: c_int) -> c_int;
    fn munmap(address: *mut c_void, length: usize) -> c_int;
}

const PAGE: usize = 4_096;
const NONE: c_int = 0;
const READ: c_int = 1;
const WRITE: c_int = 2;
const PRIVATE: c_int = 2;
const ANONYMOUS: c_int = 32;

/// Where an area lies.
#[derive(Clone, Copy, PartialEq, Eq, Debug)]
pub enum Side {
    /// It begins where the first of the two pages ends.
    Begins,
    /// It ends where the second one begins.
    Ends,
}

pub struct Guarded<T> {
    pages: *mut u8,
    size: usize,
    first: *mut T,
    len: usize,
    writable: bool,
}

impl<T: Copy> Guarded<T> {
    /// An area with these values. One that is not writable can be read only: a write to it ends the process too.
    pub fn new(values: &[T], side: Side, writable: bool) -> Guarded<T> {
        let bytes = size_of_val(values);
        let inner = bytes.next_multiple_of(PAGE);
        let size = inner + 2 * PAGE;
        // Safe: the pages are new, so nothing else knows them, and the values fit between the first and the last.
        let (pages, first) = unsafe {
            let pages = mmap(null_mut(), size, NONE, PRIVATE | ANONYMOUS, -1, 0).cast::<u8>();
            assert_ne!(pages as isize, -1, "no pages of memory are left");
            let begin = pages.add(PAGE);
            assert_eq!(mprotect(begin.cast(), inner, READ | WRITE), 0);
            let first = begin.add(if side == Side::Ends { inner - bytes } else { 0 }).cast::<T>();
            first.copy_from_nonoverlapping(values.as_ptr(), values.len());
            if !writable {
                assert_eq!(mprotect(begin.cast(), inner, READ), 0);
            }
            (pages, first)
        };
        Guarded { pages, size, first, len: values.len(), writable }
    }
}

impl<T> Area<T> for Guarded<T> {
    fn all(&self) -> &[T] {
        // Safe: the values are there as long as the area is, and a page's size is a multiple of theirs, so that they are aligned.
        unsafe { slice::from_raw_parts(self.first, self.len) }
    }

    fn all_mut(&mut self) -> &mut [T] {
        assert!(self.writable, "an area that can only be read");
        // Safe: as above, and nobody else has a part of it.
        unsafe { slice::from_raw_parts_mut(self.first, self.len) }
    }
}

impl<T> Drop for Guarded<T> {
    fn drop(&mut self) {
        // Safe: the pages are those that `new` made.
        assert_eq!(unsafe { munmap(self.pages.cast(), self.size) }, 0);
    }
}
