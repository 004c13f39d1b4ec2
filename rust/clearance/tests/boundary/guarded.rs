//! Slices that lie directly against an inaccessible page (Linux): a read or write one element outside ends the process.

use std::ffi::{c_int, c_void};
use std::ops::{Deref, DerefMut};

/// The page size of x86-64.
const PAGE: usize = 4_096;

const PROT_NONE: c_int = 0;
const PROT_READ: c_int = 1;
const PROT_WRITE: c_int = 2;
const MAP_PRIVATE: c_int = 0x02;
const MAP_ANONYMOUS: c_int = 0x20;

extern "C" {
    fn mmap(
        address: *mut c_void,
        length: usize,
        protection: c_int,
        flags: c_int,
        file: c_int,
        offset: i64,
    ) -> *mut c_void;
    fn mprotect(address: *mut c_void, length: usize, protection: c_int) -> c_int;
    fn munmap(address: *mut c_void, length: usize) -> c_int;
}

/// On which side of the slice the inaccessible page lies that it touches.
#[derive(Clone, Copy, Debug, PartialEq, Eq)]
pub enum Side {
    Before,
    After,
}

/// Elements on whole pages, with an inaccessible page before the first and after the last of these.
pub struct Guarded<T> {
    map: *mut u8,
    inside: usize,
    first: *mut T,
    count: usize,
}

impl<T: Copy> Guarded<T> {
    /// A copy of the elements against the inaccessible page on one side.
    pub fn new(elements: &[T], side: Side) -> Guarded<T> {
        let bytes = size_of_val(elements);
        let inside = bytes.next_multiple_of(PAGE);
        let flags = MAP_PRIVATE | MAP_ANONYMOUS;
        // SAFETY: a new map, at an address that the system chooses.
        let map = unsafe { mmap(std::ptr::null_mut(), inside + 2 * PAGE, PROT_NONE, flags, -1, 0) };
        assert_ne!(map as isize, -1, "mmap");
        let map: *mut u8 = map.cast();
        let skipped = if side == Side::Before { 0 } else { inside - bytes };
        // SAFETY: the offset is inside the map, and a multiple of the element's size, since a page's is.
        let first: *mut T = unsafe { map.add(PAGE + skipped) }.cast();
        let guarded = Guarded { map, inside, first, count: elements.len() };
        guarded.protect(PROT_READ | PROT_WRITE);
        // SAFETY: the pages from `first` on hold as many elements, can be written to, and are in no other hands.
        unsafe { std::ptr::copy_nonoverlapping(elements.as_ptr(), first, elements.len()) };
        guarded
    }

    /// The same elements, for reading only: a write to them ends the process too.
    pub fn sealed(self) -> Guarded<T> {
        self.protect(PROT_READ);
        self
    }

    /// Where the first element is.
    pub fn first(&self) -> *const T {
        self.first
    }

    fn protect(&self, protection: c_int) {
        // SAFETY: the pages between the outermost two of this map. Only `sealed` takes rights away, and what it returns is not written to: the tests
        // lend it as `&[T]`.
        let outcome = unsafe { mprotect(self.map.add(PAGE).cast(), self.inside, protection) };
        assert_eq!(outcome, 0, "mprotect");
    }
}

impl<T> Deref for Guarded<T> {
    type Target = [T];

    fn deref(&self) -> &[T] {
        // SAFETY: `new` has put as many elements there, and `self` is borrowed as long as they are.
        unsafe { std::slice::from_raw_parts(self.first, self.count) }
    }
}

impl<T> DerefMut for Guarded<T> {
    fn deref_mut(&mut self) -> &mut [T] {
        // SAFETY: as in `deref`, and `self` is borrowed alone.
        unsafe { std::slice::from_raw_parts_mut(self.first, self.count) }
    }
}

impl<T> Drop for Guarded<T> {
    fn drop(&mut self) {
        // SAFETY: the whole of the map that `new` made; nothing borrows from it any more.
        let outcome = unsafe { munmap(self.map.cast(), self.inside + 2 * PAGE) };
        assert_eq!(outcome, 0, "munmap");
    }
}
