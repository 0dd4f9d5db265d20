//! Memory between pages without access.

use std::ptr;
use std::slice;

extern "C" {
    fn mmap(start: *mut u8, len: usize, access: i32, flags: i32, file: i32, from: i64) -> *mut u8;
    fn mprotect(start: *mut u8, len: usize, access: i32) -> i32;
    fn munmap(start: *mut u8, len: usize) -> i32;
    fn getpagesize() -> i32;
}

/// The access that `mmap` and `mprotect` take, and the flags for private memory of no file.
const NO_ACCESS: i32 = 0;
const READ: i32 = 1;
const READ_AND_WRITE: i32 = 1 | 2;
const PRIVATE_OF_NO_FILE: i32 = 0x02 | 0x20;

/// How many bytes a page has.
pub fn page() -> usize {
    // SAFETY: it takes nothing and only answers.
    unsafe { getpagesize() as usize }
}

/// Whole pages that may be read and, unless they are closed, written, between two that may not.
pub struct Area {
    start: *mut u8,
    len: usize,
    closed: bool,
}

impl Area {
    /// An area of at least so many bytes.
    pub fn new(bytes: usize) -> Self {
        let page = page();
        let len = (bytes + page - 1) / page * page;
        // SAFETY: fresh pages at a place of the system's choice.
        let start = unsafe {
            let whole = mmap(
                ptr::null_mut(),
                len + 2 * page,
                NO_ACCESS,
                PRIVATE_OF_NO_FILE,
                -1,
                0,
            );
            assert!(whole as isize != -1, "no memory");
            whole.add(page)
        };
        let mut area = Area {
            start,
            len,
            closed: true,
        };
        area.open();
        area
    }

    /// Lets the area be written.
    pub fn open(&mut self) {
        if self.closed {
            self.allow(READ_AND_WRITE);
            self.closed = false;
        }
    }

    /// Lets the area be read alone, until it is opened.
    pub fn close(&mut self) {
        self.allow(READ);
        self.closed = true;
    }

    fn allow(&mut self, access: i32) {
        // SAFETY: the pages are this area's alone, and no reference into them is held.
        let reply = unsafe { mprotect(self.start, self.len, access) };
        assert!(reply == 0, "no access to memory");
    }

    /// What the area holds.
    pub fn bytes(&self) -> &[u8] {
        // SAFETY: the pages are this area's alone and stay readable until it is dropped.
        unsafe { slice::from_raw_parts(self.start, self.len) }
    }

    /// The same, to be written.
    pub fn bytes_mut(&mut self) -> &mut [u8] {
        assert!(!self.closed);
        // SAFETY: as above, and they are writable.
        unsafe { slice::from_raw_parts_mut(self.start, self.len) }
    }

    /// Where the byte at a place of the area is; the place after the last is allowed.
    pub fn at(&self, place: usize) -> *mut u8 {
        assert!(place <= self.len);
        // SAFETY: the place is within the area or just after it.
        unsafe { self.start.add(place) }
    }
}

impl Drop for Area {
    fn drop(&mut self) {
        let page = page();
        // SAFETY: it gives back what `new` took.
        unsafe { munmap(self.start.sub(page), self.len + 2 * page) };
    }
}
