//! Memory between two pages that may not be touched, so that a byte read or written outside a lent area stops the program.

use std::ffi::{c_int, c_long, c_void};
use std::mem::{align_of, needs_drop, size_of};

extern "C" {
    fn mmap(at: *mut c_void, length: usize, protection: c_int, flags: c_int, file: c_int, offset: c_long) -> *mut c_void;
    fn mprotect(at: *mut c_void, length: usize, protection: c_int) -> c_int;
    fn munmap(at: *mut c_void, length: usize) -> c_int;
}

const PAGE: usize = 4_096;
const NONE: c_int = 0;
const READ: c_int = 1;
const READ_WRITE: c_int = 3;
const PRIVATE_ANONYMOUS: c_int = 0x22;

/// Bytes that end at the guard behind them, or start at the guard before them.
pub struct Guarded {
    base: *mut u8,
    room: usize,
    start: usize,
    length: usize,
}

impl Guarded {
    /// Room for this many bytes, rounded up to pages.
    pub fn new(bytes: usize) -> Guarded {
        let room = bytes.div_ceil(PAGE) * PAGE;
        // SAFETY: a fresh mapping.
        let base = unsafe { mmap(std::ptr::null_mut(), room + 2 * PAGE, NONE, PRIVATE_ANONYMOUS, -1, 0) };
        assert!(base as isize != -1, "no memory for guarded bytes");
        let mut guarded = Guarded { base: base as *mut u8, room, start: PAGE, length: 0 };
        guarded.open();
        guarded
    }

    /// The bytes may be read and written.
    pub fn open(&mut self) {
        self.protect(READ_WRITE);
    }

    /// They may be read, or not even that, until they are opened.
    pub fn close(&mut self, readable: bool) {
        self.protect(if readable { READ } else { NONE });
    }

    fn protect(&mut self, protection: c_int) {
        if self.room > 0 {
            // SAFETY: the pages between the first and the last of the mapping.
            assert!(unsafe { mprotect(self.base.add(PAGE) as *mut c_void, self.room, protection) } == 0);
        }
    }

    /// Holds these bytes from now on, against the guard behind or the one before.
    pub fn set(&mut self, bytes: &[u8], behind: bool) {
        if bytes.len() > self.room {
            *self = Guarded::new(bytes.len());
        }
        self.start = if behind { PAGE + self.room - bytes.len() } else { PAGE };
        self.length = bytes.len();
        self.bytes_mut().copy_from_slice(bytes);
    }

    /// Holds this value from now on. Its size is a multiple of its alignment, and so are the ends of a page, so it lies as it must at both.
    pub fn value<T>(&mut self, value: T, behind: bool) -> &mut T {
        const { assert!(align_of::<T>() <= PAGE && !needs_drop::<T>()) };
        if size_of::<T>() > self.room {
            *self = Guarded::new(size_of::<T>());
        }
        self.start = if behind { PAGE + self.room - size_of::<T>() } else { PAGE };
        self.length = size_of::<T>();
        // SAFETY: start and size lie within the open pages; what is written is a `T`, and borrowed for writing.
        unsafe {
            let at = self.base.add(self.start).cast::<T>();
            at.write(value);
            &mut *at
        }
    }

    pub fn bytes(&self) -> &[u8] {
        // SAFETY: start and length lie within the open pages.
        unsafe { std::slice::from_raw_parts(self.base.add(self.start), self.length) }
    }

    pub fn bytes_mut(&mut self) -> &mut [u8] {
        // SAFETY: as above, and borrowed for writing.
        unsafe { std::slice::from_raw_parts_mut(self.base.add(self.start), self.length) }
    }
}

impl Drop for Guarded {
    fn drop(&mut self) {
        // SAFETY: the mapping made in `new`.
        unsafe { munmap(self.base as *mut c_void, self.room + 2 * PAGE) };
    }
}
