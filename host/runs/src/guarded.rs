//! Memory with a page before it and a page behind it that cannot be touched, shared with the processes that are forked later.

use std::ffi::{c_int, c_long, c_void};

extern "C" {
    fn mmap(at: *mut c_void, length: usize, protection: c_int, flags: c_int, file: c_int, offset: i64) -> *mut c_void;
    fn mprotect(at: *mut c_void, length: usize, protection: c_int) -> c_int;
    fn munmap(at: *mut c_void, length: usize) -> c_int;
    fn sysconf(name: c_int) -> c_long;
}

const NO_ACCESS: c_int = 0;
const READ_WRITE: c_int = 1 | 2;
const SHARED_ANONYMOUS: c_int = 1 | 0x20;
const PAGE_SIZE: c_int = 30;

/// Whole pages between two guard pages. Its bytes are reached by raw pointers alone, since others may write them at any time.
pub struct Guarded {
    start: usize,
    length: usize,
    page: usize,
}

impl Guarded {
    /// At least so many bytes, all of them zero.
    pub fn new(least: usize) -> Guarded {
        // SAFETY: the mapping is new, and only its inner pages are made readable and writable.
        unsafe {
            let page = sysconf(PAGE_SIZE) as usize;
            let length = least.div_ceil(page).max(1) * page;
            let whole = mmap(
                std::ptr::null_mut(),
                length + 2 * page,
                NO_ACCESS,
                SHARED_ANONYMOUS,
                -1,
                0,
            );
            assert!(whole as isize != -1, "no memory can be mapped");
            let start = whole as usize + page;
            assert_eq!(mprotect(start as *mut c_void, length, READ_WRITE), 0, "mprotect");
            Guarded { start, length, page }
        }
    }

    pub fn start(&self) -> *mut u8 {
        self.start as *mut u8
    }

    pub fn length(&self) -> usize {
        self.length
    }

    // What stands where nothing was put.
    fn pattern(offset: usize) -> u8 {
        (offset.wrapping_mul(31) >> 2) as u8 ^ 0xa5
    }

    /// Writes the known pattern everywhere.
    pub fn fill(&self) {
        self.fill_outside(0, 0);
    }

    /// Writes it outside a part.
    pub fn fill_outside(&self, from: usize, length: usize) {
        for offset in (0..from).chain(from + length..self.length) {
            // SAFETY: inside the mapping.
            unsafe { self.start().add(offset).write_volatile(Guarded::pattern(offset)) };
        }
    }

    /// The first byte outside a part that does not hold the known pattern any more.
    pub fn changed_outside(&self, from: usize, length: usize) -> Option<usize> {
        let outside = (0..from).chain(from + length..self.length);
        // SAFETY: inside the mapping.
        let byte = |offset: usize| unsafe { self.start().add(offset).read_volatile() };
        outside
            .into_iter()
            .find(|&offset| byte(offset) != Guarded::pattern(offset))
    }

    /// Puts bytes right behind the first guard page, or right before the second.
    pub fn put(&self, bytes: &[u8], at_end: bool) -> *mut u8 {
        assert!(bytes.len() <= self.length);
        let offset = if at_end { self.length - bytes.len() } else { 0 };
        let place = (self.start + offset) as *mut u8;
        for (index, &byte) in bytes.iter().enumerate() {
            // SAFETY: inside the mapping, by the assertion.
            unsafe { place.add(index).write_volatile(byte) };
        }
        place
    }

    /// Whether bytes that were put still stand.
    pub(crate) fn holds(place: *const u8, bytes: &[u8]) -> bool {
        // SAFETY: `put` handed out the place for as many bytes.
        let at = |index: usize| unsafe { place.add(index).read_volatile() };
        bytes.iter().enumerate().all(|(index, &byte)| at(index) == byte)
    }
}

impl Drop for Guarded {
    fn drop(&mut self) {
        // SAFETY: exactly what was mapped, and nothing reaches it any more.
        unsafe { munmap((self.start - self.page) as *mut c_void, self.length + 2 * self.page) };
    }
}

#[cfg(test)]
mod tests {
    use super::Guarded;

    #[test]
    fn a_changed_byte_outside_is_found() {
        let memory = Guarded::new(1);
        memory.fill();
        memory.put(b"abc", true);
        assert_eq!(memory.changed_outside(memory.length() - 3, 3), None);
        assert_eq!(
            memory.changed_outside(memory.length() - 2, 2),
            Some(memory.length() - 3)
        );
    }
}
