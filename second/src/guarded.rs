//! A buffer that ends at a page which may not be touched, with canary bytes before it.
//!
//! An access past the end stops the process; a write before the start shows in the canary.
//! Made for Linux on x86_64: `std` alone has no way to protect a page.

use std::ffi::c_void;
use std::ops::{Deref, DerefMut};

const PAGE: usize = 4096;
const CANARY_BYTES: usize = 64;
const CANARY: u8 = 0xA5;

const PROT_NONE: i32 = 0;
const PROT_READ_WRITE: i32 = 1 | 2;
const MAP_PRIVATE_ANONYMOUS: i32 = 0x02 | 0x20;

extern "C" {
    fn mmap(at: *mut c_void, len: usize, prot: i32, flags: i32, fd: i32, off: i64) -> *mut c_void;
    fn mprotect(at: *mut c_void, len: usize, prot: i32) -> i32;
    fn munmap(at: *mut c_void, len: usize) -> i32;
}

pub struct Guarded<T> {
    base: *mut u8,
    /// Bytes before the guard page.
    open: usize,
    len: usize,
    start: *mut T,
}

impl<T: Copy> Guarded<T> {
    /// A buffer with a copy of these words.
    pub fn new(words: &[T]) -> Guarded<T> {
        let bytes = size_of_val(words);
        let open = (bytes + CANARY_BYTES).next_multiple_of(PAGE);
        let base = map(open + PAGE);
        unsafe {
            assert_eq!(mprotect(base.add(open).cast(), PAGE, PROT_NONE), 0, "mprotect");
            let start = base.add(open - bytes);
            start.sub(CANARY_BYTES).write_bytes(CANARY, CANARY_BYTES);
            start.copy_from_nonoverlapping(words.as_ptr().cast(), bytes);
            Guarded { base, open, len: words.len(), start: start.cast() }
        }
    }

    /// The bytes before the buffer are as they were.
    pub fn canary_is_whole(&self) -> bool {
        let canary = unsafe {
            std::slice::from_raw_parts(self.start.cast::<u8>().sub(CANARY_BYTES), CANARY_BYTES)
        };
        canary.iter().all(|&byte| byte == CANARY)
    }
}

fn map(bytes: usize) -> *mut u8 {
    let flags = MAP_PRIVATE_ANONYMOUS;
    let base = unsafe { mmap(std::ptr::null_mut(), bytes, PROT_READ_WRITE, flags, -1, 0) };
    assert_ne!(base as isize, -1, "mmap");
    base.cast()
}

impl<T> Deref for Guarded<T> {
    type Target = [T];

    fn deref(&self) -> &[T] {
        unsafe { std::slice::from_raw_parts(self.start, self.len) }
    }
}

impl<T> DerefMut for Guarded<T> {
    fn deref_mut(&mut self) -> &mut [T] {
        unsafe { std::slice::from_raw_parts_mut(self.start, self.len) }
    }
}

impl<T> Drop for Guarded<T> {
    fn drop(&mut self) {
        unsafe { munmap(self.base.cast(), self.open + PAGE) };
    }
}

#[cfg(test)]
mod tests {
    use super::*;

    #[test]
    fn ends_at_a_page() {
        for len in [0, 1, 9, 512, 4096] {
            let buffer = Guarded::new(&vec![7u64; len]);
            assert_eq!(buffer.as_ptr_range().end as usize % PAGE, 0);
            assert!(buffer.iter().all(|&word| word == 7) && buffer.canary_is_whole());
        }
    }

    /// The test runs itself in another process, which has to be stopped by a signal.
    #[test]
    fn reading_past_the_end_stops_the_process() {
        use std::os::unix::process::ExitStatusExt;
        const SIGSEGV: i32 = 11;
        const NAME: &str = "guarded::tests::reading_past_the_end_stops_the_process";
        if std::env::var_os("READ_PAST_THE_END").is_some() {
            let buffer = Guarded::new(&[1u8, 2, 3]);
            std::hint::black_box(unsafe { buffer.as_ptr().add(3).read_volatile() });
            return;
        }
        let mut test = std::process::Command::new(std::env::current_exe().unwrap());
        let ended = test.args(["--exact", NAME]).env("READ_PAST_THE_END", "1").output().unwrap();
        assert_eq!(ended.status.signal(), Some(SIGSEGV));
    }

    #[test]
    fn canary_shows_a_write_before_the_start() {
        let buffer = Guarded::new(&[1u8, 2, 3]);
        unsafe { buffer.start.sub(1).write(0) };
        assert!(!buffer.canary_is_whole());
    }
}
