//! Pages of memory between two pages that may not be touched.
//!
//! Guards find what a call writes beside a buffer; a fence also finds what it reads there. The program then ends with the
//! status [`TOUCHED`] and says in which case.

use std::cell::RefCell;
use std::sync::atomic::{AtomicU64, Ordering};

/// The exit status of a program whose library touched a fence.
pub const TOUCHED: i32 = 3;

/// The case at hand, to be told when a fence is touched.
static CASE: AtomicU64 = AtomicU64::new(0);

/// Takes down the case at hand.
pub fn at_case(case: u64) {
    CASE.store(case, Ordering::Relaxed);
}

/// The least bytes that a region has.
const LEAST: usize = 1 << 16;

thread_local! {
    /// Regions that are not in use.
    static FREE: RefCell<Vec<Region>> = const { RefCell::new(Vec::new()) };
}

/// Memory between two fences.
pub struct Region {
    start: *mut u8,
    size: usize,
}

impl Region {
    /// A region of at least so many bytes.
    pub fn of(bytes: usize) -> Region {
        FREE.with(|free| {
            let mut free = free.borrow_mut();
            match free.iter().position(|region| region.size >= bytes) {
                Some(index) => free.swap_remove(index),
                None => Region::map(bytes.max(LEAST).next_power_of_two()),
            }
        })
    }

    /// Gives the region back for the next use.
    pub fn put_back(self) {
        FREE.with(|free| free.borrow_mut().push(self));
    }

    /// Where the memory begins: right behind a fence.
    pub fn start(&self) -> *mut u8 {
        self.start
    }

    /// Where the memory ends: right before a fence.
    pub fn end(&self) -> *mut u8 {
        self.start.wrapping_add(self.size)
    }
}

#[cfg(target_os = "linux")]
mod pages {
    use super::{Region, CASE, TOUCHED};
    use std::ffi::c_void;
    use std::sync::atomic::Ordering;

    extern "C" {
        fn mmap(at: *mut c_void, size: usize, protection: i32, flags: i32, file: i32, offset: i64) -> *mut c_void;
        fn mprotect(at: *mut c_void, size: usize, protection: i32) -> i32;
        fn signal(number: i32, handler: usize) -> usize;
        fn write(file: i32, bytes: *const c_void, count: usize) -> isize;
        fn _exit(status: i32) -> !;
    }

    const NONE: i32 = 0;
    const READ_AND_WRITE: i32 = 3;
    const PRIVATE_AND_ANONYMOUS: i32 = 0x22;
    const SIGBUS: i32 = 7;
    const SIGSEGV: i32 = 11;

    /// As large as any page.
    const PAGE: usize = 1 << 16;

    impl Region {
        /// Maps a region of so many bytes, a number of pages. Regions are never unmapped.
        pub(super) fn map(size: usize) -> Region {
            // SAFETY: the mapping is new, and what is opened lies within it.
            unsafe {
                let all = mmap(std::ptr::null_mut(), size + 2 * PAGE, NONE, PRIVATE_AND_ANONYMOUS, -1, 0);
                assert!(all as isize != -1, "no memory for the test");
                let start = all.cast::<u8>().add(PAGE);
                assert!(mprotect(start.cast(), size, READ_AND_WRITE) == 0, "no memory for the test");
                Region { start, size }
            }
        }
    }

    /// Says which case it was and ends the program. Only calls that a signal allows are made.
    extern "C" fn touched(_: i32) {
        let mut digits = [0; 20];
        let mut at = digits.len();
        let mut case = CASE.load(Ordering::Relaxed);
        loop {
            at -= 1;
            digits[at] = b'0' + (case % 10) as u8;
            case /= 10;
            if case == 0 {
                break;
            }
        }
        let parts: [&[u8]; 3] = [b"case ", &digits[at..], b": the library touched memory that was not lent to it\n"];
        for part in parts {
            // SAFETY: the bytes are as many as said.
            unsafe { write(2, part.as_ptr().cast(), part.len()) };
        }
        // SAFETY: ends the program.
        unsafe { _exit(TOUCHED) }
    }

    /// From now on a touched fence is told.
    pub fn watch() {
        for number in [SIGBUS, SIGSEGV] {
            // SAFETY: the handler only writes and exits.
            unsafe { signal(number, touched as extern "C" fn(i32) as usize) };
        }
    }
}

#[cfg(not(target_os = "linux"))]
mod pages {
    use super::Region;

    impl Region {
        /// Memory without fences.
        pub(super) fn map(size: usize) -> Region {
            let memory: &'static mut [u128] = vec![0u128; size / 16].leak();
            Region { start: memory.as_mut_ptr().cast(), size }
        }
    }

    /// There is nothing to watch.
    pub fn watch() {}
}

pub use pages::watch;
