//! Signals that end the program: files beside their places go first, and a pair of files is never parted.

#[cfg(unix)]
mod handlers {
    use std::ffi::{c_char, c_int, CString};
    use std::os::unix::ffi::OsStrExt;
    use std::path::Path;
    use std::ptr::null_mut;
    use std::sync::atomic::{AtomicBool, AtomicI32, AtomicPtr, Ordering::SeqCst};

    extern "C" {
        fn signal(number: c_int, handler: usize) -> usize;
        fn raise(number: c_int) -> c_int;
        fn unlink(path: *const c_char) -> c_int;
    }

    /// SIGHUP, SIGINT and SIGTERM.
    const SIGNALS: [c_int; 3] = [1, 2, 15];
    const DEFAULT: usize = 0;
    const IGNORED: usize = 1;

    /// The files that have to go. Each of two files has one beside it, and a second name of what stood in its place.
    static BESIDE: [AtomicPtr<c_char>; 8] = [const { AtomicPtr::new(null_mut()) }; 8];
    static HELD: AtomicBool = AtomicBool::new(false);
    static WAITING: AtomicI32 = AtomicI32::new(0);

    /// Has the signals tidy up. One that the program was started to ignore stays ignored.
    pub fn tidy_up() {
        for number in SIGNALS {
            // SAFETY: the handler does nothing but what is allowed in one.
            unsafe {
                if signal(number, on_signal as extern "C" fn(c_int) as usize) == IGNORED {
                    signal(number, IGNORED);
                }
            }
        }
    }

    extern "C" fn on_signal(number: c_int) {
        if HELD.load(SeqCst) {
            WAITING.store(number, SeqCst);
        } else {
            end(number);
        }
    }

    /// Removes the files and ends as the signal would have. Only calls that are allowed in a handler.
    fn end(number: c_int) {
        for path in &BESIDE {
            let path = path.load(SeqCst);
            if !path.is_null() {
                // SAFETY: a path that is listed is never freed.
                unsafe { unlink(path) };
            }
        }
        // SAFETY: both take any number.
        unsafe {
            signal(number, DEFAULT);
            raise(number);
        }
    }

    /// Lists a file that has to go. The name stays in memory: a handler may be looking at it.
    pub fn list(path: &Path) {
        let Ok(name) = CString::new(path.as_os_str().as_bytes()) else {
            return;
        };
        let name = name.into_raw();
        if !BESIDE.iter().any(|place| place.compare_exchange(null_mut(), name, SeqCst, SeqCst).is_ok()) {
            // SAFETY: it was not listed, so nobody else has it.
            drop(unsafe { CString::from_raw(name) });
        }
    }

    /// Takes a file from the list.
    pub fn unlist(path: &Path) {
        for place in &BESIDE {
            let name = place.load(SeqCst);
            // SAFETY: what is listed is a string that is never freed.
            if !name.is_null() && unsafe { std::ffi::CStr::from_ptr(name) }.to_bytes() == path.as_os_str().as_bytes() {
                place.store(null_mut(), SeqCst);
            }
        }
    }

    /// While this lives, signals wait.
    pub struct Hold(());

    pub fn hold() -> Hold {
        HELD.store(true, SeqCst);
        Hold(())
    }

    impl Drop for Hold {
        fn drop(&mut self) {
            HELD.store(false, SeqCst);
            match WAITING.load(SeqCst) {
                0 => {}
                number => end(number),
            }
        }
    }
}

#[cfg(not(unix))]
mod handlers {
    pub struct Hold(());

    pub fn tidy_up() {}

    pub fn list(_: &std::path::Path) {}

    pub fn unlist(_: &std::path::Path) {}

    pub fn hold() -> Hold {
        Hold(())
    }
}

pub use handlers::*;
