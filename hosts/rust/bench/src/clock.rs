//! The best of several repetitions: other work on the machine only ever adds to a time.

use std::hint::black_box;
use std::time::Duration;

/// How long one call is repeated before the next one has its turn.
const TURN: Duration = Duration::from_millis(50);

/// A slow call is made at least so often in a turn.
const LEAST: u32 = 3;

/// A shorter batch would measure the clock as well.
const SHORTEST: Duration = Duration::from_micros(50);

/// The least time a call has taken, in nanoseconds.
#[derive(Clone, Copy)]
pub struct Best(pub f64);

impl Default for Best {
    fn default() -> Best {
        Best(f64::INFINITY)
    }
}

impl Best {
    /// Repeats a call for a turn.
    pub fn turn<T>(&mut self, mut call: impl FnMut() -> T) {
        let begin = now();
        let (mut batch, mut made) = (1, 0);
        while made < LEAST || now() - begin < TURN {
            let start = now();
            for _ in 0..batch {
                black_box(call());
            }
            let took = now() - start;
            self.0 = self.0.min(took.as_nanos() as f64 / f64::from(batch));
            made += batch;
            if took < SHORTEST {
                batch *= 2;
            }
        }
    }
}

/// The time that this thread has had a core. By the wall clock a call of some milliseconds would also be charged for those
/// in which another program had it, and the longest calls most of all.
#[cfg(target_os = "linux")]
fn now() -> Duration {
    #[repr(C)]
    struct Timespec {
        seconds: std::ffi::c_long,
        nanoseconds: std::ffi::c_long,
    }
    extern "C" {
        fn clock_gettime(clock: std::ffi::c_int, time: *mut Timespec) -> std::ffi::c_int;
    }
    const CLOCK_THREAD_CPUTIME_ID: std::ffi::c_int = 3;
    let mut time = Timespec { seconds: 0, nanoseconds: 0 };
    // SAFETY: the struct is laid out as C has it.
    let status = unsafe { clock_gettime(CLOCK_THREAD_CPUTIME_ID, &mut time) };
    assert_eq!(status, 0, "no clock");
    Duration::new(time.seconds as u64, time.nanoseconds as u32)
}

/// The wall clock.
#[cfg(not(target_os = "linux"))]
fn now() -> Duration {
    std::time::SystemTime::now().duration_since(std::time::UNIX_EPOCH).unwrap_or_default()
}
