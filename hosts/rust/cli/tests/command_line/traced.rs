//! The program ended by a signal between two of its system calls.

use std::ffi::{c_int, c_long, c_uint};
use std::io;
use std::os::unix::process::CommandExt;
use std::process::{Child, Command, Stdio};
use std::ptr::null_mut;
use std::thread::sleep;
use std::time::Duration;

use crate::folder::{Folder, STATION};

extern "C" {
    fn ptrace(request: c_uint, ...) -> c_long;
    fn waitpid(process: c_int, status: *mut c_int, options: c_int) -> c_int;
    fn kill(process: c_int, signal: c_int) -> c_int;
}

const TRACE_ME: c_uint = 0;
const DETACH: c_uint = 17;
const TO_NEXT_STOP: c_uint = 24;
const NOTHING: *mut u8 = null_mut();

pub const SIGKILL: c_int = 9;
pub const SIGTERM: c_int = 15;

/// Runs the program, sends it a signal after so many system calls of its first thread, and waits for its end. Tells
/// whether it came so far. Where a process may not be traced, tenths of a millisecond are counted instead of calls.
pub fn ended_after(calls: u32, signal: c_int, folder: &Folder, arguments: &[&str]) -> bool {
    let command = || {
        let mut command = Command::new(STATION);
        command.args(arguments).current_dir(&folder.0).stdin(Stdio::null()).stdout(Stdio::null()).stderr(Stdio::null());
        command
    };
    let Ok(mut child) = traced(command()) else {
        return ended_in_time(command().spawn().expect("the program runs"), calls, signal);
    };
    let process = child.id() as c_int;
    // It stops once when it starts; then each call has a stop before it and one behind it.
    let came_so_far = stopped(process) && (0..2 * calls).all(|_| next_stop(process));
    if came_so_far {
        // SAFETY: the process is a stopped child; no memory of ours is lent.
        unsafe {
            kill(process, signal);
            ptrace(DETACH, process, NOTHING, NOTHING);
        }
        child.wait().expect("the program ends");
    }
    came_so_far
}

/// Starts a command that stops at each of its system calls.
fn traced(mut command: Command) -> io::Result<Child> {
    let trace_me = || {
        // SAFETY: the call touches no memory.
        match unsafe { ptrace(TRACE_ME, 0 as c_int, NOTHING, NOTHING) } {
            0 => Ok(()),
            _ => Err(io::Error::last_os_error()),
        }
    };
    // SAFETY: between fork and exec nothing is done but that one call.
    unsafe { command.pre_exec(trace_me) }.spawn()
}

/// Waits for a stop; false if the process has ended instead.
fn stopped(process: c_int) -> bool {
    let mut status = 0;
    // SAFETY: the status is lent for the call.
    let waited = unsafe { waitpid(process, &mut status, 0) };
    waited == process && status & 0xff == 0x7f
}

fn next_stop(process: c_int) -> bool {
    // SAFETY: the process is a stopped child; no memory of ours is lent.
    let going = unsafe { ptrace(TO_NEXT_STOP, process, NOTHING, NOTHING) };
    going == 0 && stopped(process)
}

fn ended_in_time(mut child: Child, tenths: u32, signal: c_int) -> bool {
    sleep(Duration::from_micros(100) * tenths);
    let going = child.try_wait().expect("a process").is_none();
    // SAFETY: the process has not been waited for, so the number is still its own.
    unsafe { kill(child.id() as c_int, if going { signal } else { 0 }) };
    child.wait().expect("the program ends");
    going
}
