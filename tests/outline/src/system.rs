//! What the tests ask of the system beside the standard library (Linux).

use std::fs::File;
use std::os::raw::{c_int, c_ulong};
use std::os::unix::io::{AsRawFd, FromRawFd};

extern "C" {
    fn pipe2(ends: *mut c_int, flags: c_int) -> c_int;
    fn fcntl(end: c_int, command: c_int, ...) -> c_int;
    fn ioctl(end: c_int, request: c_ulong, ...) -> c_int;
    fn close(end: c_int) -> c_int;
    fn signal(number: c_int, action: usize) -> usize;
    fn getrlimit(resource: c_int, limit: *mut Limit) -> c_int;
    fn setrlimit(resource: c_int, limit: *const Limit) -> c_int;
}

/// How much of something a process may have, and the most that may be set.
#[repr(C)]
#[derive(Default)]
struct Limit {
    now: u64,
    most: u64,
}

const RLIMIT_STACK: c_int = 3;

const O_CLOEXEC: c_int = 0o2_000_000;
const O_NONBLOCK: c_int = 0o4000;
const F_GETFL: c_int = 3;
const F_SETFL: c_int = 4;
const F_SETPIPE_SZ: c_int = 1031;
const FIONREAD: c_ulong = 0x541B;
const SIG_IGN: usize = 1;

/// The signal of a write to a pipe that nobody reads.
pub const SIGPIPE: c_int = 13;

/// The signal of a stack that is used up.
pub const SIGSEGV: c_int = 11;

/// A pipe. Neither end is left open in a program that another thread starts.
pub struct Pipe {
    pub read: File,
    pub write: File,
}

impl Pipe {
    pub fn new() -> Pipe {
        let mut ends = [0; 2];
        // SAFETY: there is room for both ends, which nobody else has.
        let [read, write] = unsafe {
            assert_eq!(pipe2(ends.as_mut_ptr(), O_CLOEXEC), 0);
            ends.map(|end| File::from_raw_fd(end))
        };
        Pipe { read, write }
    }

    /// A pipe with room for one page, the least that there is.
    pub fn small() -> Pipe {
        let pipe = Pipe::new();
        // SAFETY: the command takes a number.
        let room = unsafe { fcntl(pipe.write.as_raw_fd(), F_SETPIPE_SZ, 4096 as c_int) };
        assert_eq!(room, 4096);
        pipe
    }
}

impl Default for Pipe {
    fn default() -> Pipe {
        Pipe::new()
    }
}

/// Reads and writes of this end do not wait, in whatever process.
pub fn do_not_wait(end: &File) {
    let end = end.as_raw_fd();
    // SAFETY: the commands take no address.
    let set = unsafe { fcntl(end, F_SETFL, fcntl(end, F_GETFL) | O_NONBLOCK) };
    assert_eq!(set, 0);
}

/// How many bytes of a pipe have not been read.
pub fn unread(end: &File) -> c_int {
    let mut count: c_int = 0;
    // SAFETY: the request writes one number.
    let done = unsafe { ioctl(end.as_raw_fd(), FIONREAD, &mut count as *mut c_int) };
    assert_eq!(done, 0);
    count
}

/// Standard input is closed.
pub fn close_input() {
    // SAFETY: nothing of this process uses it.
    unsafe { close(0) };
}

/// Standard output is closed.
pub fn close_output() {
    // SAFETY: nothing of this process uses it.
    unsafe { close(1) };
}

/// A write to a pipe that nobody reads fails, and no signal comes.
pub fn ignore_broken_pipes() {
    // SAFETY: no function is called by the signal.
    unsafe { signal(SIGPIPE, SIG_IGN) };
}

/// A program that this process becomes has so large a stack.
pub fn limit_stack(bytes: u64) {
    let mut limit = Limit::default();
    // SAFETY: both calls have the address of a limit.
    unsafe {
        getrlimit(RLIMIT_STACK, &mut limit);
        limit.now = bytes;
        setrlimit(RLIMIT_STACK, &limit);
    }
}

/// Standard output, written without a buffer. It is closed with the file.
pub fn output() -> File {
    // SAFETY: the descriptor is open, or writing fails.
    unsafe { File::from_raw_fd(1) }
}
