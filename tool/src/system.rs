//! System calls that the standard library lacks: locks of a whole file, who holds
//! them, and whether standard output was open. The only module with unsafe code.

use std::fs::File;
use std::io;
use std::os::fd::AsRawFd;
use std::sync::atomic::{AtomicBool, Ordering};

/// Whether a lock was got.
#[derive(Clone, Copy, Debug, PartialEq, Eq)]
pub enum Lock {
    /// It is held until the file is closed.
    Held,
    /// Somebody else holds it.
    Refused,
    /// The file system has no such locks.
    Unsupported,
}

/// Asks for the lock that runs of this command hold against each other (flock), without waiting.
pub fn lock_among_tools(file: &File) -> io::Result<Lock> {
    // The descriptor is open for the whole call.
    got(unsafe { libc::flock(file.as_raw_fd(), libc::LOCK_EX | libc::LOCK_NB) })
}

/// Asks for the record lock on the whole file that a running terminal holds, without waiting. The file is open for
/// writing. The lock is lost when this process closes any descriptor of the file.
pub fn lock_record(file: &File) -> io::Result<Lock> {
    let whole = whole_file();
    // The structure lives through the call, which only reads it.
    got(unsafe { libc::fcntl(file.as_raw_fd(), libc::F_SETLK, &raw const whole) })
}

/// The process that holds a record lock on the file; 0 where it is not of this machine.
pub fn record_holder(file: &File) -> io::Result<Option<u32>> {
    let mut found = whole_file();
    // The structure lives through the call, which writes it.
    match unsafe { libc::fcntl(file.as_raw_fd(), libc::F_GETLK, &raw mut found) } {
        -1 => Err(io::Error::last_os_error()),
        _ if found.l_type == libc::F_UNLCK as libc::c_short => Ok(None),
        _ => Ok(Some(u32::try_from(found.l_pid).unwrap_or(0))),
    }
}

static OUTPUT_CLOSED: AtomicBool = AtomicBool::new(false);

/// The system calls it before the standard library begins, which opens /dev/null instead of a closed output.
#[used]
#[link_section = ".init_array"]
static LOOK_AT_OUTPUT: extern "C" fn() = look_at_output;

extern "C" fn look_at_output() {
    // Any number is allowed here: of one that is not open the call says so.
    let open = unsafe { libc::fcntl(libc::STDOUT_FILENO, libc::F_GETFD) } != -1;
    OUTPUT_CLOSED.store(!open, Ordering::Relaxed);
}

/// How many columns the screen has that shows standard output.
pub fn columns_of_output() -> Option<u16> {
    let mut size = libc::winsize { ws_row: 0, ws_col: 0, ws_xpixel: 0, ws_ypixel: 0 };
    // The structure lives through the call, which writes it.
    let done = unsafe { libc::ioctl(libc::STDOUT_FILENO, libc::TIOCGWINSZ, &raw mut size) };
    (done == 0 && size.ws_col > 0).then_some(size.ws_col)
}

/// Whether standard output was closed when the command began: what is written to it is then seen by nobody.
pub fn output_is_closed() -> bool {
    OUTPUT_CLOSED.load(Ordering::Relaxed)
}

fn whole_file() -> libc::flock {
    libc::flock {
        l_type: libc::F_WRLCK as libc::c_short,
        l_whence: libc::SEEK_SET as libc::c_short,
        l_start: 0,
        l_len: 0,
        l_pid: 0,
    }
}

fn got(result: libc::c_int) -> io::Result<Lock> {
    if result != -1 {
        return Ok(Lock::Held);
    }
    let error = io::Error::last_os_error();
    match error.raw_os_error() {
        Some(libc::EAGAIN | libc::EACCES) => Ok(Lock::Refused),
        Some(libc::ENOLCK | libc::ENOSYS | libc::EOPNOTSUPP) => Ok(Lock::Unsupported),
        _ => Err(error),
    }
}
