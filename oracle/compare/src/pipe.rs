//! What the standard library does not say of pipes and processes: calls of the C library, which it links.

use std::ffi::{CString, c_char, c_int, c_short, c_uint, c_ulong};
use std::fs::File;
use std::io;
use std::os::fd::{AsFd, AsRawFd};
use std::os::unix::ffi::OsStrExt;
use std::os::unix::fs::OpenOptionsExt;
use std::os::unix::process::CommandExt;
use std::path::Path;
use std::process::Command;

unsafe extern "C" {
    fn fcntl(fd: c_int, command: c_int, ...) -> c_int;
    fn mkfifo(path: *const c_char, mode: c_uint) -> c_int;
    fn ioctl(fd: c_int, request: c_ulong, ...) -> c_int;
    fn poll(fds: *mut PollFd, count: c_ulong, timeout: c_int) -> c_int;
    fn signal(number: c_int, handler: usize) -> usize;
}

#[repr(C)]
struct PollFd {
    fd: c_int,
    events: c_short,
    revents: c_short,
}

// Linux's numbers.
const F_GETFL: c_int = 3;
const F_SETFL: c_int = 4;
const O_NONBLOCK: c_int = 0o4000;
const FIONREAD: c_ulong = 0x541b;
const POLLERR: c_short = 8;
const POLLHUP: c_short = 16;
const SIGPIPE: c_int = 13;
const SIG_IGN: usize = 1;

fn done(result: c_int) -> io::Result<c_int> {
    if result < 0 {
        return Err(io::Error::last_os_error());
    }
    Ok(result)
}

/// Makes an end of a pipe one that does not wait, for every process that has it.
pub fn unwaiting(end: &impl AsFd) -> io::Result<()> {
    let fd = end.as_fd().as_raw_fd();
    // SAFETY: the descriptor is open as long as it is borrowed; no memory is lent.
    let flags = done(unsafe { fcntl(fd, F_GETFL) })?;
    done(unsafe { fcntl(fd, F_SETFL, flags | O_NONBLOCK) })?;
    Ok(())
}

/// Makes a FIFO of this name.
pub fn fifo(path: &Path) -> io::Result<()> {
    let name = CString::new(path.as_os_str().as_bytes())?;
    // SAFETY: the call reads the name, which ends in a NUL.
    done(unsafe { mkfifo(name.as_ptr(), 0o600) })?;
    Ok(())
}

/// The end of a FIFO to write to, which does not wait; it fails where no one has the other.
pub fn unwaiting_writer(path: &Path) -> io::Result<File> {
    let mut options = File::options();
    options.write(true).custom_flags(O_NONBLOCK).open(path)
}

/// How many bytes a pipe holds that no one has read.
pub fn held(end: &impl AsFd) -> io::Result<usize> {
    let mut count: c_int = 0;
    // SAFETY: the call writes one int.
    done(unsafe { ioctl(end.as_fd().as_raw_fd(), FIONREAD, &raw mut count) })?;
    Ok(count as usize)
}

/// Whether no one is left at the other end of a pipe.
pub fn alone(end: &impl AsFd) -> io::Result<bool> {
    let mut asked = PollFd {
        fd: end.as_fd().as_raw_fd(),
        events: 0,
        revents: 0,
    };
    // SAFETY: the call reads and writes one such struct.
    done(unsafe { poll(&raw mut asked, 1, 0) })?;
    Ok(asked.revents & (POLLERR | POLLHUP) != 0)
}

/// Has the program started with broken pipes ignored, as some programs start others; by default they end it.
pub fn ignoring_broken_pipes(command: &mut Command) {
    let ignore = || {
        // SAFETY: `signal` may be called between fork and exec.
        unsafe { signal(SIGPIPE, SIG_IGN) };
        Ok(())
    };
    // SAFETY: as above.
    unsafe { command.pre_exec(ignore) };
}
