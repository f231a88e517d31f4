//! The few calls of the system that Rust's standard library lacks: opening, moving and removing by a folder held open.

use std::ffi::{c_char, c_int, c_uint, CStr};
use std::fs::File;
use std::io;
use std::os::fd::{AsRawFd, BorrowedFd, FromRawFd};

// The numbers below are those of this system, and so is the static library.
#[cfg(not(all(target_os = "linux", target_arch = "x86_64")))]
compile_error!("boomcrutch is made for Linux on x86-64");

extern "C" {
    fn openat(folder: c_int, name: *const c_char, flags: c_int, ...) -> c_int;
    fn unlinkat(folder: c_int, name: *const c_char, flags: c_int) -> c_int;
    fn renameat2(folder: c_int, name: *const c_char, to: c_int, new: *const c_char, flags: c_uint) -> c_int;
    fn signal(number: c_int, handler: usize) -> usize;
}

const AT_FDCWD: c_int = -100;
const O_WRONLY: c_int = 0o1;
const O_CREAT: c_int = 0o100;
const O_EXCL: c_int = 0o200;
const O_NOCTTY: c_int = 0o400;
const O_NONBLOCK: c_int = 0o4000;
const O_DIRECTORY: c_int = 0o200000;
const O_NOFOLLOW: c_int = 0o400000;
const O_CLOEXEC: c_int = 0o2000000;
const O_PATH: c_int = 0o10000000;
const RENAME_NOREPLACE: c_uint = 1;
const SIGXFSZ: c_int = 25;
const SIG_IGN: usize = 1;

/// What to open for.
#[derive(Clone, Copy)]
pub enum Purpose {
    /// To look at what it is, a link included, and to go on from it if it is a folder.
    Look,
    /// To read a file. Never waits for the other end of a pipe.
    Read,
    /// To sync a folder.
    Sync,
    /// To write a file that is not there yet.
    Create,
}

/// Opens a single name in a folder (the working folder: none), never through a link.
pub fn open(folder: Option<BorrowedFd>, name: &CStr, purpose: Purpose) -> io::Result<File> {
    let flags = match purpose {
        Purpose::Look => O_PATH,
        Purpose::Read => O_NONBLOCK | O_NOCTTY,
        Purpose::Sync => O_DIRECTORY,
        Purpose::Create => O_WRONLY | O_CREAT | O_EXCL | O_NOCTTY,
    };
    let folder = folder.map_or(AT_FDCWD, |folder| folder.as_raw_fd());
    let mode: c_uint = 0o666;
    let opened = checked(|| unsafe { openat(folder, name.as_ptr(), flags | O_NOFOLLOW | O_CLOEXEC, mode) })?;
    Ok(unsafe { File::from_raw_fd(opened) })
}

/// Removes a file from a folder.
pub fn remove(folder: BorrowedFd, name: &CStr) -> io::Result<()> {
    checked(|| unsafe { unlinkat(folder.as_raw_fd(), name.as_ptr(), 0) }).map(|_| ())
}

/// Gives a file another name in the same folder, at once or not at all; what has that name goes, if it may be replaced.
pub fn rename(folder: BorrowedFd, name: &CStr, new: &CStr, replace: bool) -> io::Result<()> {
    let flags = if replace { 0 } else { RENAME_NOREPLACE };
    let folder = folder.as_raw_fd();
    checked(|| unsafe { renameat2(folder, name.as_ptr(), folder, new.as_ptr(), flags) }).map(|_| ())
}

/// Makes a file beyond the size limit an error of the write, as a full disk is, and not the end of the program.
pub fn size_limit_is_an_error() {
    unsafe { signal(SIGXFSZ, SIG_IGN) };
}

/// The answer of a call, its error if it is negative; once more if a signal came between.
fn checked(call: impl Fn() -> c_int) -> io::Result<c_int> {
    loop {
        let answer = call();
        let error = io::Error::last_os_error();
        match (answer, error.kind()) {
            (0.., _) => return Ok(answer),
            (_, io::ErrorKind::Interrupted) => {}
            _ => return Err(error),
        }
    }
}
