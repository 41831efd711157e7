//! The few functions of the C library that Rust's standard library does not have. The numbers are those of x86-64
//! Linux, for which the proved library is built. Where nothing else is said a call is sound because it is given
//! numbers alone.

use std::ffi::CString;
use std::fs::{self, File};
use std::io::{self, Read};
use std::os::raw::{c_char, c_int, c_uint, c_ulong, c_void};
use std::os::unix::ffi::OsStrExt;
use std::os::unix::io::AsRawFd;
use std::path::Path;
use std::sync::atomic::{AtomicBool, Ordering};

mod c {
    use super::{c_char, c_int, c_uint, c_void};

    extern "C" {
        pub fn isatty(stream: c_int) -> c_int;
        pub fn fcntl(stream: c_int, command: c_int, ...) -> c_int;
        pub fn flock(file: c_int, operation: c_int) -> c_int;
        pub fn prctl(option: c_int, ...) -> c_int;
        pub fn getrandom(room: *mut u8, length: usize, flags: c_uint) -> isize;
        pub fn madvise(start: *mut c_void, length: usize, advice: c_int) -> c_int;
        pub fn signal(number: c_int, handler: usize) -> usize;
        pub fn renameat2(
            from_folder: c_int,
            from: *const c_char,
            to_folder: c_int,
            to: *const c_char,
            flags: c_uint,
        ) -> c_int;
    }
}

/// "Bad file descriptor": what a closed stream is.
pub const EBADF: i32 = 9;
const EINVAL: i32 = 22;

/// Whether a standard stream, 0 to 2, is a terminal.
pub fn is_terminal(stream: c_int) -> bool {
    unsafe { c::isatty(stream) == 1 }
}

/// Whether a standard stream, 0 to 2, is open.
pub fn is_open(stream: c_int) -> bool {
    const F_GETFD: c_int = 1;
    unsafe { c::fcntl(stream, F_GETFD) != -1 }
}

/// Whether this process got the lock on a file or folder, which it holds until it ends or the file is closed; it may
/// wait for it. Where a file system has no locks nobody gets one.
pub fn lock(file: &File, wait: bool) -> bool {
    const LOCK_EX: c_int = 2;
    const LOCK_NB: c_int = 4;
    let operation = if wait { LOCK_EX } else { LOCK_EX | LOCK_NB };
    unsafe { c::flock(file.as_raw_fd(), operation) == 0 }
}

const SIG_IGN: usize = 1;

/// Before anything is read: no core file, which would have secrets, and no other program of the same user looks into
/// this one; and a file that grows over a limit is an error of its writing, which does not end the program.
pub fn begin() {
    const PR_SET_DUMPABLE: c_int = 4;
    const SIGXFSZ: c_int = 25;
    let no: c_ulong = 0;
    unsafe {
        c::prctl(PR_SET_DUMPABLE, no);
        c::signal(SIGXFSZ, SIG_IGN);
    }
}

/// Asks for huge pages for memory that was not used yet. Where there are none it is as slow as ever.
pub fn in_huge_pages(memory: &[u8]) {
    const MADV_HUGEPAGE: c_int = 14;
    // Sound because the advice changes no byte.
    let start = memory.as_ptr() as *mut c_void;
    unsafe { c::madvise(start, memory.len(), MADV_HUGEPAGE) };
}

/// The system's generator of random bytes. It waits until the system has randomness enough, which is once.
pub struct Generator;

impl Read for Generator {
    fn read(&mut self, room: &mut [u8]) -> io::Result<usize> {
        // Sound because pointer and length are those of one reference.
        let count = unsafe { c::getrandom(room.as_mut_ptr(), room.len(), 0) };
        usize::try_from(count).map_err(|_| io::Error::last_os_error())
    }
}

static STOPPED: AtomicBool = AtomicBool::new(false);

extern "C" fn stop(_: c_int) {
    STOPPED.store(true, Ordering::Relaxed);
}

/// From now on the signals by which a person or the system ends a program are noted, and do not end it; those that
/// are ignored stay so.
pub fn note_signals() {
    const HANGUP_INTERRUPT_TERMINATE: [c_int; 3] = [1, 2, 15];
    let handler = stop as extern "C" fn(c_int);
    for number in HANGUP_INTERRUPT_TERMINATE {
        // Sound because the handler does nothing but store into an atomic.
        unsafe {
            if c::signal(number, handler as usize) == SIG_IGN {
                c::signal(number, SIG_IGN);
            }
        }
    }
}

/// Whether such a signal has come.
pub fn stopped() -> bool {
    STOPPED.load(Ordering::Relaxed)
}

/// That one has come, as an error.
pub fn interrupted() -> io::Error {
    io::Error::new(io::ErrorKind::Interrupted, "stopped by a signal")
}

/// Gives a file or folder another name, on which there must be nothing. Where the file system cannot do that in
/// one step, a file gets its new name before it loses the old one, and of a folder's it is looked up.
pub fn rename_to_new(from: &Path, to: &Path) -> io::Result<()> {
    const HERE: c_int = -100;
    const NOREPLACE: c_uint = 1;
    let [old, new] = [from, to].map(|path| CString::new(path.as_os_str().as_bytes()));
    let (old, new) = (old?, new?);
    // Sound because both strings end in a zero and outlive the call.
    let answer = unsafe { c::renameat2(HERE, old.as_ptr(), HERE, new.as_ptr(), NOREPLACE) };
    if answer == 0 {
        return Ok(());
    }
    let error = io::Error::last_os_error();
    match error.raw_os_error() {
        Some(EINVAL) => rename_in_steps(from, to),
        _ => Err(error),
    }
}

fn rename_in_steps(from: &Path, to: &Path) -> io::Result<()> {
    if from.is_file() {
        fs::hard_link(from, to)?;
        return fs::remove_file(from);
    }
    if to.symlink_metadata().is_ok() {
        return Err(io::ErrorKind::AlreadyExists.into());
    }
    fs::rename(from, to)
}

#[cfg(test)]
mod tests {
    use super::{rename_in_steps, rename_to_new};
    use std::fs;
    use std::io::ErrorKind;

    /// By one step and by several: a file and a folder get a new name, and nothing is replaced.
    #[test]
    fn names_that_are_new() {
        for (way, rename) in [
            ("one", rename_to_new as fn(&_, &_) -> _),
            ("steps", rename_in_steps),
        ] {
            let folder = std::env::temp_dir().join(format!("names-{way}-{}", std::process::id()));
            let at = |name: &str| folder.join(name);
            fs::create_dir_all(at("a folder")).unwrap();
            fs::create_dir(at("there")).unwrap();
            fs::write(at("a file"), "new").unwrap();
            fs::write(at("old"), "old").unwrap();
            for from in ["a file", "a folder"] {
                for to in ["there", "old"] {
                    let error = rename(&at(from), &at(to)).unwrap_err();
                    assert_eq!(error.kind(), ErrorKind::AlreadyExists, "{way} {from} {to}");
                }
                rename(&at(from), &at(&format!("{from} again"))).unwrap();
            }
            assert_eq!(fs::read(at("a file again")).unwrap(), b"new");
            assert_eq!(fs::read(at("old")).unwrap(), b"old");
            assert!(
                at("a folder again").is_dir() && !at("a file").exists() && !at("a folder").exists()
            );
            fs::remove_dir_all(&folder).unwrap();
        }
    }
}
