//! What the tests ask of the system itself, by the functions of the C library.

use std::ffi::{CStr, CString};
use std::fs::File;
use std::io::{self, Write};
use std::os::raw::{c_char, c_int, c_ulong, c_void};
use std::os::unix::io::FromRawFd;
use std::os::unix::process::CommandExt;
use std::process::{Command, Stdio};

const HANG_UP: c_int = 1;
pub const INTERRUPT: c_int = 2;
pub const KILL: c_int = 9;
pub const TERMINATE: c_int = 15;

/// Who may nothing, and another one who has no other process.
const NOBODY: u32 = 65_534;
const NOBODY_ELSE: u32 = 65_533;

/// The limits on the length of a file, on processes and threads, and on memory.
const FILE_LENGTH: c_int = 1;
const PROCESSES: c_int = 6;
const MEMORY: c_int = 9;

const READ_AND_WRITE: c_int = 2;
const CLOSED_ON_START: c_int = 0o2_000_000;
const NEW_MOUNTS: c_int = 0x0002_0000;
const PRIVATE_ALL: c_ulong = 0x0004_0000 | 0x4000;

mod c {
    use super::*;

    extern "C" {
        pub fn kill(id: c_int, signal: c_int) -> c_int;
        pub fn geteuid() -> u32;
        pub fn pipe2(ends: *mut c_int, flags: c_int) -> c_int;
        pub fn mkfifo(path: *const c_char, mode: u32) -> c_int;
        pub fn setrlimit(what: c_int, limit: *const [c_ulong; 2]) -> c_int;
        pub fn signal(signal: c_int, handler: usize) -> usize;
        pub fn posix_openpt(flags: c_int) -> c_int;
        pub fn grantpt(terminal: c_int) -> c_int;
        pub fn unlockpt(terminal: c_int) -> c_int;
        pub fn ptsname_r(terminal: c_int, name: *mut c_char, room: usize) -> c_int;
        pub fn unshare(what: c_int) -> c_int;
        pub fn mount(
            from: *const c_char,
            at: *const c_char,
            kind: *const c_char,
            flags: c_ulong,
            options: *const c_void,
        ) -> c_int;
    }
}

/// What a function of the C library says, as a result.
pub fn told(answer: c_int) -> io::Result<()> {
    is_yes(answer == 0)
}

/// The same, by whether it did what it should.
pub fn is_yes(yes: bool) -> io::Result<()> {
    match yes {
        true => Ok(()),
        false => Err(io::Error::last_os_error()),
    }
}

fn text(text: &str) -> CString {
    CString::new(text).expect("no zero byte")
}

/// Sends a signal to a process that the test has started.
pub fn signal(id: u32, signal: c_int) {
    let _ = unsafe { c::kill(id as c_int, signal) };
}

pub fn is_root() -> bool {
    unsafe { c::geteuid() == 0 }
}

/// Makes a command run as one whom permissions bind: as it is, where the test is not root's.
pub fn bound(command: &mut Command) -> &mut Command {
    if is_root() {
        command.uid(NOBODY).gid(NOBODY);
    }
    command
}

fn limited(command: &mut Command, what: c_int, limit: c_ulong) -> &mut Command {
    let set = move || told(unsafe { c::setrlimit(what, &[limit; 2]) });
    unsafe { command.pre_exec(set) }
}

/// Lets a command be ended by signals, also where the tests are not: what is started in the background, as the tests
/// may be, ignores some of them, and so does what it starts.
pub fn heeding_signals(command: &mut Command) -> &mut Command {
    const AS_EVER: usize = 0;
    let heed = || {
        for number in [HANG_UP, INTERRUPT, TERMINATE] {
            unsafe { c::signal(number, AS_EVER) };
        }
        Ok(())
    };
    unsafe { command.pre_exec(heed) }
}

/// Lets a command write files of no more than so many bytes.
pub fn with_short_files(command: &mut Command, bytes: u64) -> &mut Command {
    limited(command, FILE_LENGTH, bytes)
}

/// Lets a command start no thread. Root is not bound by that.
pub fn without_threads(command: &mut Command) -> &mut Command {
    if is_root() {
        command.uid(NOBODY_ELSE).gid(NOBODY_ELSE);
    }
    limited(command, PROCESSES, 1)
}

/// Lets a command have no more than so many bytes of memory.
pub fn with_memory(command: &mut Command, bytes: u64) -> &mut Command {
    limited(command, MEMORY, bytes)
}

/// A pipe: the end to read from, and the one to write to.
pub fn pipe() -> (File, File) {
    let mut ends = [0; 2];
    told(unsafe { c::pipe2(ends.as_mut_ptr(), CLOSED_ON_START) }).expect("a pipe");
    let [read, write] = ends.map(|end| unsafe { File::from_raw_fd(end) });
    (read, write)
}

/// A terminal: the end of whoever sits at it, and that of programs.
pub fn terminal() -> io::Result<(File, File)> {
    let mut name = [0; 64];
    let (person, path) = unsafe {
        let end = c::posix_openpt(READ_AND_WRITE);
        is_yes(end >= 0)?;
        let person = File::from_raw_fd(end);
        told(c::grantpt(end))?;
        told(c::unlockpt(end))?;
        told(c::ptsname_r(end, name.as_mut_ptr(), name.len()))?;
        (person, CStr::from_ptr(name.as_ptr()))
    };
    let path = path.to_str().expect("a path");
    Ok((person, File::options().write(true).open(path)?))
}

/// A pipe that nobody reads from. For an instant a process that another test starts may have the other end too.
pub fn broken_pipe() -> Stdio {
    let (read, mut write) = pipe();
    drop(read);
    while write.write_all(b"?").is_ok() {}
    write.into()
}

/// A named pipe: its path.
pub fn named_pipe(path: String) -> String {
    told(unsafe { c::mkfifo(text(&path).as_ptr(), 0o600) }).expect("a named pipe");
    path
}

/// Gives this thread, and what it starts, a small disk of so many bytes at a folder, until the thread ends.
pub fn with_small_disk(folder: &str, bytes: usize) -> io::Result<()> {
    let (none, root, kind, at) = (text("none"), text("/"), text("tmpfs"), text(folder));
    let options = text(&format!("size={bytes}"));
    unsafe {
        told(c::unshare(NEW_MOUNTS))?;
        let (from, no_options) = (none.as_ptr(), std::ptr::null());
        told(c::mount(from, root.as_ptr(), from, PRIVATE_ALL, no_options))?;
        let options = options.as_ptr().cast();
        told(c::mount(from, at.as_ptr(), kind.as_ptr(), 0, options))
    }
}
