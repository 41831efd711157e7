//! Standard input and output. A stream that was closed when the program began is an error, as it is for other
//! programs, and no empty input or lost output. Nothing goes through a buffer, in which it would stay.

use std::fs::File;
use std::io::{self, Read, Write};
use std::mem::ManuallyDrop;
use std::os::raw::c_int;
use std::os::unix::io::FromRawFd;
use std::sync::atomic::{AtomicBool, Ordering};

use crate::failure::{Failure, Named};
use crate::system;

static CLOSED: [AtomicBool; 2] = [AtomicBool::new(false), AtomicBool::new(false)];

const INPUT: usize = 0;
const OUTPUT: usize = 1;

/// Notes which of the two are closed; must come before the Rust runtime, which opens them.
pub extern "C" fn note_closed() {
    for (stream, closed) in CLOSED.iter().enumerate() {
        closed.store(!system::is_open(stream as c_int), Ordering::Relaxed);
    }
}

fn open(stream: usize) -> io::Result<ManuallyDrop<File>> {
    if CLOSED[stream].load(Ordering::Relaxed) {
        return Err(io::Error::from_raw_os_error(system::EBADF));
    }
    // Sound because the stream is open, and is not closed when the file is dropped, as it never is.
    let file = unsafe { File::from_raw_fd(stream as c_int) };
    Ok(ManuallyDrop::new(file))
}

/// The front of standard input, as much of it as there is room for at once: how many bytes were read.
pub fn input(room: &mut [u8]) -> io::Result<usize> {
    open(INPUT)?.read(room)
}

/// Writes to standard output.
pub fn output(bytes: &[u8]) -> io::Result<()> {
    open(OUTPUT)?.write_all(bytes)
}

/// Prints a command's result.
pub fn print(text: &str) -> Result<(), Failure> {
    output(text.as_bytes()).map_err(|error| Named::new("standard", "output").failed(error))
}

/// Tells a person something beside the result; that it cannot be told is no failure.
pub fn tell(text: &str) {
    let _ = io::stderr().write_all(text.as_bytes());
}
