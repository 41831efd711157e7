//! Files that are read, no further than they may be long, and output that appears whole or not at all.

use std::ffi::OsStr;
use std::fs::{self, File, OpenOptions};
use std::io::{self, ErrorKind, Read, Write};
use std::os::unix::fs::OpenOptionsExt;
use std::path::{Path, PathBuf};
use std::process;
use std::time::{SystemTime, UNIX_EPOCH};

use crate::failure::{Failure, Named};
use crate::secret::Secret;
use crate::{streams, system};

/// Modes of new files: for their owner alone, or as the umask has it.
pub const OWNER: u32 = 0o600;
pub const ANYONE: u32 = 0o666;

/// What is read from a file or, where the path is `-`, from standard input.
pub struct Source {
    pub named: Named,
    piped: bool,
}

impl Source {
    pub fn new(what: &'static str, path: &OsStr) -> Source {
        let piped = path == "-";
        let named = if piped {
            Named::new(what, "on standard input")
        } else {
            Named::new(what, path)
        };
        Source { named, piped }
    }

    /// A file of a station's folder, where `-` is a name like any other.
    pub fn within(what: &'static str, folder: &OsStr, name: &str) -> Source {
        let named = Named::new(what, Path::new(folder).join(name));
        Source {
            named,
            piped: false,
        }
    }

    /// All of it, or of a longer one as many bytes as the longest right one has and one more, which are refused all the
    /// same.
    pub fn read(&self, longest: usize) -> Result<Secret, Failure> {
        self.bytes(longest + 1)
            .map_err(|error| self.named.failed(error))
    }

    fn bytes(&self, most: usize) -> io::Result<Secret> {
        if self.piped {
            return front(streams::input, most);
        }
        let mut file = File::open(&self.named.place)?;
        let length = file.metadata()?.len() as usize;
        // A length of 0 may be that of a pipe or a device.
        if length == 0 {
            return front(|room| file.read(room), most);
        }
        let bytes = front(|room| file.read(room), most.min(length + 1))?;
        if bytes.len() != most.min(length) {
            return Err(io::Error::new(
                ErrorKind::Other,
                "it changed while it was read",
            ));
        }
        Ok(bytes)
    }
}

/// The first bytes that a stream has, straight into their buffer.
fn front(mut read: impl FnMut(&mut [u8]) -> io::Result<usize>, most: usize) -> io::Result<Secret> {
    let mut bytes = Secret::zeros(most);
    let mut length = 0;
    while length < most {
        match read(&mut bytes[length..]) {
            Ok(0) => break,
            Ok(count) => length += count,
            Err(error) if error.kind() == ErrorKind::Interrupted => (),
            Err(error) => return Err(error),
        }
    }
    bytes.shorten(length);
    Ok(bytes)
}

/// Where a command's output goes: a new file or, where the path is `-`, standard output.
pub struct Output {
    named: Named,
    mode: u32,
    pub piped: bool,
}

impl Output {
    /// One that is not there yet. This is looked up before any work, and decided when it is written.
    pub fn new(path: &OsStr, mode: u32) -> Result<Output, Failure> {
        if path == "-" {
            let named = Named::new("the output", "on standard output");
            return Ok(Output {
                named,
                mode,
                piped: true,
            });
        }
        let named = Named::new("the output", path);
        if Path::new(path).symlink_metadata().is_ok() {
            return Err(named.there());
        }
        Ok(Output {
            named,
            mode,
            piped: false,
        })
    }

    /// Writes all of it, and then does what must be done before it appears. A file is written beside its place under a
    /// hidden name, is on the disk, and then gets its own; a signal meanwhile is noted and ends it.
    pub fn write(
        &self,
        bytes: &[u8],
        before: impl FnOnce() -> Result<(), Failure>,
    ) -> Result<(), Failure> {
        if self.piped {
            streams::output(bytes).map_err(|error| self.named.failed(error))?;
            return before();
        }
        system::note_signals();
        let beside = Path::new(&self.named.place).with_file_name(hidden("bowlinette"));
        let mut file = create(&beside, self.mode).map_err(|error| self.named.failed(error))?;
        let written = file.write_all(bytes).and_then(|()| file.sync_all());
        let written = written.map_err(|error| self.named.failed(error));
        let appeared = written.and_then(|()| before()).and_then(|()| {
            if system::stopped() {
                return Err(self.named.failed(system::interrupted()));
            }
            self.named.appear(&beside)
        });
        if appeared.is_err() {
            let _ = fs::remove_file(&beside);
        }
        appeared
    }
}

/// A file that was not there.
pub fn create(path: &Path, mode: u32) -> io::Result<File> {
    let mut options = OpenOptions::new();
    options.write(true).create_new(true).mode(mode).open(path)
}

/// A hidden name that no other process has.
pub fn hidden(start: &str) -> PathBuf {
    let now = SystemTime::now().duration_since(UNIX_EPOCH);
    let nanoseconds = now.map_or(0, |since| since.as_nanos());
    format!(".{start}-{}-{nanoseconds}", process::id()).into()
}
