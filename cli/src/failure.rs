//! What went wrong, as the exit status and as the one line that is printed.

use std::ffi::{OsStr, OsString};
use std::fmt::{self, Display, Formatter};
use std::io;
use std::path::Path;

use crate::{refusals, system};

/// The exit statuses.
pub const DONE: u8 = 0;
pub const INVALID: u8 = 1;
const REFUSED: u8 = 2;
const SYSTEM: u8 = 3;
const USAGE: u8 = 64;

/// A thing that is read or written, and where: "the key" and its path.
#[derive(Clone, Debug)]
pub struct Named {
    pub what: &'static str,
    pub place: OsString,
}

impl Named {
    pub fn new(what: &'static str, place: impl AsRef<OsStr>) -> Named {
        let place = place.as_ref().to_owned();
        Named { what, place }
    }

    /// The failure that it was refused by the library.
    pub fn refused(&self, number: u32) -> Failure {
        Failure::Refused {
            named: self.clone(),
            number,
            record: None,
        }
    }

    /// The failure that the system said no.
    pub fn failed(&self, error: io::Error) -> Failure {
        let named = self.clone();
        Failure::System { named, error }
    }

    /// The failure that something is there already where it was to be written.
    pub fn there(&self) -> Failure {
        self.failed(io::Error::new(
            io::ErrorKind::AlreadyExists,
            "it is there already",
        ))
    }

    /// Lets a file or folder that was written beside appear in its place, where nothing may be.
    pub fn appear(&self, beside: &Path) -> Result<(), Failure> {
        let renamed = system::rename_to_new(beside, Path::new(&self.place));
        renamed.map_err(|error| match error.kind() {
            io::ErrorKind::AlreadyExists => self.there(),
            _ => self.failed(error),
        })
    }
}

impl Display for Named {
    /// On one line: control characters of a path are shown as question marks.
    fn fmt(&self, f: &mut Formatter) -> fmt::Result {
        let shown: String = self.place.to_string_lossy().replace(char::is_control, "?");
        write!(f, "{} {shown}", self.what)
    }
}

/// Why a command ends without having done what it was asked.
#[derive(Debug)]
pub enum Failure {
    /// The library refused what was read, or a record of it that begins at an offset.
    Refused {
        named: Named,
        number: u32,
        record: Option<usize>,
    },
    /// The system said no.
    System { named: Named, error: io::Error },
    /// The command was called in a way that it does not know.
    Usage(String),
}

impl Failure {
    pub fn status(&self) -> u8 {
        match self {
            Failure::Refused { .. } => REFUSED,
            Failure::System { .. } => SYSTEM,
            Failure::Usage(_) => USAGE,
        }
    }
}

impl Display for Failure {
    fn fmt(&self, f: &mut Formatter) -> fmt::Result {
        match self {
            Failure::Refused {
                named,
                number,
                record,
            } => {
                write!(f, "{named}: refused {number}")?;
                if let Some(offset) = record {
                    write!(f, ", record at offset {offset}")?;
                }
                write!(f, ": {}", refusals::sentence(*number))
            }
            Failure::System { named, error } => write!(f, "{named}: {error}"),
            Failure::Usage(text) => write!(f, "{}", text.replace(char::is_control, "?")),
        }
    }
}
