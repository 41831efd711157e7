//! The folder in which a pallet's pads are written before they appear: hidden, and gone when the pallet is done.

use std::fs::{self, DirBuilder, File};
use std::io::{self, ErrorKind, Write};
use std::ops::RangeInclusive;
use std::os::unix::ffi::OsStrExt;
use std::os::unix::fs::DirBuilderExt;
use std::path::{Path, PathBuf};

use crate::failure::{Failure, Named};
use crate::files::{create, hidden, OWNER};
use crate::{args, system};

const NAME: &str = "pallet";
const STATIONS: [&str; 4] = ["pad", "driver", "screen", "archive"];

/// A staging folder, locked for as long as its pallet is under way.
pub struct Staging {
    pallet: PathBuf,
    path: PathBuf,
    _locked: File,
}

fn make_folder(path: &Path) -> io::Result<()> {
    DirBuilder::new().mode(0o700).create(path)
}

impl Staging {
    /// A new one in the pallet's folder, which is made where it is not there; those that dead pallets left go. One
    /// pallet at a time does this in a folder.
    pub fn new(pallet: &Path) -> io::Result<Staging> {
        match make_folder(pallet) {
            Err(_) if pallet.is_dir() => (),
            made => made?,
        }
        let beginning = File::open(pallet)?;
        system::lock(&beginning, true);
        remove_dead(pallet)?;
        let path = pallet.join(hidden(NAME));
        make_folder(&path)?;
        let locked = File::open(&path)?;
        system::lock(&locked, false);
        let pallet = pallet.to_owned();
        Ok(Staging {
            pallet,
            path,
            _locked: locked,
        })
    }

    /// The lowest pad of these numbers that is there already.
    pub fn taken(&self, numbers: RangeInclusive<u64>) -> io::Result<Option<String>> {
        let mut lowest = None;
        for entry in fs::read_dir(&self.pallet)? {
            let name = entry?.file_name().into_string().unwrap_or_default();
            let number = args::number(&name).filter(|_| name.len() == 8);
            if number.map_or(false, |number| numbers.contains(&number)) {
                let other = lowest.unwrap_or_else(|| name.clone());
                lowest = Some(name.min(other));
            }
        }
        Ok(lowest)
    }

    /// Where a pad appears.
    pub fn place(&self, number: &str) -> Named {
        Named::new("the pad", self.pallet.join(number))
    }

    /// Writes a pad's folder and lets it appear, whole.
    pub fn put(&self, number: &str, files: &[(&str, &[u8])]) -> Result<(), Failure> {
        let (beside, place) = (self.path.join(number), self.place(number));
        write_folder(&beside, files).map_err(|error| place.failed(error))?;
        place.appear(&beside)
    }
}

impl Drop for Staging {
    fn drop(&mut self) {
        // What cannot be removed is removed by the next pallet.
        let _ = fs::remove_dir_all(&self.path);
    }
}

fn write_folder(folder: &Path, files: &[(&str, &[u8])]) -> io::Result<()> {
    make_folder(folder)?;
    for station in STATIONS {
        make_folder(&folder.join(station))?;
    }
    for (name, bytes) in files {
        create(&folder.join(name), OWNER)?.write_all(bytes)?;
    }
    Ok(())
}

/// Removes the staging folders on which no pallet has its lock, as far as that is granted. One that goes meanwhile is
/// no fault.
fn remove_dead(pallet: &Path) -> io::Result<()> {
    for entry in fs::read_dir(pallet)? {
        let entry = entry?;
        if is_staging(entry.file_name().as_bytes()) && entry.file_type()?.is_dir() {
            match remove_unlocked(&entry.path()) {
                Err(error) if error.kind() == ErrorKind::NotFound => (),
                Err(error) if error.kind() == ErrorKind::PermissionDenied => (),
                removed => removed?,
            }
        }
    }
    Ok(())
}

/// Whether a name is one that `hidden` gives.
fn is_staging(name: &[u8]) -> bool {
    let start = format!(".{NAME}-");
    let rest = name.strip_prefix(start.as_bytes()).unwrap_or_default();
    let mut numbers = rest.split(|&byte| byte == b'-');
    let is_number = |part: &[u8]| !part.is_empty() && part.iter().all(u8::is_ascii_digit);
    numbers.clone().count() == 2 && numbers.all(is_number)
}

fn remove_unlocked(path: &Path) -> io::Result<()> {
    let folder = File::open(path)?;
    if system::lock(&folder, false) {
        fs::remove_dir_all(path)?;
    }
    Ok(())
}
