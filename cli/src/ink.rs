//! Ink files, as the library reads them.

use std::ffi::OsStr;

use crate::failure::Failure;
use crate::files::Source;
use crate::secret::Secret;
use crate::sizes::{BLOCK, INK_MAX};

const HEAD: usize = 6;

/// The shortest ink file, and where its four records begin and the file ends.
const SHORTEST: usize = 80;
const STARTS: [usize; 5] = [0, 14, 36, 58, SHORTEST];

/// A record: where it begins, its kind, and its own bytes.
pub struct Record<'a> {
    pub offset: usize,
    pub kind: u8,
    pub bytes: &'a [u8],
}

/// An ink file that the library accepts.
pub struct Ink {
    pub source: Source,
    file: Secret,
    numbers: [usize; 18],
}

impl Ink {
    pub fn read(path: &OsStr) -> Result<Ink, Failure> {
        let source = Source::new("the ink file", path);
        let file = source.read(INK_MAX)?;
        let mut numbers = [0; 18];
        match libbowlinette::read_ink(&file, &mut numbers) {
            0 => Ok(Ink {
                source,
                file,
                numbers: numbers.map(|number| number as usize),
            }),
            number => Err(Failure::Refused {
                named: source.named,
                number,
                record: Some(at_fault(&file)),
            }),
        }
    }

    pub fn number(&self) -> &[u8] {
        &self.file[self.numbers[0]..][..8]
    }

    pub fn iv(&self) -> &[u8] {
        &self.file[self.numbers[1]..][..BLOCK]
    }

    pub fn sealed(&self) -> &[u8] {
        &self.file[self.numbers[2]..][..self.numbers[3]]
    }

    pub fn tag(&self) -> &[u8] {
        &self.file[self.numbers[4]..][..BLOCK]
    }

    /// All records, as they stand.
    pub fn records(&self) -> Vec<Record<'_>> {
        let [number, iv, sealed, length, tag, count] = [0, 1, 2, 3, 4, 5].map(|k| self.numbers[k]);
        let mut places = vec![(number, 8), (iv, BLOCK), (sealed, length), (tag, BLOCK)];
        places.extend((0..count).map(|k| (self.numbers[10 + k], self.numbers[14 + k])));
        let record = |&(start, length): &(usize, usize)| Record {
            offset: start - HEAD,
            kind: self.file[start - HEAD + 1],
            bytes: &self.file[start..][..length],
        };
        places.iter().map(record).collect()
    }
}

/// Where the first record at fault begins, of a file that the library refuses. That is asked of the library too: a
/// record is not at fault if the file up to its end is accepted, with short records in place of those due after it.
fn at_fault(file: &[u8]) -> usize {
    let short = shortest();
    let (mut start, mut place) = (0, 1);
    while let Some(end) = end_of_record(file, start) {
        let rest = &short[STARTS[place.min(4)]..];
        let trial = [&file[..end], rest].concat();
        if libbowlinette::read_ink(&trial, &mut [0; 18]) != 0 {
            break;
        }
        (start, place) = (end, place + 1);
    }
    start
}

/// Where the record ends that begins at a place, by its length, unless that is past the end of the file.
fn end_of_record(file: &[u8], start: usize) -> Option<usize> {
    let head = file.get(start..start + HEAD)?;
    let length = u32::from_le_bytes([head[2], head[3], head[4], head[5]]);
    let end = start + HEAD + length as usize;
    (end <= file.len()).then_some(end)
}

/// An ink file of zeros with one sealed block and no remark.
fn shortest() -> [u8; SHORTEST] {
    let (mut file, zeros) = ([0; SHORTEST], [0; BLOCK]);
    let written = write(&zeros[..8], [&zeros; 3], &[], &mut file);
    debug_assert_eq!(written, Ok(SHORTEST));
    file
}

/// A remark: its kind and its bytes.
pub type Remark<'a> = (u8, &'a [u8]);

/// Writes an ink file of pad number, IV, sealed blocks, tag and remarks to the front of a buffer: its length, or the refusal.
pub fn write(
    number: &[u8],
    [iv, sealed, tag]: [&[u8]; 3],
    remarks: &[Remark],
    out: &mut [u8],
) -> Result<usize, u32> {
    let kinds: Vec<u8> = remarks.iter().map(|remark| remark.0).collect();
    let mut bytes: [&[u8]; 4] = [&[]; 4];
    for (place, remark) in bytes.iter_mut().zip(remarks) {
        *place = remark.1;
    }
    let mut length = 0;
    match libbowlinette::write_ink([number, iv, sealed, tag], &kinds, bytes, out, &mut length) {
        0 => Ok(length as usize),
        refused => Err(refused),
    }
}
