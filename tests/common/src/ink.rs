//! Ink files read and written on both versions, and what they are made of.

use crate::lent::{both, told, written, FILL, LENGTH};
use crate::Random;
use reference::ink::{self, Fields, Ink, REMARKS};

/// The longest sealed blocks, the longest remark and the longest file, in bytes.
pub const SEALED: usize = 1_048_576;
pub const REMARK: usize = 255;
pub const LONGEST: usize = 1_049_684;

/// A record with all its bytes.
pub fn record(kind: u8, bytes: &[u8]) -> Vec<u8> {
    headed(kind, bytes.len(), bytes)
}

/// A record whose head has any length.
pub fn headed(kind: u8, length: usize, bytes: &[u8]) -> Vec<u8> {
    let length = (length as u32).to_le_bytes();
    [&[0xa5, kind][..], &length, bytes].concat()
}

/// Fields with bytes of their own. Remarks past the kinds belong to no file.
#[derive(Clone, Debug, PartialEq, Eq)]
pub struct Owned {
    pub number: Vec<u8>,
    pub iv: Vec<u8>,
    pub sealed: Vec<u8>,
    pub tag: Vec<u8>,
    pub kinds: Vec<u8>,
    pub remarks: [Vec<u8>; REMARKS],
}

impl Owned {
    /// Random, with so many sealed bytes and remarks of these lengths.
    pub fn new(sealed: usize, remarks: &[usize], random: &mut Random) -> Owned {
        let length = |k: usize| remarks.get(k).copied().unwrap_or(0);
        Owned {
            number: random.bytes(8),
            iv: random.bytes(16),
            sealed: random.bytes(sealed),
            tag: random.bytes(16),
            kinds: remarks.iter().map(|_| kind(random)).collect(),
            remarks: std::array::from_fn(|k| random.bytes(length(k))),
        }
    }

    /// Random, with some blocks, and remarks often of the lengths that are just allowed.
    pub fn any(random: &mut Random) -> Owned {
        let sealed = 16 + 16 * random.below(40);
        let count = random.below(REMARKS + 1);
        let remarks: Vec<usize> = (0..count).map(|_| remark_length(random)).collect();
        Owned::new(sealed, &remarks, random)
    }

    pub fn fields(&self) -> Fields<'_> {
        Fields {
            number: &self.number,
            iv: &self.iv,
            sealed: &self.sealed,
            tag: &self.tag,
            kinds: &self.kinds,
            remarks: std::array::from_fn(|k| self.remarks[k].as_slice()),
        }
    }

    /// How many bytes their file has.
    pub fn length(&self) -> usize {
        let remarks = self.kinds.iter().zip(&self.remarks);
        let remarks: usize = remarks.map(|(_, remark)| 6 + remark.len()).sum();
        64 + self.sealed.len() + remarks
    }

    /// The records of their file, or of one that is refused as they are; a fifth remark is empty.
    pub fn records(&self) -> Vec<Vec<u8>> {
        let first = [&self.number, &self.iv, &self.sealed, &self.tag];
        let empty = Vec::new();
        let remarks = self.remarks.iter().chain(std::iter::repeat(&empty));
        let remarks = self.kinds.iter().copied().zip(remarks);
        let all = (1..).zip(first).chain(remarks);
        all.map(|(kind, bytes)| record(kind, bytes)).collect()
    }

    /// Their file, as it is written in a buffer with so many bytes more. It must be read as these fields,
    /// and written again the same.
    pub fn there_and_back(&self, more: usize) -> Vec<u8> {
        let given = (self.sealed.len(), &self.kinds);
        let file = write(&self.fields(), self.length() + more).unwrap();
        assert!(file == self.records().concat(), "{given:02x?}: the file");
        let ink = read(&file).unwrap();
        let mut due = self.fields();
        due.remarks[self.kinds.len()..].fill(&[]);
        assert!(ink.fields(&file) == due, "{given:02x?}: its fields");
        assert_eq!(judge(&file), 0, "{given:02x?}");
        file
    }
}

/// A kind of remarks.
pub fn kind(random: &mut Random) -> u8 {
    0x10 + random.below(16) as u8
}

/// A length of a remark, often one that is just allowed.
pub fn remark_length(random: &mut Random) -> usize {
    match random.below(4) {
        0 => 0,
        1 => REMARK - random.below(2),
        _ => random.below(REMARK + 1),
    }
}

/// Where the fields of a file stand.
pub fn read(file: &[u8]) -> Result<Ink, u32> {
    let told = written(LENGTH, |numbers| bowlinette::read_ink(file, numbers));
    let want = ink::read(file);
    let numbers = want.map(|ink| ink.numbers());
    assert_eq!(told, numbers, "read_ink, {} bytes", file.len());
    want
}

/// Writing by the proved library.
#[inline]
pub fn proved(fields: &Fields, out: &mut [u8], length: &mut u64) -> u32 {
    let first = [fields.number, fields.iv, fields.sealed, fields.tag];
    bowlinette::write_ink(first, fields.kinds, fields.remarks, out, length)
}

/// Fields written into a buffer of a length: the file. After it the buffer must stay.
pub fn write(fields: &Fields, room: usize) -> Result<Vec<u8>, u32> {
    let first = [fields.number, fields.iv, fields.sealed, fields.tag].map(<[u8]>::len);
    let given = (first, fields.kinds, fields.remarks.map(<[u8]>::len), room);
    let (told, mut out) = both(
        ("write_ink", given),
        room,
        |out| told(LENGTH, |length| proved(fields, out, length)),
        |out| ink::write(fields, out).map(|n| n as u64),
    );
    let after = out.split_off(told? as usize);
    assert!(after.iter().all(|&x| x == FILL), "write_ink, {given:?}");
    Ok(out)
}

/// The number of reading a file. One that is accepted must be written again byte for byte.
pub fn judge(file: &[u8]) -> u32 {
    let ink = match read(file) {
        Ok(ink) => ink,
        Err(number) => return number,
    };
    let again = write(&ink.fields(file), file.len());
    let same = again.as_deref() == Ok(file);
    assert!(same, "written again, {ink:?}");
    0
}
