//! Ink files (request 2026-02): pad number, IV, sealed blocks, tag and up to four remarks in one file. A
//! record of it is a mark, a kind, the length in four bytes, lowest first, and the bytes.

use crate::driver::LONGEST;
use crate::refusal;
use std::ops::Range;

/// The byte that each record begins with, and how many bytes stand before its own.
const MARK: u8 = 0xa5;
const HEAD: usize = 6;

/// The kinds of the first four records. All others are remarks.
const NUMBER: u8 = 1;
const IV: u8 = 2;
const SEALED: u8 = 3;
const TAG: u8 = 4;

/// The lengths of a pad number and of an IV or a tag, and the longest remark.
const NUMBER_BYTES: usize = 8;
const BLOCK: usize = 16;
const LONGEST_REMARK: usize = 255;

/// The number of the first remark's record, from 0, and the most remarks.
const FIRST_REMARK: usize = 4;
pub const REMARKS: usize = 4;

/// Where the bytes of each record stand in a file; zeros for the remarks that it has not.
#[derive(Clone, Copy, Debug, Default, PartialEq, Eq)]
pub struct Ink {
    pub number: usize,
    pub iv: usize,
    pub sealed: usize,
    pub sealed_length: usize,
    pub tag: usize,
    pub count: usize,
    pub kinds: [u8; REMARKS],
    pub offsets: [usize; REMARKS],
    pub lengths: [usize; REMARKS],
}

/// What a file is written from: a kind for each remark, and the remarks, not looked at past the kinds.
#[derive(Clone, Copy, Debug, PartialEq, Eq)]
pub struct Fields<'a> {
    pub number: &'a [u8],
    pub iv: &'a [u8],
    pub sealed: &'a [u8],
    pub tag: &'a [u8],
    pub kinds: &'a [u8],
    pub remarks: [&'a [u8]; REMARKS],
}

impl Ink {
    /// Its fields in a row.
    pub fn numbers(&self) -> [u64; 18] {
        let first = [self.number, self.iv, self.sealed, self.sealed_length];
        let next = [self.tag, self.count];
        let kinds = self.kinds.map(usize::from);
        let rest = kinds.iter().chain(&self.offsets).chain(&self.lengths);
        let mut row = first.iter().chain(&next).chain(rest);
        std::array::from_fn(|_| *row.next().unwrap() as u64)
    }

    /// The fields of the file that it was read from.
    pub fn fields<'a>(&'a self, file: &'a [u8]) -> Fields<'a> {
        let bytes = |at: usize, length: usize| &file[at..][..length];
        Fields {
            number: bytes(self.number, NUMBER_BYTES),
            iv: bytes(self.iv, BLOCK),
            sealed: bytes(self.sealed, self.sealed_length),
            tag: bytes(self.tag, BLOCK),
            kinds: &self.kinds[..self.count],
            remarks: std::array::from_fn(|k| bytes(self.offsets[k], self.lengths[k])),
        }
    }
}

/// The length of record number n, from 0, with its head. Refuses a kind that is not due there, and then
/// a length that is not allowed for the kind.
#[inline]
fn judge(n: usize, kind: u8, length: usize) -> Result<usize, u32> {
    let due = match n.checked_sub(FIRST_REMARK) {
        None => usize::from(kind) == n + 1,
        Some(before) => before < REMARKS && (0x10..=0x1f).contains(&kind),
    };
    if !due {
        return Err(refusal::RECORD);
    }
    let allowed = match kind {
        NUMBER => length == NUMBER_BYTES,
        IV | TAG => length == BLOCK,
        SEALED => (BLOCK..=LONGEST).contains(&length) && length % BLOCK == 0,
        _ => length <= LONGEST_REMARK,
    };
    allowed
        .then_some(HEAD + length)
        .ok_or(refusal::RECORD_LENGTH)
}

/// The kind of record number n, which begins at a place in the file, and where its bytes are.
#[inline]
fn record(file: &[u8], n: usize, at: usize) -> Result<(u8, Range<usize>), u32> {
    let (kind, length) = match file[at..] {
        [MARK, kind, a, b, c, d, ..] => (kind, u32::from_le_bytes([a, b, c, d]) as usize),
        _ => return Err(refusal::RECORD),
    };
    let end = at + judge(n, kind, length)?;
    if end > file.len() {
        return Err(refusal::RECORD_LENGTH);
    }
    Ok((kind, at + HEAD..end))
}

/// A file read, record by record: the first that is at fault decides.
pub fn read(file: &[u8]) -> Result<Ink, u32> {
    let (_, number) = record(file, 0, 0)?;
    let (_, iv) = record(file, 1, number.end)?;
    let (_, sealed) = record(file, 2, iv.end)?;
    let (_, tag) = record(file, 3, sealed.end)?;
    let (mut at, mut count) = (tag.end, 0);
    let (mut kinds, mut offsets, mut lengths) = ([0; REMARKS], [0; REMARKS], [0; REMARKS]);
    while at < file.len() {
        let (kind, remark) = record(file, FIRST_REMARK + count, at)?;
        (kinds[count], offsets[count], lengths[count]) = (kind, remark.start, remark.len());
        (at, count) = (remark.end, count + 1);
    }
    Ok(Ink {
        number: number.start,
        iv: iv.start,
        sealed: sealed.start,
        sealed_length: sealed.len(),
        tag: tag.start,
        count,
        kinds,
        offsets,
        lengths,
    })
}

impl<'a> Fields<'a> {
    /// Kind and bytes of the first four records.
    #[inline]
    fn first(&self) -> [(u8, &'a [u8]); FIRST_REMARK] {
        [
            (NUMBER, self.number),
            (IV, self.iv),
            (SEALED, self.sealed),
            (TAG, self.tag),
        ]
    }

    /// Kind and bytes of the remarks, up to the fourth.
    #[inline]
    fn rest(&self) -> impl Iterator<Item = (u8, &'a [u8])> {
        self.kinds.iter().copied().zip(self.remarks)
    }

    /// The length of the file, the records judged as in reading.
    #[inline]
    fn total(&self) -> Result<usize, u32> {
        let mut total = 0;
        for (n, (kind, bytes)) in self.first().into_iter().enumerate() {
            total += judge(n, kind, bytes.len())?;
        }
        for (n, (kind, bytes)) in (FIRST_REMARK..).zip(self.rest()) {
            total += judge(n, kind, bytes.len())?;
        }
        if self.kinds.len() > REMARKS {
            return Err(refusal::RECORD);
        }
        Ok(total)
    }
}

/// A record written to the front of a room: what is left of the room.
#[inline]
fn put<'a>(room: &'a mut [u8], kind: u8, bytes: &[u8]) -> &'a mut [u8] {
    let (head, rest) = room.split_at_mut(HEAD);
    let (place, rest) = rest.split_at_mut(bytes.len());
    let [a, b, c, d] = (bytes.len() as u32).to_le_bytes();
    head.copy_from_slice(&[MARK, kind, a, b, c, d]);
    place.copy_from_slice(bytes);
    rest
}

/// A file written to the front of out: its length.
pub fn write(fields: &Fields, out: &mut [u8]) -> Result<usize, u32> {
    let total = fields.total()?;
    let mut room = out.get_mut(..total).ok_or(refusal::SHORT_OUTPUT)?;
    for (kind, bytes) in fields.first() {
        room = put(room, kind, bytes);
    }
    for (kind, bytes) in fields.rest() {
        room = put(room, kind, bytes);
    }
    Ok(total)
}
