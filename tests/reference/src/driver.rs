//! The driver (01, "Pad, driver, archive"): rounds, sealing and the tag session from a book of any
//! bytes, but for the first. Of an add table's entry it uses the bits 0 to 4, of any other entry the bits
//! 0 to 3.

use crate::book::{ADD, FOLD, FRONT, GROUP, ROUND, START, TURN, TURNED};
use crate::chain::MIDDLES;
use crate::lea::{whole, Block};
use crate::refusal;
use crate::Size;

/// The half bytes of a block: half byte j of word w at 8w + j.
pub type Halves = [u8; 32];

/// Sealing or reading: from a book, an IV and whole blocks to the front of an output.
pub type Pass = fn(&[u8], &[u8], &[u8], &mut [u8]) -> Result<usize, u32>;

/// The longest coded message.
pub const LONGEST: usize = 1_048_576;
/// How many block calls a session takes.
pub const LIMIT: u16 = 65_535;

#[inline]
pub fn halves(block: &Block) -> Halves {
    std::array::from_fn(|p| block[p / 2] >> (4 * (p % 2)) & 15)
}

#[inline]
pub fn block(halves: &Halves) -> Block {
    std::array::from_fn(|k| halves[2 * k] + 16 * halves[2 * k + 1])
}

/// The half bytes that eight add tables give for two words: in order, each with the carry of the one
/// before.
#[inline]
pub(crate) fn added(tables: &[u8], first: &[u8], second: &[u8]) -> [u8; 8] {
    let (mut out, mut carry) = ([0; 8], 0);
    for j in 0..8 {
        let (p, q) = (first[j], second[j]);
        let index = 256 * carry + 16 * usize::from(p) + usize::from(q);
        let entry = tables[ADD * j + index];
        out[j] = entry & 15;
        carry = usize::from(entry >> 4 & 1);
    }
    out
}

/// The half bytes that eight turn tables give for a word: number j looks at j + high and j + low.
#[inline]
pub(crate) fn turned(tables: &[u8], word: &[u8], (high, low): (usize, usize)) -> [u8; 8] {
    std::array::from_fn(|j| {
        let (p, q) = (word[(j + high) % 8], word[(j + low) % 8]);
        let index = 16 * usize::from(p) + usize::from(q);
        tables[TURN * j + index] & 15
    })
}

/// One round of tables.
#[inline]
pub fn round(tables: &[u8], old: &Halves) -> Halves {
    let (adds, turns) = tables.split_at(MIDDLES * ADD);
    let mut new = [0; 32];
    for (i, places) in TURNED.into_iter().enumerate() {
        let at = 8 * i;
        let sum = added(&adds[ADD * at..], &old[at..at + 8], &old[at + 8..at + 16]);
        new[at..at + 8].copy_from_slice(&turned(&turns[TURN * at..], &sum, places));
    }
    new[24..].copy_from_slice(&old[..8]);
    new
}

/// A block folded into another by one group of tables.
#[inline]
pub fn fold(group: &[u8], text: &Halves, message: &Halves) -> Halves {
    std::array::from_fn(|p| {
        let index = 16 * usize::from(text[p]) + usize::from(message[p]);
        group[FOLD * p + index] & 15
    })
}

/// The parts of a book behind its first byte.
#[derive(Clone, Copy)]
struct Book<'a> {
    start: &'a [u8],
    groups: &'a [u8],
    rounds: &'a [u8],
}

impl<'a> Book<'a> {
    /// Refuses a length that is none of the three, then a first byte that does not belong to the length
    /// (request 2026-05).
    #[inline]
    fn new(bytes: &'a [u8]) -> Result<Book<'a>, u32> {
        let found = Size::ALL.iter().find(|s| s.book_bytes() == bytes.len());
        let size = found.ok_or(refusal::BOOK_LENGTH)?;
        let (front, rest) = bytes.split_at(FRONT);
        if usize::from(front[0]) != size.key_bytes() {
            return Err(refusal::SIZE_BYTE);
        }
        let (start, rest) = rest.split_at(START);
        let (groups, rounds) = rest.split_at(3 * GROUP);
        Ok(Book {
            start,
            groups,
            rounds,
        })
    }

    /// The first rounds, all of them where the count is more.
    #[inline]
    fn run(self, count: usize, mut x: Halves) -> Halves {
        for tables in self.rounds.chunks_exact(ROUND).take(count) {
            x = round(tables, &x);
        }
        x
    }

    /// A coded block folded in by group number g, from 0, and taken through all rounds.
    #[inline]
    fn absorb(self, g: usize, x: &Halves, coded: &Block) -> Halves {
        let folded = fold(&self.groups[GROUP * g..][..GROUP], x, &halves(coded));
        self.run(usize::MAX, folded)
    }
}

/// A block through the tables of one round.
#[inline]
pub fn run_round(tables: &[u8], text: &[u8]) -> Result<Block, u32> {
    if tables.len() != ROUND {
        return Err(refusal::BOOK_LENGTH);
    }
    Ok(block(&round(tables, &halves(whole(text)?))))
}

/// A block through the first rounds of a book, all of them where the count is more.
#[inline]
pub fn run_rounds(book: &[u8], count: usize, text: &[u8]) -> Result<Block, u32> {
    let book = Book::new(book)?;
    Ok(block(&book.run(count, halves(whole(text)?))))
}

/// The front of an output for so many coded or sealed bytes; refuses none of them, too many or no whole
/// blocks, and then an output that is too short.
pub fn room(bytes: usize, out: &mut [u8]) -> Result<&mut [u8], u32> {
    if bytes == 0 || bytes > LONGEST || bytes % 16 != 0 {
        return Err(refusal::MESSAGE_LENGTH);
    }
    out.get_mut(..bytes).ok_or(refusal::SHORT_OUTPUT)
}

/// A coded message sealed from an IV, to the front of out: the length of what was written.
pub fn seal(book: &[u8], iv: &[u8], coded: &[u8], out: &mut [u8]) -> Result<usize, u32> {
    let book = Book::new(book)?;
    let mut x = halves(whole(iv)?);
    let room = room(coded.len(), out)?;
    for (text, place) in coded.chunks_exact(16).zip(room.chunks_exact_mut(16)) {
        x = book.absorb(0, &x, whole(text)?);
        place.copy_from_slice(&block(&x));
    }
    Ok(coded.len())
}

/// A tag session: the block it holds, how many block calls it has taken, whether its last call has
/// been.
#[derive(Clone, Copy, Debug, PartialEq)]
pub struct Session {
    pub block: Block,
    pub count: u16,
    pub finished: bool,
}

impl Session {
    /// A fresh session.
    pub fn begin(book: &[u8]) -> Result<Session, u32> {
        Ok(Session {
            block: *whole(Book::new(book)?.start)?,
            count: 0,
            finished: false,
        })
    }

    /// A block call.
    pub fn block_call(&mut self, book: &[u8], coded: &[u8]) -> Result<(), u32> {
        let (book, coded) = (Book::new(book)?, whole(coded)?);
        if self.finished {
            return Err(refusal::FINISHED);
        }
        if self.count == LIMIT {
            return Err(refusal::LIMIT);
        }
        self.block = block(&book.absorb(0, &halves(&self.block), coded));
        self.count += 1;
        Ok(())
    }

    /// A last call: the tag. What the session held before it, its block and count, it keeps.
    pub fn last_call(&mut self, book: &[u8], coded: &[u8], kind: u8) -> Result<Block, u32> {
        let (book, coded) = (Book::new(book)?, whole(coded)?);
        let group = match kind {
            0 => 1,
            1 => 2,
            _ => return Err(refusal::KIND),
        };
        if self.finished {
            return Err(refusal::FINISHED);
        }
        self.finished = true;
        Ok(block(&book.absorb(group, &halves(&self.block), coded)))
    }
}
