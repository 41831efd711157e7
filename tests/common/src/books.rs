//! Random books, and what is refused of a book.

use crate::chains;
use crate::Random;
use reference::book::{self, FRONT, GROUP, ROUND, START};
use reference::chain::SET;
use reference::{reading, Size};

/// A schedule, a key, a chain and their book; or a reading chain in place of the chain, and the reading book.
pub struct Built {
    pub schedule: u8,
    pub key: Vec<u8>,
    pub chain: Vec<u8>,
    pub book: Vec<u8>,
}

pub fn built(schedule: u8, size: Size, random: &mut Random) -> Built {
    let (key, chain) = (random.bytes(size.key_bytes()), chains::valid(size, random));
    let mut book = vec![0; size.book_bytes()];
    assert_eq!(book::build(schedule, &key, &chain, &mut book), Ok(()));
    Built {
        schedule,
        key,
        chain,
        book,
    }
}

impl Built {
    pub fn size(&self) -> Size {
        Size::of_key(self.key.len()).unwrap()
    }

    /// The message set.
    pub fn message_set(&self) -> &[u8] {
        &self.chain[..SET]
    }

    /// Set r.
    pub fn last_set(&self) -> &[u8] {
        &self.chain[SET * (self.size().rounds() + 1)..][..SET]
    }

    /// What reads the files that a book seals: the same schedule and key, a reading chain with set r as set 0, and
    /// their reading book.
    pub fn reading(&self, random: &mut Random) -> Built {
        let (schedule, key, size) = (self.schedule, self.key.clone(), self.size());
        let chain = chains::reading(size, Some(self.last_set()), random);
        let mut book = vec![0; size.reading_bytes()];
        assert_eq!(reading::build(schedule, &key, &chain, &mut book), Ok(()));
        Built {
            schedule,
            key,
            chain,
            book,
        }
    }
}

/// The lengths of books.
pub const LENGTHS: [usize; 3] = [466_961, 540_689, 614_417];

/// First bytes of books: those that belong to the three lengths, in their order, and some that belong to none.
pub const FRONTS: [u8; 6] = [16, 24, 32, 0, 48, 255];

/// Where the rounds of a book begin.
pub const ROUNDS: usize = FRONT + START + 3 * GROUP;

/// The tables of round l of a book.
pub fn round(book: &[u8], l: usize) -> &[u8] {
    &book[ROUNDS + ROUND * l..][..ROUND]
}

/// The reasons for which bytes are refused as a book, in their order, and whether each holds.
pub fn reasons(book: &[u8]) -> [(u32, bool); 2] {
    let found = LENGTHS.iter().position(|&n| n == book.len());
    let other = found.map_or(false, |k| book[0] != FRONTS[k]);
    [(6, found.is_none()), (33, other)]
}

/// Random bytes of a book's length but for the first, which belongs to the length.
pub fn bytes(size: Size, random: &mut Random) -> Vec<u8> {
    let mut book = random.bytes(size.book_bytes());
    book[0] = size.key_bytes() as u8;
    book
}

/// A book with another first byte: any, or one that belongs to another length.
pub fn other_front(book: &[u8], random: &mut Random) -> Vec<u8> {
    let mut other = book.to_vec();
    while other[0] == book[0] {
        other[0] = match random.below(2) {
            0 => random.one_of(&FRONTS),
            _ => random.number() as u8,
        };
    }
    other
}

/// Random bytes, more than any book has, with each of the first bytes.
pub fn fronts(random: &mut Random) -> [Vec<u8>; 6] {
    let rest = random.bytes(800_000);
    FRONTS.map(|front| [&[front], &rest[..]].concat())
}

/// Books, each with its size.
pub type Books = Vec<(Size, Vec<u8>)>;

/// Two books of each size.
fn two_each(random: &mut Random, two: impl Fn(Size, &mut Random) -> [Vec<u8>; 2]) -> Books {
    let each = |size| two(size, random).map(|book| (size, book));
    Size::ALL.into_iter().flat_map(each).collect()
}

/// A book by either schedule, and random bytes that are taken as one, of each size.
pub fn any(random: &mut Random) -> Books {
    two_each(random, |size, random| {
        [
            built(random.schedule(), size, random).book,
            bytes(size, random),
        ]
    })
}

/// A reading book by either schedule, and bytes of a reading book's length, of each size.
pub fn any_reading(random: &mut Random) -> Books {
    two_each(random, |size, random| {
        let sealing = built(random.schedule(), size, random);
        let book = sealing.reading(random).book;
        [book, random.bytes(size.reading_bytes())]
    })
}

/// A book with the bits changed that a reader does not use of the byte at a place.
pub fn stirred(book: &[u8], unused: impl Fn(usize) -> u8, random: &mut Random) -> Vec<u8> {
    let noise = random.bytes(book.len());
    let changed = |(at, x): (usize, &u8)| x ^ noise[at] & unused(at);
    let other: Vec<u8> = book.iter().enumerate().map(changed).collect();
    assert!(other != book, "nothing is changed");
    other
}
