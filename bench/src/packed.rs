//! The driver in Rust in the shape of the proved one: a block stays packed in 16 bytes, two half bytes
//! are looked up at a time, the three words side by side, and each round writes into the block it is
//! lent. As there, nothing is checked inside a round: each index is below 18,432 whatever the bytes are.

use reference::book::{ADD, FOLD, FRONT, GROUP, ROUND, START, TURN};
use reference::chain::MIDDLES;
use reference::driver::{room, LIMIT};
use reference::lea::{whole, Block};
use reference::{refusal, Size};

/// The tables of one round.
pub type Tables = [u8; ROUND];

#[inline]
fn at(t: &Tables, k: usize) -> u8 {
    debug_assert!(k < ROUND);
    // Sound: every caller's index is a table's place in a round plus an index inside that table.
    unsafe { *t.get_unchecked(k) }
}

#[inline]
fn low(x: u8) -> usize {
    usize::from(x % 16)
}

#[inline]
fn high(x: u8) -> usize {
    usize::from(x / 16)
}

#[inline]
fn carry(e: u8) -> usize {
    usize::from(e / 16 % 2)
}

#[inline]
fn joined(lo: u8, hi: u8) -> u8 {
    lo % 16 + 16 * (hi % 16)
}

/// Two add tables from a place on at the halves of x and y: two half bytes of a sum, and the carry.
#[inline]
pub fn add_two(t: &Tables, place: usize, c: usize, x: u8, y: u8) -> (u8, usize) {
    let e = at(t, place + (256 * c + 16 * low(x) + low(y)));
    let f = at(t, place + ADD + (256 * carry(e) + 16 * high(x) + high(y)));
    (joined(e, f), carry(f))
}

#[inline]
fn sums(t: &Tables, b: &Block) -> [u8; 12] {
    let (mut s, mut c) = ([0; 12], [0; 3]);
    for m in 0..4 {
        let place = 2 * ADD * m;
        (s[m], c[0]) = add_two(t, place, c[0], b[m], b[m + 4]);
        (s[m + 4], c[1]) = add_two(t, place + 8 * ADD, c[1], b[m + 4], b[m + 8]);
        (s[m + 8], c[2]) = add_two(t, place + 16 * ADD, c[2], b[m + 8], b[m + 12]);
    }
    s
}

/// Half byte j mod 8 of word i.
#[inline]
fn half<const N: usize>(s: &[u8; N], i: usize, j: usize) -> usize {
    let x = s[4 * i + j % 8 / 2];
    if j % 2 == 0 {
        low(x)
    } else {
        high(x)
    }
}

/// Byte m of word i by the turn tables from a place on: half byte j from the half bytes j + u and j + v.
#[inline]
pub fn turn_two<const N: usize>(
    t: &Tables,
    place: usize,
    s: &[u8; N],
    [i, m]: [usize; 2],
    [u, v]: [usize; 2],
) -> u8 {
    let entry = |j: usize| {
        let table = place + TURN * (8 * i + j);
        at(t, table + (16 * half(s, i, j + u) + half(s, i, j + v)))
    };
    joined(entry(2 * m), entry(2 * m + 1))
}

#[inline]
fn turns(t: &Tables, s: &[u8; 12], y: &mut Block) {
    const PLACE: usize = MIDDLES * ADD;
    for m in 0..4 {
        y[m + 12] = y[m];
        y[m] = turn_two(t, PLACE, s, [0, m], [6, 5]);
        y[m + 4] = turn_two(t, PLACE, s, [1, m], [2, 1]);
        y[m + 8] = turn_two(t, PLACE, s, [2, m], [1, 0]);
    }
}

#[inline]
fn step(t: &Tables, y: &mut Block) {
    let s = sums(t, y);
    turns(t, &s, y);
}

/// A block folded into another by a group of fold tables.
#[inline]
pub fn fold(group: &[u8; GROUP], x: &Block, y: &Block) -> Block {
    std::array::from_fn(|k| {
        let lo = group[2 * FOLD * k + (16 * low(x[k]) + low(y[k]))];
        let hi = group[2 * FOLD * k + FOLD + (16 * high(x[k]) + high(y[k]))];
        joined(lo, hi)
    })
}

/// A book of one of the three lengths, behind its first byte, which belongs to the length.
#[derive(Clone, Copy)]
struct Book<'a>(&'a [u8]);

impl<'a> Book<'a> {
    #[inline]
    fn new(bytes: &'a [u8]) -> Result<Book<'a>, u32> {
        let found = Size::ALL.iter().find(|s| s.book_bytes() == bytes.len());
        let size = found.ok_or(refusal::BOOK_LENGTH)?;
        match usize::from(bytes[0]) == size.key_bytes() {
            true => Ok(Book(&bytes[FRONT..])),
            false => Err(refusal::SIZE_BYTE),
        }
    }

    /// The lent block through the first rounds, all of them where the count is more.
    #[inline]
    fn run(self, count: usize, y: &mut Block) {
        let rounds = &self.0[START + 3 * GROUP..];
        for tables in rounds.chunks_exact(ROUND).take(count) {
            step(tables.try_into().unwrap(), y);
        }
    }

    /// A coded block folded in by group number g, from 0, and taken through all rounds.
    #[inline]
    fn pass(self, g: usize, x: &Block, coded: &Block) -> Block {
        let group = &self.0[START + GROUP * g..][..GROUP];
        let mut y = fold(group.try_into().unwrap(), x, coded);
        self.run(usize::MAX, &mut y);
        y
    }
}

/// A block through the first rounds of a book, all of them where the count is more.
#[inline]
pub fn run_rounds(book: &[u8], count: usize, block: &[u8]) -> Result<Block, u32> {
    let (book, mut y) = (Book::new(book)?, *whole(block)?);
    book.run(count, &mut y);
    Ok(y)
}

/// A coded message sealed from an IV, to the front of out: the length of what was written.
pub fn seal(book: &[u8], iv: &[u8], coded: &[u8], out: &mut [u8]) -> Result<usize, u32> {
    let (book, mut x) = (Book::new(book)?, *whole(iv)?);
    let room = room(coded.len(), out)?;
    for (text, place) in coded.chunks_exact(16).zip(room.chunks_exact_mut(16)) {
        x = book.pass(0, &x, text.try_into().unwrap());
        place.copy_from_slice(&x);
    }
    Ok(coded.len())
}

/// A tag session.
pub struct Session {
    block: Block,
    taken: u16,
    finished: bool,
}

impl Session {
    /// A fresh session.
    pub fn begin(book: &[u8]) -> Result<Session, u32> {
        Ok(Session {
            block: *whole(&Book::new(book)?.0[..START])?,
            taken: 0,
            finished: false,
        })
    }

    /// A block call.
    pub fn block_call(&mut self, book: &[u8], coded: &[u8]) -> Result<(), u32> {
        let (book, coded) = (Book::new(book)?, whole(coded)?);
        if self.finished {
            return Err(refusal::FINISHED);
        }
        if self.taken == LIMIT {
            return Err(refusal::LIMIT);
        }
        self.block = book.pass(0, &self.block, coded);
        self.taken += 1;
        Ok(())
    }

    /// A last call: the tag.
    pub fn last_call(&mut self, book: &[u8], coded: &[u8], kind: u8) -> Result<Block, u32> {
        let (book, coded) = (Book::new(book)?, whole(coded)?);
        if kind > 1 {
            return Err(refusal::KIND);
        }
        if self.finished {
            return Err(refusal::FINISHED);
        }
        self.finished = true;
        Ok(book.pass(1 + usize::from(kind), &self.block, coded))
    }
}
