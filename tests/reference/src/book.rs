//! Books (01, "Book"; requests 2026-05 and 2026-06): the key length, and every table, from codings inverted
//! beforehand.

use crate::chain::{self, Chain, CODING, MIDDLES, SET};
use crate::lea::{self, Block, Row};
use crate::refusal;
use crate::schedule::{expand, EMPTY};

/// The byte in front, the start, a fold table and a group of them, an add table, a turn table, the tables
/// of a round.
pub const FRONT: usize = 1;
pub const START: usize = 16;
pub const FOLD: usize = 256;
pub const GROUP: usize = 32 * FOLD;
pub const ADD: usize = 512;
pub const TURN: usize = 256;
pub const ROUND: usize = MIDDLES * (ADD + TURN);

/// Building: from the number of a schedule, a key and a chain to the front of an output.
pub type Build = fn(u8, &[u8], &[u8], &mut [u8]) -> Result<(), u32>;

/// Half byte j of new word i is made of the half bytes j + high and j + low, mod 8, of sum i.
pub const TURNED: [(usize, usize); 3] = [(6, 5), (2, 1), (1, 0)];

/// Coding k of those in a row.
#[inline]
pub(crate) fn coding(codings: &[u8], k: usize) -> &[u8; CODING] {
    codings[CODING * k..][..CODING].try_into().unwrap()
}

/// Half byte j of a word.
#[inline]
fn half(word: u32, j: usize) -> u8 {
    (word >> (4 * j)) as u8 & 15
}

/// Half byte p of a block.
#[inline]
fn block_half(block: &Block, p: usize) -> u8 {
    block[p / 2] >> (4 * (p % 2)) & 15
}

/// A block doubled, byte 0 highest.
pub fn double(block: Block) -> Block {
    let number = u128::from_be_bytes(block);
    let fallen = if number >> 127 == 1 { 0x87 } else { 0 };
    ((number << 1) ^ fallen).to_be_bytes()
}

/// The entries of an add table, index 256c + 16p + q, from the entry of each sum mod 32: what is added
/// is what c, p and q stand for.
#[inline]
pub(crate) fn add_entries(
    entry: [u8; 32],
    carries: [u8; 2],
    first: [u8; CODING],
    second: [u8; CODING],
    out: &mut [u8],
) {
    for (half, c) in out.chunks_exact_mut(256).zip(carries) {
        for (row, a) in half.chunks_exact_mut(16).zip(first) {
            for (e, b) in row.iter_mut().zip(second) {
                *e = entry[usize::from(c + a + b) % 32];
            }
        }
    }
}

/// The entries of a turn table, index 16p + q, of the half bytes u and v that p and q decode to: the
/// image of 2u + v/8 or, by a factor of 8, of 8u + v/2, mod 16.
#[inline]
pub(crate) fn turn_entries(
    factor: u8,
    first: &[u8; CODING],
    second: &[u8; CODING],
    image: &[u8; CODING],
    out: &mut [u8],
) {
    let first = first.map(|u| factor * u);
    let second = second.map(|v| v / (16 / factor));
    for (row, u) in out.chunks_exact_mut(16).zip(first) {
        for (e, v) in row.iter_mut().zip(second) {
            *e = image[usize::from(u + v) % 16];
        }
    }
}

/// The 24 tables of a kind in a round, of so many bytes each: table (i, j) is number 8i + j.
pub(crate) fn fill(out: &mut [u8], bytes: usize, table: impl Fn(usize, usize, &mut [u8])) {
    for (k, place) in out.chunks_exact_mut(bytes).enumerate() {
        table(k / 8, k % 8, place);
    }
}

/// What the tables of a round are made of.
pub(crate) struct Round<'a> {
    pub(crate) row: &'a Row,
    /// Set l, inverted.
    pub(crate) before: [u8; SET],
    /// Set l + 1.
    pub(crate) after: &'a [u8],
    pub(crate) middles: &'a [u8],
    /// The middle codings, inverted.
    pub(crate) opened: [u8; MIDDLES * CODING],
    pub(crate) masks: &'a [u8],
}

impl<'a> Round<'a> {
    pub(crate) fn new(chain: Chain<'a>, row: &'a Row, l: usize) -> Round<'a> {
        Round {
            row,
            before: chain::inverted(chain.set(l)),
            after: chain.set(l + 1),
            middles: chain.middles(l),
            opened: chain::inverted(chain.middles(l)),
            masks: chain.masks(l),
        }
    }

    /// The halves of both round keys of word i that table (i, j) has in it.
    #[inline]
    pub(crate) fn keys(&self, i: usize, j: usize) -> (u8, u8) {
        (half(self.row[2 * i], j), half(self.row[2 * i + 1], j))
    }

    /// The mask on the carry into a place; no carry is hidden on its way into half byte 0.
    #[inline]
    fn mask_in(&self, place: usize) -> u8 {
        match place % 8 {
            0 => 0,
            _ => self.masks[place],
        }
    }

    /// The mask on the carry out of a place: that of the next half byte, and after the top one that of half
    /// byte 0 of the same word.
    #[inline]
    fn mask_out(&self, place: usize) -> u8 {
        self.masks[place / 8 * 8 + (place + 1) % 8]
    }

    /// The entries of each sum mod 32 at a place: what its half byte is coded as, and the masked carry.
    #[inline]
    pub(crate) fn coded(&self, place: usize, image: &[u8; CODING]) -> [u8; 32] {
        let mask = self.mask_out(place);
        std::array::from_fn(|s| 16 * ((s / 16) as u8 ^ mask) + image[s % 16])
    }

    /// The carries that the two carry bits stand for at a place.
    #[inline]
    pub(crate) fn carries(&self, place: usize) -> [u8; 2] {
        [0, 1].map(|c| c ^ self.mask_in(place))
    }

    /// Add table (i, j).
    fn add_table(&self, i: usize, j: usize, out: &mut [u8]) {
        let (place, (key, other)) = (8 * i + j, self.keys(i, j));
        let first = coding(&self.before, place).map(|a| a ^ key);
        let second = coding(&self.before, place + 8).map(|b| b ^ other);
        let entry = self.coded(place, coding(self.middles, place));
        add_entries(entry, self.carries(place), first, second, out);
    }

    /// Turn table (i, j).
    fn turn_table(&self, i: usize, j: usize, out: &mut [u8]) {
        let (high, low) = TURNED[i];
        let first = coding(&self.opened, 8 * i + (j + high) % 8);
        let second = coding(&self.opened, 8 * i + (j + low) % 8);
        let factor = if i == 1 { 8 } else { 2 };
        turn_entries(factor, first, second, coding(self.after, 8 * i + j), out);
    }

    fn tables(&self, out: &mut [u8]) {
        let (adds, turns) = out.split_at_mut(MIDDLES * ADD);
        fill(adds, ADD, |i, j, table| self.add_table(i, j, table));
        fill(turns, TURN, |i, j, table| self.turn_table(i, j, table));
    }
}

/// A group of fold tables: half bytes decoded by two sets, given inverted, are xored, with a key too,
/// and coded by a third set.
pub(crate) fn fold_group(opened: [&[u8; SET]; 2], key: &Block, set: &[u8], group: &mut [u8]) {
    for (p, table) in group.chunks_exact_mut(FOLD).enumerate() {
        let (second, image) = (coding(opened[1], p), coding(set, p));
        let first = coding(opened[0], p).map(|t| t ^ block_half(key, p));
        for (row, t) in table.chunks_exact_mut(16).zip(first) {
            for (e, m) in row.iter_mut().zip(second) {
                *e = image[usize::from(t ^ m) % 16];
            }
        }
    }
}

/// The three groups of fold tables, from the last set and U to set 0.
fn groups(chain: Chain, keys: [Block; 3], out: &mut [u8]) {
    let last = chain::inverted(chain.set(chain.rounds()));
    let message = chain::inverted(chain.message());
    for (group, key) in out.chunks_exact_mut(GROUP).zip(keys) {
        fold_group([&last, &message], &key, chain.set(0), group);
    }
}

/// Refuses an output that is too short; else the part of it that is written.
pub(crate) fn room(out: &mut [u8], bytes: usize) -> Result<&mut [u8], u32> {
    out.get_mut(..bytes).ok_or(refusal::SHORT_OUTPUT)
}

/// The whole book of a key and a chain, to the front of out.
pub fn build(schedule: u8, key: &[u8], chain: &[u8], out: &mut [u8]) -> Result<(), u32> {
    let mut rows = EMPTY;
    let size = expand(schedule, key, &mut rows)?;
    let chain = chain::check(key.len(), chain)?;
    let (front, rest) = room(out, size.book_bytes())?.split_at_mut(FRONT);
    let (start, rest) = rest.split_at_mut(START);
    let (folds, rounds) = rest.split_at_mut(3 * GROUP);
    front[0] = size.key_bytes() as u8;
    start.copy_from_slice(&chain::code(chain.set(size.rounds()), &[0; 16]));
    let zero = lea::block(lea::enciphered(&rows[..size.rounds()], [0; 4]));
    groups(chain, [[0; 16], double(zero), double(double(zero))], folds);
    for (l, tables) in rounds.chunks_exact_mut(ROUND).enumerate() {
        Round::new(chain, &rows[l], l).tables(tables);
    }
    Ok(())
}

/// The tables of one round of the book, its number taken mod the key's rounds, to the front of out.
pub fn build_round(
    schedule: u8,
    key: &[u8],
    chain: &[u8],
    number: usize,
    out: &mut [u8],
) -> Result<(), u32> {
    let mut rows = EMPTY;
    let size = expand(schedule, key, &mut rows)?;
    let chain = chain::check(key.len(), chain)?;
    let l = number % size.rounds();
    Round::new(chain, &rows[l], l).tables(room(out, ROUND)?);
    Ok(())
}
