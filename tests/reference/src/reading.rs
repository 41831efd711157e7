//! Reading books (request 2026-01): tables that undo the rounds, and sealed files read by them. Of a
//! subtract table's entry the bits 0 to 4 are used, of any other entry the bits 0 to 3.

use crate::book::{self, coding, Round, GROUP, TURN};
use crate::chain::{self, Chain, MIDDLES, SET};
use crate::driver::{self, added, block, fold, halves, turned, Halves};
use crate::lea::{whole, Row};
use crate::schedule::{expand, EMPTY};
use crate::{refusal, Size};

/// A subtract table, and the tables of a reading round.
pub const SUBTRACT: usize = 512;
pub const ROUND: usize = MIDDLES * (TURN + SUBTRACT);

/// Half byte j of word i turned back is made of the half bytes j + high and j + low, mod 8, of the word.
const TURNED: [(usize, usize); 3] = [(3, 2), (7, 6), (0, 7)];
/// Of these, u and v, it is (8u + v/2) mod 16 where the factor is 8, and (2u + v/8) mod 16 where it is 2.
const FACTORS: [u8; 3] = [8, 2, 8];

/// What the tables of reading round l are made of: what the tables of a book's round are, with key row
/// r - 1 - l, and set l + 1 inverted too.
struct Undone<'a> {
    round: Round<'a>,
    new: [u8; SET],
}

impl<'a> Undone<'a> {
    fn new(chain: Chain<'a>, row: &'a Row, l: usize) -> Undone<'a> {
        Undone {
            round: Round::new(chain, row, l),
            new: chain::inverted(chain.set(l + 1)),
        }
    }

    /// Turn table (i, j).
    fn turn_table(&self, i: usize, j: usize, out: &mut [u8]) {
        let ((high, low), old) = (TURNED[i], &self.round.before);
        let first = coding(old, 8 * i + (j + high) % 8);
        let second = coding(old, 8 * i + (j + low) % 8);
        let middle = coding(self.round.middles, 8 * i + j);
        book::turn_entries(FACTORS[i], first, second, middle, out);
    }

    /// Subtract table (i, j): t, less x with a round key in it, less the borrow. Counted mod 32, what is
    /// negative is 16 to 31.
    fn subtract_table(&self, i: usize, j: usize, out: &mut [u8]) {
        let (place, (key, other)) = (8 * i + j, self.round.keys(i, j));
        let less = |n: u8| (32 - n) % 32;
        let first = *coding(&self.round.opened, place);
        let second = coding(&self.new, place).map(|x| less(x ^ key));
        let borrows = self.round.carries(place).map(less);
        let after = coding(self.round.after, place + 8);
        let image = std::array::from_fn(|d| after[d ^ usize::from(other)]);
        let entry = self.round.coded(place, &image);
        book::add_entries(entry, borrows, first, second, out);
    }

    fn tables(&self, out: &mut [u8]) {
        let (turns, subtracts) = out.split_at_mut(MIDDLES * TURN);
        book::fill(turns, TURN, |i, j, table| self.turn_table(i, j, table));
        let subtract = |i, j, table: &mut [u8]| self.subtract_table(i, j, table);
        book::fill(subtracts, SUBTRACT, subtract);
    }
}

/// The reading book of a key and a reading chain, to the front of out.
pub fn build(schedule: u8, key: &[u8], chain: &[u8], out: &mut [u8]) -> Result<(), u32> {
    let mut rows = EMPTY;
    let size = expand(schedule, key, &mut rows)?;
    let chain = chain::check_reading(key.len(), chain)?;
    let (r, out) = (size.rounds(), book::room(out, size.reading_bytes())?);
    let (rounds, group) = out.split_at_mut(ROUND * r);
    for (l, tables) in rounds.chunks_exact_mut(ROUND).enumerate() {
        Undone::new(chain, &rows[r - 1 - l], l).tables(tables);
    }
    let opened = [chain.set(r), chain.set(0)].map(chain::inverted);
    book::fold_group([&opened[0], &opened[1]], &[0; 16], chain.message(), group);
    Ok(())
}

/// One reading round of tables: new word 0 is old word 3, and each new word serves to make the next.
#[inline]
pub fn round(tables: &[u8], old: &Halves) -> Halves {
    let (turns, subtracts) = tables.split_at(MIDDLES * TURN);
    let mut new = [0; 32];
    new[..8].copy_from_slice(&old[24..]);
    for (i, places) in TURNED.into_iter().enumerate() {
        let at = 8 * i;
        let word = turned(&turns[TURN * at..], &old[at..at + 8], places);
        let next = added(&subtracts[SUBTRACT * at..], &word, &new[at..at + 8]);
        new[at + 8..at + 16].copy_from_slice(&next);
    }
    new
}

/// A sealed file read from its IV, to the front of out: the length of what was written. Each block goes
/// through the rounds and is folded with the sealed block before it.
pub fn read(book: &[u8], iv: &[u8], sealed: &[u8], out: &mut [u8]) -> Result<usize, u32> {
    if !Size::ALL.iter().any(|s| s.reading_bytes() == book.len()) {
        return Err(refusal::BOOK_LENGTH);
    }
    let (rounds, group) = book.split_at(book.len() - GROUP);
    let mut before = halves(whole(iv)?);
    let room = driver::room(sealed.len(), out)?;
    for (text, place) in sealed.chunks_exact(16).zip(room.chunks_exact_mut(16)) {
        let text = halves(whole(text)?);
        let mut x = text;
        for tables in rounds.chunks_exact(ROUND) {
            x = round(tables, &x);
        }
        place.copy_from_slice(&block(&fold(group, &x, &before)));
        before = text;
    }
    Ok(sealed.len())
}
