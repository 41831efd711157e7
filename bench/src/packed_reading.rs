//! Reading in Rust in the shape of the proved one: the sealed blocks are copied to the output, all of them
//! go through a round there before any goes through the next, and at last each is folded with the sealed
//! block before it.

use crate::packed::{add_two, fold, turn_two, Tables};
use reference::book::{GROUP, TURN};
use reference::chain::MIDDLES;
use reference::driver::room;
use reference::lea::{whole, Block};
use reference::reading::{ROUND, SUBTRACT};
use reference::{refusal, Size};

/// The three words of a block turned.
#[inline]
fn turned(t: &Tables, y: &Block) -> [u8; 12] {
    let mut s = [0; 12];
    for m in 0..4 {
        s[m] = turn_two(t, 0, y, [0, m], [3, 2]);
        s[m + 4] = turn_two(t, 0, y, [1, m], [7, 6]);
        s[m + 8] = turn_two(t, 0, y, [2, m], [0, 7]);
    }
    s
}

/// Byte m of the new words: of word 0 it is the old word 3's, of each other it is made of the one before.
#[inline]
fn subtract(t: &Tables, s: &[u8; 12], m: usize, c: &mut [usize; 3], y: &mut Block) {
    let place = MIDDLES * TURN + 2 * SUBTRACT * m;
    y[m] = y[m + 12];
    (y[m + 4], c[0]) = add_two(t, place, c[0], s[m], y[m]);
    (y[m + 8], c[1]) = add_two(t, place + 8 * SUBTRACT, c[1], s[m + 4], y[m + 4]);
    (y[m + 12], c[2]) = add_two(t, place + 16 * SUBTRACT, c[2], s[m + 8], y[m + 8]);
}

/// A reading round.
#[inline]
fn step(t: &Tables, y: &mut Block) {
    let (s, mut c) = (turned(t, y), [0; 3]);
    for m in 0..4 {
        subtract(t, &s, m, &mut c, y);
    }
}

/// A sealed message read from its IV, to the front of out: the length of what was written.
pub fn read(book: &[u8], iv: &[u8], sealed: &[u8], out: &mut [u8]) -> Result<usize, u32> {
    if !Size::ALL.iter().any(|s| s.reading_bytes() == book.len()) {
        return Err(refusal::BOOK_LENGTH);
    }
    let (rounds, group) = book.split_at(book.len() - GROUP);
    let (iv, room) = (whole(iv)?, room(sealed.len(), out)?);
    room.copy_from_slice(sealed);
    for tables in rounds.chunks_exact(ROUND) {
        let tables = tables.try_into().unwrap();
        for block in room.chunks_exact_mut(16) {
            step(tables, block.try_into().unwrap());
        }
    }
    let before = sealed.chunks_exact(16).map(|text| text.try_into().unwrap());
    for (place, before) in room
        .chunks_exact_mut(16)
        .zip([iv].into_iter().chain(before))
    {
        let place: &mut Block = place.try_into().unwrap();
        *place = fold(group.try_into().unwrap(), place, before);
    }
    Ok(sealed.len())
}
