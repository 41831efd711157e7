//! The block cipher (01, "LEA"; request 2026-07): rounds over the rows of either schedule.

use crate::refusal;
use crate::schedule::{expand, EMPTY};

pub type Block = [u8; 16];
/// A block as four words.
pub type State = [u32; 4];
/// The six round keys of one round.
pub type Row = [u32; 6];

/// Word k of a run of bytes, lowest byte first (01, "LEA", first paragraph).
#[inline]
pub(crate) fn word(bytes: &[u8], k: usize) -> u32 {
    u32::from_le_bytes([
        bytes[4 * k],
        bytes[4 * k + 1],
        bytes[4 * k + 2],
        bytes[4 * k + 3],
    ])
}

/// The words of a block.
#[inline]
pub fn state(block: &Block) -> State {
    [
        word(block, 0),
        word(block, 1),
        word(block, 2),
        word(block, 3),
    ]
}

/// The bytes of a block given as words.
#[inline]
pub fn block(x: State) -> Block {
    let mut bytes = [0; 16];
    for (four, w) in bytes.chunks_exact_mut(4).zip(x) {
        four.copy_from_slice(&w.to_le_bytes());
    }
    bytes
}

/// One round in place (01, "LEA", round). Old words 0 to 3 are a, b, c, d; new ones are b, c, d, a.
#[inline(always)]
fn round(k: &Row, a: u32, b: &mut u32, c: &mut u32, d: &mut u32) {
    *d = (*c ^ k[4]).wrapping_add(*d ^ k[5]).rotate_right(3);
    *c = (*b ^ k[2]).wrapping_add(*c ^ k[3]).rotate_right(5);
    *b = (a ^ k[0]).wrapping_add(*b ^ k[1]).rotate_left(9);
}

/// The same round undone, of N blocks side by side: new words in b, c, d, a, old ones in a, b, c, d.
#[inline(always)]
fn undo<const N: usize>(
    k: &Row,
    a: &[u32; N],
    b: &mut [u32; N],
    c: &mut [u32; N],
    d: &mut [u32; N],
) {
    for n in 0..N {
        b[n] = b[n].rotate_right(9).wrapping_sub(a[n] ^ k[0]) ^ k[1];
        c[n] = c[n].rotate_left(5).wrapping_sub(b[n] ^ k[2]) ^ k[3];
        d[n] = d[n].rotate_left(3).wrapping_sub(c[n] ^ k[4]) ^ k[5];
    }
}

/// A block taken through the rounds of these rows.
#[inline]
pub fn forward(rows: &[Row], x: State) -> State {
    let [mut a, mut b, mut c, mut d] = x;
    for k in rows {
        round(k, a, &mut b, &mut c, &mut d);
        [a, b, c, d] = [b, c, d, a];
    }
    [a, b, c, d]
}

/// The rounds of these rows undone, the last first.
#[inline]
pub fn backward(rows: &[Row], x: State) -> State {
    let [mut a, mut b, mut c, mut d] = x.map(|word| [word]);
    for k in rows.iter().rev() {
        [a, b, c, d] = [d, a, b, c];
        undo(k, &a, &mut b, &mut c, &mut d);
    }
    [a[0], b[0], c[0], d[0]]
}

/// A block enciphered by all rows of a schedule, four at a time: after four no word has moved.
#[inline(always)]
pub fn enciphered(rows: &[Row], x: State) -> State {
    let [mut a, mut b, mut c, mut d] = x;
    for k in rows.chunks_exact(4) {
        round(&k[0], a, &mut b, &mut c, &mut d);
        round(&k[1], b, &mut c, &mut d, &mut a);
        round(&k[2], c, &mut d, &mut a, &mut b);
        round(&k[3], d, &mut a, &mut b, &mut c);
    }
    [a, b, c, d]
}

/// N blocks deciphered by all rows of a schedule side by side, so that wide registers may be used.
#[inline(always)]
pub fn deciphered<const N: usize>(rows: &[Row], x: [State; N]) -> [State; N] {
    let words = |w: usize| -> [u32; N] { std::array::from_fn(|n| x[n][w]) };
    let (mut a, mut b, mut c, mut d) = (words(0), words(1), words(2), words(3));
    for k in rows.rchunks_exact(4) {
        undo(&k[3], &d, &mut a, &mut b, &mut c);
        undo(&k[2], &c, &mut d, &mut a, &mut b);
        undo(&k[1], &b, &mut c, &mut d, &mut a);
        undo(&k[0], &a, &mut b, &mut c, &mut d);
    }
    std::array::from_fn(|n| [a[n], b[n], c[n], d[n]])
}

/// A block given as bytes; refuses all but 16 of them.
#[inline]
pub fn whole(bytes: &[u8]) -> Result<&Block, u32> {
    bytes.try_into().map_err(|_| refusal::BLOCK_LENGTH)
}

/// A block enciphered.
#[inline]
pub fn encipher(schedule: u8, key: &[u8], text: &[u8]) -> Result<Block, u32> {
    let mut rows = EMPTY;
    let size = expand(schedule, key, &mut rows)?;
    let x = state(whole(text)?);
    Ok(block(enciphered(&rows[..size.rounds()], x)))
}

/// A block deciphered.
#[inline]
pub fn decipher(schedule: u8, key: &[u8], text: &[u8]) -> Result<Block, u32> {
    let mut rows = EMPTY;
    let size = expand(schedule, key, &mut rows)?;
    let x = state(whole(text)?);
    let [x] = deciphered(&rows[..size.rounds()], [x]);
    Ok(block(x))
}

/// A block after the first rounds, all of them where the count is more.
#[inline]
pub fn first_rounds(schedule: u8, key: &[u8], count: usize, text: &[u8]) -> Result<Block, u32> {
    let mut rows = EMPTY;
    let size = expand(schedule, key, &mut rows)?;
    let x = state(whole(text)?);
    Ok(block(forward(&rows[..count.min(size.rounds())], x)))
}

/// The round keys of one round, its number taken mod the key's rounds.
#[inline]
pub fn round_keys(schedule: u8, key: &[u8], number: usize) -> Result<Row, u32> {
    let mut rows = EMPTY;
    let size = expand(schedule, key, &mut rows)?;
    Ok(rows[number % size.rounds()])
}

/// CMAC's chaining value after the whole blocks of a text (SP 800-38B, MAC generation).
#[inline]
pub fn cbc_mac(schedule: u8, key: &[u8], text: &[u8]) -> Result<Block, u32> {
    let mut rows = EMPTY;
    let size = expand(schedule, key, &mut rows)?;
    let rows = &rows[..size.rounds()];
    let mut x = [0; 4];
    for whole in text.chunks_exact(16) {
        let m = state(whole.try_into().unwrap());
        x = enciphered(rows, std::array::from_fn(|i| x[i] ^ m[i]));
    }
    Ok(block(x))
}
