//! The archive (01, "Pad, driver, archive"): with the key, its schedule and set r it opens sealed files and checks
//! tags.

use crate::book::double;
use crate::lea::{self, deciphered, enciphered, state, Block, Row, State};
use crate::schedule::{expand, EMPTY};
use crate::{chain, driver, pad, refusal};

/// A sealed file opened from its IV, to the front of out: the length of the message. The last block
/// comes first, as nothing may be written where its padding is none.
pub fn open(
    schedule: u8,
    key: &[u8],
    set: &[u8],
    iv: &[u8],
    sealed: &[u8],
    out: &mut [u8],
) -> Result<usize, u32> {
    let mut rows = EMPTY;
    let size = expand(schedule, key, &mut rows)?;
    chain::check_set(set)?;
    let (iv, n) = (lea::whole(iv)?, sealed.len());
    let room = driver::room(n, out)?;
    let keys = Keys {
        rows: &rows[..size.rounds()],
        plain: chain::preimages(set),
    };
    let (front, last) = sealed.split_at(n - 16);
    let (whole, end) = room.split_at_mut(n - 16);
    let mut text = [0; 16];
    let before = front.rchunks_exact(16).next().unwrap_or(iv);
    keys.open::<1>(keys.decoded(before), last, &mut text);
    let rest = 16 - padding(&text)?;
    keys.open_all(iv, front, whole);
    end[..rest].copy_from_slice(&text[..rest]);
    Ok(n - 16 + rest)
}

/// The round keys, and what each byte decodes to in each place of a block.
struct Keys<'a> {
    rows: &'a [Row],
    plain: [[u8; 256]; 16],
}

impl Keys<'_> {
    /// The words of a block decoded.
    #[inline]
    fn decoded(&self, coded: &[u8]) -> State {
        let coded: &Block = coded.try_into().unwrap();
        let byte = |k: usize| self.plain[k][usize::from(coded[k])];
        std::array::from_fn(|w| u32::from_le_bytes(std::array::from_fn(|k| byte(4 * w + k))))
    }

    /// N blocks opened, given the decoded block before them: the last of them decoded.
    #[inline]
    fn open<const N: usize>(&self, mut before: State, coded: &[u8], room: &mut [u8]) -> State {
        let text: [State; N] = std::array::from_fn(|i| self.decoded(&coded[16 * i..][..16]));
        let opened = deciphered(self.rows, text);
        for (i, place) in room.chunks_exact_mut(16).enumerate() {
            place.copy_from_slice(&lea::block(xor(opened[i], before)));
            before = text[i];
        }
        before
    }

    /// All blocks opened, four at a time while there are so many.
    fn open_all(&self, iv: &Block, coded: &[u8], room: &mut [u8]) {
        let mut before = self.decoded(iv);
        let (fours, ones) = coded.split_at(coded.len() - coded.len() % 64);
        let (places, rest) = room.split_at_mut(fours.len());
        for (four, place) in fours.chunks_exact(64).zip(places.chunks_exact_mut(64)) {
            before = self.open::<4>(before, four, place);
        }
        for (one, place) in ones.chunks_exact(16).zip(rest.chunks_exact_mut(16)) {
            before = self.open::<1>(before, one, place);
        }
    }
}

/// Whether a tag, coded by set r, is that of a message.
pub fn check(
    schedule: u8,
    key: &[u8],
    set: &[u8],
    message: &[u8],
    tag: &[u8],
) -> Result<bool, u32> {
    let mut rows = EMPTY;
    let size = expand(schedule, key, &mut rows)?;
    chain::check_set(set)?;
    let tag = lea::whole(tag)?;
    if message.len() > pad::LONGEST {
        return Err(refusal::MESSAGE_LENGTH);
    }
    let due = cmac(&rows[..size.rounds()], message);
    Ok(chain::decode(set, tag) == due)
}

#[inline]
fn xor(x: State, y: State) -> State {
    std::array::from_fn(|w| x[w] ^ y[w])
}

/// How many bytes of padding a message's last block ends with.
fn padding(end: &Block) -> Result<usize, u32> {
    let v = usize::from(end[15]);
    let whole = (1..=16).contains(&v) && end[16 - v..].iter().all(|&x| x == end[15]);
    whole.then_some(v).ok_or(refusal::PADDING)
}

/// CMAC (SP 800-38B): the last block, filled up by hex 80 and zeros where it is not whole, is xored
/// with K1 where it is and with K2 where it is not.
fn cmac(rows: &[Row], message: &[u8]) -> Block {
    let first = double(lea::block(enciphered(rows, [0; 4])));
    let cut = message.len().saturating_sub(1) / 16 * 16;
    let (front, rest) = message.split_at(cut);
    let (mut last, mut subkey) = ([0; 16], first);
    last[..rest.len()].copy_from_slice(rest);
    if let Some(after) = last.get_mut(rest.len()) {
        (*after, subkey) = (0x80, double(first));
    }
    let mut x = [0; 4];
    for text in front.chunks_exact(16) {
        x = enciphered(rows, xor(x, state(text.try_into().unwrap())));
    }
    let folded = xor(xor(x, state(&last)), state(&subkey));
    lea::block(enciphered(rows, folded))
}
