//! The chain maker (requests 2026-03 and 2026-06): chains and reading chains drawn from random bytes.

use crate::book::room;
use crate::chain::{self, Rule, CODING, READING, SEALING};
use crate::{refusal, Size};
use std::slice::Iter;

/// What each byte gives for each bound up to 16: its remainder, or nothing where it is skipped.
type Remainders = [[Option<u8>; 256]; CODING + 1];

/// A byte is skipped if it is at least 256 less the remainder of 256: of the bytes below that, as many
/// give each remainder.
const fn remainders() -> Remainders {
    let mut remainders = [[None; 256]; CODING + 1];
    let mut bound = 1;
    while bound <= CODING {
        let mut byte = 0;
        while byte < 256 - 256 % bound {
            remainders[bound][byte] = Some((byte % bound) as u8);
            byte += 1;
        }
        bound += 1;
    }
    remainders
}

static REMAINDERS: Remainders = remainders();

/// A number below a bound from the next byte that is not skipped. A mask, a byte's lowest bit, is one
/// below 2, for which no byte is skipped.
#[inline]
fn below(bound: usize, bytes: &mut Iter<u8>) -> Result<usize, u32> {
    let remainders = &REMAINDERS[bound];
    let remainder = bytes.find_map(|&byte| remainders[usize::from(byte)]);
    remainder.map(usize::from).ok_or(refusal::RAN_OUT)
}

/// A chain to the front of out, which is not touched before the bytes were enough: how many were drawn.
fn make(
    rule: Rule,
    size: Size,
    first: Option<&[u8]>,
    random: &[u8],
    out: &mut [u8],
) -> Result<usize, u32> {
    let room = room(out, size.chain_bytes())?;
    let mut bytes = random.iter();
    let chain = chain::drawn(rule, size, first, |bound| below(bound, &mut bytes))?;
    room.copy_from_slice(&chain);
    Ok(random.len() - bytes.len())
}

/// A chain for keys of so many bytes, to the front of out: how many of the random bytes were drawn.
pub fn make_chain(key_length: usize, random: &[u8], out: &mut [u8]) -> Result<usize, u32> {
    let size = Size::of_key(key_length).ok_or(refusal::KEY_LENGTH)?;
    make(SEALING, size, None, random, out)
}

/// A reading chain with a given set 0, to the front of out: how many of the random bytes were drawn.
pub fn make_reading_chain(
    key_length: usize,
    set: &[u8],
    random: &[u8],
    out: &mut [u8],
) -> Result<usize, u32> {
    let size = Size::of_key(key_length).ok_or(refusal::KEY_LENGTH)?;
    chain::check_set(set)?;
    make(READING, size, Some(set), random, out)
}
