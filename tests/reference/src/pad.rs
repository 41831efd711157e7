//! The pad's codings (01, "Pad, driver, archive"): a message padded, its blocks coded by the message
//! set U.

use crate::chain;
use crate::lea::Block;
use crate::refusal;

/// The longest message.
pub const LONGEST: usize = 1_048_575;
/// A block.
pub const BLOCK: usize = 16;

/// For sealing, to the front of out: the length of what was written.
pub fn code_for_sealing(u: &[u8], message: &[u8], out: &mut [u8]) -> Result<usize, u32> {
    chain::check_set(u)?;
    let (whole, rest) = split(message)?;
    let added = BLOCK - rest.len();
    let mut last = [added as u8; BLOCK];
    last[..rest.len()].copy_from_slice(rest);
    write(u, whole, Some(last), out)
}

/// For a tag, to the front of out: the length of what was written, and the kind.
pub fn code_for_tag(u: &[u8], message: &[u8], out: &mut [u8]) -> Result<(usize, u8), u32> {
    chain::check_set(u)?;
    let (whole, rest) = split(message)?;
    if rest.is_empty() && !whole.is_empty() {
        return Ok((write(u, whole, None, out)?, 0));
    }
    let mut last = [0; BLOCK];
    last[..rest.len()].copy_from_slice(rest);
    last[rest.len()] = 0x80;
    Ok((write(u, whole, Some(last), out)?, 1))
}

/// The whole blocks of a message that is not too long, and what is left after them.
fn split(message: &[u8]) -> Result<(&[u8], &[u8]), u32> {
    if message.len() > LONGEST {
        return Err(refusal::MESSAGE_LENGTH);
    }
    Ok(message.split_at(message.len() - message.len() % BLOCK))
}

/// Whole blocks, and one more where there is one, coded: how many bytes.
fn write(u: &[u8], whole: &[u8], last: Option<Block>, out: &mut [u8]) -> Result<usize, u32> {
    let blocks = whole
        .chunks_exact(BLOCK)
        .map(|block| block.try_into().unwrap())
        .chain(last);
    let total = whole.len() + last.map_or(0, |block| block.len());
    let room = out.get_mut(..total).ok_or(refusal::SHORT_OUTPUT)?;
    let images = chain::images(u);
    for (block, place) in blocks.zip(room.chunks_exact_mut(BLOCK)) {
        let block: Block = block;
        for k in 0..BLOCK {
            place[k] = images[k][usize::from(block[k])];
        }
    }
    Ok(total)
}
