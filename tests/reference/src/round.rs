//! The round program (01, "Table of examples", its last paragraph) without any table: after n rounds
//! the opened block is what the first n rounds of LEA make of the coded block decoded by set 0.

use crate::lea::{self, Block};
use crate::{chain, refusal, Schedule, Size};

/// What the program prints for its input.
pub fn printed(input: &[u8]) -> String {
    match opened(input) {
        Ok((first, rounds, last)) => format!("1 {}\n{rounds} {}\n", hex(&first), hex(&last)),
        Err(number) => format!("refused {number}\n"),
    }
}

/// How many bytes the program reads of its input.
pub fn wanted(input: &[u8]) -> usize {
    match input.first().map(|&length| Size::of_key(length.into())) {
        Some(Some(size)) => input
            .len()
            .min(1 + size.key_bytes() + size.chain_bytes() + 16),
        Some(None) => 1,
        None => 0,
    }
}

/// The opened block after the first round, the number of rounds, and the opened block after all.
fn opened(input: &[u8]) -> Result<(Block, usize, Block), u32> {
    let (length, rest) = parted(input, 1).ok_or(refusal::KEY_LENGTH)?;
    let size = Size::of_key(length[0].into()).ok_or(refusal::KEY_LENGTH)?;
    let (key, rest) = parted(rest, size.key_bytes()).ok_or(refusal::KEY_LENGTH)?;
    let (codings, rest) = parted(rest, size.chain_bytes()).ok_or(refusal::CHAIN_LENGTH)?;
    let chain = chain::check(key.len(), codings)?;
    let (coded, _) = parted(rest, 16).ok_or(refusal::BLOCK_LENGTH)?;
    let plain = chain::decode(chain.set(0), coded.try_into().unwrap());
    let schedule = Schedule::Lea.number();
    let first = lea::first_rounds(schedule, key, 1, &plain)?;
    let last = lea::encipher(schedule, key, &plain)?;
    Ok((first, size.rounds(), last))
}

/// The first bytes, if there are so many, and the rest.
fn parted(bytes: &[u8], count: usize) -> Option<(&[u8], &[u8])> {
    Some((bytes.get(..count)?, &bytes[count..]))
}

fn hex(block: &Block) -> String {
    block.iter().map(|byte| format!("{byte:02x}")).collect()
}
