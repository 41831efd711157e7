//! What the tests of the reference draw from.

use reference::chain::CODING;
use reference::lea::Block;
use reference::{book, chain, Size};

/// Numbers below a bound, the same in every run.
pub fn numbers(seed: u32) -> impl FnMut(usize) -> usize {
    let mut state = seed;
    move |bound| {
        state = state.wrapping_mul(1_664_525).wrapping_add(1_013_904_223);
        (state >> 16) as usize % bound
    }
}

/// A random block.
pub fn block(below: &mut impl FnMut(usize) -> usize) -> Block {
    std::array::from_fn(|_| below(256) as u8)
}

pub fn xor(a: Block, b: Block) -> Block {
    std::array::from_fn(|k| a[k] ^ b[k])
}

/// What a half byte decodes to by coding k of those in a row.
pub fn opened(codings: &[u8], k: usize, half: usize) -> usize {
    let coding = &codings[CODING * k..][..CODING];
    coding.iter().position(|&x| usize::from(x) == half).unwrap()
}

/// The masks of the carries, or borrows, into half byte j and out of it, of the eight masks of a word: none into
/// half byte 0, and that at half byte 0 out of half byte 7.
pub fn hidden(masks: &[u8], j: usize) -> [u8; 2] {
    match j {
        0 => [0, masks[1]],
        7 => [masks[7], masks[0]],
        _ => [masks[j], masks[j + 1]],
    }
}

/// A key, a chain and their book by a schedule.
pub fn built(
    schedule: u8,
    size: Size,
    below: &mut impl FnMut(usize) -> usize,
) -> (Vec<u8>, Vec<u8>, Vec<u8>) {
    let key: Vec<u8> = (0..size.key_bytes()).map(|_| below(256) as u8).collect();
    let chain = chain::random(size, below);
    let mut book = vec![0; size.book_bytes()];
    assert_eq!(book::build(schedule, &key, &chain, &mut book), Ok(()));
    (key, chain, book)
}
