//! Decoding by a set, which the library does inside its own operations alone.

use crate::secret::Secret;
use crate::sizes::{BLOCK, CODING, SET};

/// Decodes whole blocks in their place by a set that was checked, half byte by half byte: each is where its code stands
/// in its coding of the set.
pub fn decode(set: &[u8], text: &mut [u8]) {
    let mut plain = Secret::zeros(SET);
    for (coding, places) in set.chunks_exact(CODING).zip(plain.chunks_exact_mut(CODING)) {
        for (value, &code) in (0..).zip(coding) {
            places[usize::from(code)] = value;
        }
    }
    for block in text.chunks_exact_mut(BLOCK) {
        for (byte, codings) in block.iter_mut().zip(plain.chunks_exact(2 * CODING)) {
            let (low, high) = codings.split_at(CODING);
            *byte = low[usize::from(*byte & 15)] | high[usize::from(*byte >> 4)] << 4;
        }
    }
}
