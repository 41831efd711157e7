//! Codings, sets and chains (01, "Chain of codings"; request 2026-06): where everything stands, what is
//! refused, how a block is coded, and how a chain is drawn.

use crate::lea::Block;
use crate::refusal;
use crate::Size;
use std::convert::Infallible;

/// A coding in bytes: byte v is the image of v.
pub const CODING: usize = 16;
/// A set of 32 codings, and the eight of one word of it.
pub const SET: usize = 32 * CODING;
pub const WORD: usize = 8 * CODING;
/// The middle codings of one round; its masks, a byte each, are as many.
pub const MIDDLES: usize = 24;
/// What a chain holds for each round after its sets.
pub const ROUND: usize = MIDDLES * CODING + MIDDLES;

/// The word rule of a kind of chain: word `old` of set l is, byte for byte, word `new` of set l + 1.
#[derive(Clone, Copy)]
pub(crate) struct Rule {
    old: usize,
    new: usize,
}

/// Chains of 01, and reading chains (request 2026-01).
pub(crate) const SEALING: Rule = Rule { old: 0, new: 3 };
pub(crate) const READING: Rule = Rule { old: 3, new: 0 };

/// The bytes of a chain, of the length that its rounds need, by name.
#[derive(Clone, Copy)]
pub struct Chain<'a> {
    bytes: &'a [u8],
    rounds: usize,
}

impl<'a> Chain<'a> {
    /// Refuses a wrong length.
    pub fn new(size: Size, bytes: &'a [u8]) -> Result<Chain<'a>, u32> {
        let rounds = size.rounds();
        if bytes.len() == size.chain_bytes() {
            Ok(Chain { bytes, rounds })
        } else {
            Err(refusal::CHAIN_LENGTH)
        }
    }

    pub fn rounds(self) -> usize {
        self.rounds
    }

    /// The message set and the sets 0 to r, one after another.
    pub fn sets(self) -> &'a [u8] {
        &self.bytes[..(self.rounds + 2) * SET]
    }

    /// The message set U.
    pub fn message(self) -> &'a [u8] {
        &self.bytes[..SET]
    }

    /// Set l, from 0 to r.
    pub fn set(self, l: usize) -> &'a [u8] {
        &self.bytes[(l + 1) * SET..][..SET]
    }

    /// The middle codings of round l.
    pub fn middles(self, l: usize) -> &'a [u8] {
        &self.bytes[(self.rounds + 2) * SET + l * ROUND..][..MIDDLES * CODING]
    }

    /// The masks of round l.
    pub fn masks(self, l: usize) -> &'a [u8] {
        &self.bytes[(self.rounds + 2) * SET + l * ROUND + MIDDLES * CODING..][..MIDDLES]
    }

    /// Refuses a chain that is not valid, the lowest number first.
    fn checked(self, rule: Rule) -> Result<Chain<'a>, u32> {
        let rounds = 0..self.rounds;
        if !permute(self.sets()) || !rounds.clone().all(|l| permute(self.middles(l))) {
            return Err(refusal::NO_PERMUTATION);
        }
        let kept = |l| word(self.set(l + 1), rule.new) == word(self.set(l), rule.old);
        if !rounds.clone().all(kept) {
            return Err(refusal::WORD_RULE);
        }
        let good = |l| self.masks(l).iter().all(|&mask| mask <= 1);
        if !rounds.clone().all(good) {
            return Err(refusal::MASK);
        }
        Ok(self)
    }
}

/// The codings of word w of a set.
fn word(set: &[u8], w: usize) -> &[u8] {
    &set[WORD * w..][..WORD]
}

/// Whether each coding of these bytes is a permutation of 0 to 15 (request 2026-04): one bit is set for each entry
/// seen, none for one over 15, and the bits are counted.
fn permute(codings: &[u8]) -> bool {
    codings.chunks_exact(CODING).all(|coding| {
        let seen = coding.iter().fold(0, |seen, &v| match v {
            0..=15 => seen | 1u16 << v,
            _ => seen,
        });
        seen.count_ones() == 16
    })
}

fn check_by(rule: Rule, key_bytes: usize, chain: &[u8]) -> Result<Chain<'_>, u32> {
    let size = Size::of_key(key_bytes).ok_or(refusal::KEY_LENGTH)?;
    Chain::new(size, chain)?.checked(rule)
}

/// A valid chain for a key of so many bytes, or the refusal.
pub fn check(key_bytes: usize, chain: &[u8]) -> Result<Chain<'_>, u32> {
    check_by(SEALING, key_bytes, chain)
}

/// A valid reading chain for a key of so many bytes, or the refusal.
pub fn check_reading(key_bytes: usize, chain: &[u8]) -> Result<Chain<'_>, u32> {
    check_by(READING, key_bytes, chain)
}

/// Whether a set that comes alone is valid, or the refusal.
pub fn check_set(set: &[u8]) -> Result<(), u32> {
    if set.len() != SET {
        return Err(refusal::CHAIN_LENGTH);
    }
    match permute(set) {
        true => Ok(()),
        false => Err(refusal::NO_PERMUTATION),
    }
}

/// Codings of so many bytes inverted, each in its place.
pub fn inverted<const N: usize>(codings: &[u8]) -> [u8; N] {
    let mut out = [0; N];
    for (coding, inverse) in codings
        .chunks_exact(CODING)
        .zip(out.chunks_exact_mut(CODING))
    {
        for (v, &image) in coding.iter().enumerate() {
            inverse[usize::from(image) % CODING] = v as u8;
        }
    }
    out
}

/// A block coded by a set: half byte p, in byte p / 2 and low if p is even, by coding p.
pub fn code(set: &[u8], block: &Block) -> Block {
    std::array::from_fn(|k| {
        let pair = &set[2 * CODING * k..][..2 * CODING];
        let (low, high) = (block[k] % 16, block[k] / 16);
        pair[usize::from(low)] + 16 * pair[CODING + usize::from(high)]
    })
}

/// A block decoded by a set.
pub fn decode(set: &[u8], coded: &Block) -> Block {
    code(&inverted::<SET>(set), coded)
}

/// What each byte becomes in each place of a block coded by a set.
pub fn images(set: &[u8]) -> [[u8; 256]; 16] {
    let mut images = [[0; 256]; 16];
    for (pair, place) in set.chunks_exact(2 * CODING).zip(&mut images) {
        let (low, high) = pair.split_at(CODING);
        for (h, row) in high.iter().zip(place.chunks_exact_mut(16)) {
            for (l, image) in low.iter().zip(row) {
                *image = l + 16 * h;
            }
        }
    }
    images
}

/// What each byte becomes in each place of a block decoded by a set.
pub fn preimages(set: &[u8]) -> [[u8; 256]; 16] {
    images(&inverted::<SET>(set))
}

/// Bytes decoded by a set, block after block.
pub fn decode_all(set: &[u8], coded: &[u8]) -> Vec<u8> {
    let plain = preimages(set);
    let byte = |(k, &x): (usize, &u8)| plain[k % 16][usize::from(x)];
    coded.iter().enumerate().map(byte).collect()
}

/// A random valid chain; `below` gives a number below its argument.
pub fn random(size: Size, below: impl FnMut(usize) -> usize) -> Vec<u8> {
    random_by(SEALING, size, None, below)
}

/// A random valid reading chain; its set 0 is the one given, if one is.
pub fn random_reading(
    size: Size,
    first: Option<&[u8]>,
    below: impl FnMut(usize) -> usize,
) -> Vec<u8> {
    random_by(READING, size, first, below)
}

fn random_by(
    rule: Rule,
    size: Size,
    first: Option<&[u8]>,
    mut below: impl FnMut(usize) -> usize,
) -> Vec<u8> {
    drawn(rule, size, first, |bound| Ok::<_, Infallible>(below(bound))).unwrap()
}

/// A valid chain of drawn codings and masks, its set 0 the one given, if one is: `below` gives a number
/// below its argument, or ends the drawing. A set that is given and what the rule fixes draw nothing.
pub(crate) fn drawn<E>(
    rule: Rule,
    size: Size,
    first: Option<&[u8]>,
    mut below: impl FnMut(usize) -> Result<usize, E>,
) -> Result<Vec<u8>, E> {
    let mut chain = Vec::with_capacity(size.chain_bytes());
    codings(SET, &mut chain, &mut below)?;
    match first {
        Some(set) => chain.extend_from_slice(set),
        None => codings(SET, &mut chain, &mut below)?,
    }
    for _ in 0..size.rounds() {
        let old = chain.len() - SET + WORD * rule.old;
        for w in 0..4 {
            if w == rule.new {
                chain.extend_from_within(old..old + WORD);
            } else {
                codings(WORD, &mut chain, &mut below)?;
            }
        }
    }
    for _ in 0..size.rounds() {
        codings(MIDDLES * CODING, &mut chain, &mut below)?;
        for _ in 0..MIDDLES {
            chain.push(below(2)? as u8);
        }
    }
    Ok(chain)
}

/// So many bytes of drawn codings, to the end of a chain.
fn codings<E>(
    bytes: usize,
    chain: &mut Vec<u8>,
    below: &mut impl FnMut(usize) -> Result<usize, E>,
) -> Result<(), E> {
    for _ in 0..bytes / CODING {
        chain.extend_from_slice(&permutation(below)?);
    }
    Ok(())
}

/// 0 to 15, with the contents of each place, from the last on, and of one up to it exchanged.
fn permutation<E>(below: &mut impl FnMut(usize) -> Result<usize, E>) -> Result<[u8; CODING], E> {
    let mut coding: [u8; CODING] = std::array::from_fn(|v| v as u8);
    for last in (1..CODING).rev() {
        coding.swap(last, below(last + 1)?);
    }
    Ok(coding)
}
