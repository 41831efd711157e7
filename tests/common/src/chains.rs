//! Random valid chains and sets, and the two kinds of chain.

use crate::book::{check_chain, check_reading_chain};
use crate::Random;
use reference::chain::{self, CODING, MIDDLES, ROUND, SET, WORD};
use reference::Size;

pub fn valid(size: Size, random: &mut Random) -> Vec<u8> {
    chain::random(size, |bound| random.below(bound))
}

/// A reading chain; its set 0 is the one given, if one is.
pub fn reading(size: Size, first: Option<&[u8]>, random: &mut Random) -> Vec<u8> {
    chain::random_reading(size, first, |bound| random.below(bound))
}

/// A set: the message set of a chain.
pub fn set(random: &mut Random) -> Vec<u8> {
    let mut chain = valid(Size::Lea128, random);
    chain.truncate(SET);
    chain
}

/// The coding that changes nothing.
pub const IDENTITY: [u8; CODING] = [0, 1, 2, 3, 4, 5, 6, 7, 8, 9, 10, 11, 12, 13, 14, 15];

/// The chain with one coding and one mask everywhere: valid of both kinds.
pub fn uniform(size: Size, coding: [u8; CODING], mask: u8) -> Vec<u8> {
    let round = [coding.repeat(MIDDLES), vec![mask; MIDDLES]].concat();
    let sets = coding.repeat(32 * (size.rounds() + 2));
    [sets, round.repeat(size.rounds())].concat()
}

/// Where the masks at half byte 0 stand in a chain, three for each round: they hide the carries, or borrows, out
/// of half byte 7.
pub fn top_masks(size: Size) -> Vec<usize> {
    let rounds = SET * (size.rounds() + 2);
    let masks = (0..size.rounds()).map(|l| rounds + ROUND * l + CODING * MIDDLES);
    masks.flat_map(|at| [at, at + 8, at + 16]).collect()
}

/// The two kinds of chain: those that a book is built from, and reading chains.
#[derive(Clone, Copy, Debug, PartialEq, Eq)]
pub enum Kind {
    Sealing,
    Reading,
}

pub const KINDS: [Kind; 2] = [Kind::Sealing, Kind::Reading];

/// Runs a check on each kind and size.
pub fn on_each(mut check: impl FnMut(Kind, Size)) {
    for kind in KINDS {
        for size in Size::ALL {
            check(kind, size);
        }
    }
}

impl Kind {
    /// A random valid chain of this kind.
    pub fn random(self, size: Size, random: &mut Random) -> Vec<u8> {
        match self {
            Kind::Sealing => valid(size, random),
            Kind::Reading => reading(size, None, random),
        }
    }

    /// What both versions say of a chain of this kind for keys of so many bytes.
    pub fn told(self, key: usize, chain: &[u8]) -> u32 {
        match self {
            Kind::Sealing => check_chain(key, chain),
            Kind::Reading => check_reading_chain(key, chain),
        }
    }

    /// The words of the word rule: the first, of a set, is the second in the next set.
    pub fn rule(self) -> (usize, usize) {
        match self {
            Kind::Sealing => (0, 3),
            Kind::Reading => (3, 0),
        }
    }

    /// Gives each word that the rule fixes the codings of the word before it.
    pub fn keep_words(self, size: Size, chain: &mut [u8]) {
        let (old, new) = self.rule();
        for l in 0..size.rounds() {
            let from = SET * (l + 1) + WORD * old;
            chain.copy_within(from..from + WORD, SET * (l + 2) + WORD * new);
        }
    }
}
