//! The cipher of the proved library and of the reference under one set of names.

use crate::lent::{written, FILL};
use reference::lea::{self, Block, Row};

/// What a call gives, or the number of its refusal.
type Answer<T> = Result<T, u32>;

pub struct Version {
    pub name: &'static str,
    pub encipher: fn(u8, &[u8], &[u8]) -> Answer<Block>,
    pub decipher: fn(u8, &[u8], &[u8]) -> Answer<Block>,
    pub first_rounds: fn(u8, &[u8], usize, &[u8]) -> Answer<Block>,
    pub round_keys: fn(u8, &[u8], usize) -> Answer<Row>,
}

pub const PROVED: Version = Version {
    name: "proved library",
    encipher: |schedule, key, block| {
        written(FILL, |out| bowlinette::encipher(schedule, key, block, out))
    },
    decipher: |schedule, key, block| {
        written(FILL, |out| bowlinette::decipher(schedule, key, block, out))
    },
    first_rounds: |schedule, key, n, block| {
        written(FILL, |out| {
            bowlinette::first_rounds(schedule, key, n, block, out)
        })
    },
    round_keys: |schedule, key, n| {
        written(FILL.into(), |row| {
            bowlinette::round_keys(schedule, key, n, row)
        })
    },
};

pub const REFERENCE: Version = Version {
    name: "reference",
    encipher: lea::encipher,
    decipher: lea::decipher,
    first_rounds: lea::first_rounds,
    round_keys: lea::round_keys,
};
