//! Making a chain, or a reading chain, from random bytes.

use crate::timing::Times;
use reference::Size;
use shared::chains::{self, Kind};
use shared::maker::enough;
use shared::Random;
use std::hint::black_box as hide;

/// What a chain is made from: the length of its key, a set for reading chains, and as many random bytes as
/// are enough.
pub struct Given {
    key: usize,
    set: Vec<u8>,
    random: Vec<u8>,
}

impl Given {
    pub fn new(size: Size) -> Given {
        let mut random = Random(8);
        Given {
            key: size.key_bytes(),
            set: chains::set(&mut random),
            random: random.bytes(enough(size)),
        }
    }

    /// The call of the proved library.
    #[inline]
    pub fn proved(&self, kind: Kind, out: &mut [u8], drawn: &mut u64) -> u32 {
        kind.proved(self.key, &self.set, &self.random, out, drawn)
    }

    /// The call of the reference.
    #[inline]
    fn reference(&self, kind: Kind, out: &mut [u8]) -> Result<usize, u32> {
        kind.reference(self.key, &self.set, &self.random, out)
    }
}

pub fn make(kind: Kind, size: Size) -> Times {
    let (given, mut out, mut drawn) = (Given::new(size), vec![0; size.chain_bytes()], 0);
    let (mut other, mut count) = (out.clone(), Err(0));
    let times = Times::of(
        || _ = hide(hide(&given).proved(kind, &mut out, &mut drawn)),
        || count = hide(hide(&given).reference(kind, &mut other)),
    );
    assert!(out == other && count == Ok(drawn as usize));
    times
}
