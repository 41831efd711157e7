//! Checking a chain, and building a book or a reading book from a key, by LEA's schedule, and a chain.

use crate::timing::Times;
use reference::{book, chain, reading, Size};
use shared::schedules::LEA;
use shared::{chains, Random};
use std::hint::black_box as hide;

/// A random key and chain.
struct Given {
    key: Vec<u8>,
    chain: Vec<u8>,
}

impl Given {
    fn new(size: Size, chain: impl Fn(Size, &mut Random) -> Vec<u8>) -> Given {
        let mut random = Random(3);
        Given {
            key: random.bytes(size.key_bytes()),
            chain: chain(size, &mut random),
        }
    }

    /// A book of so many bytes built.
    fn build(
        &self,
        room: usize,
        rattle: fn(u8, &[u8], &[u8], &mut [u8]) -> u32,
        rust: book::Build,
    ) -> Times {
        let (mut out, mut other) = (vec![0; room], vec![0; room]);
        let times = Times::of(
            || {
                _ = hide(rattle(
                    hide(LEA),
                    hide(&self.key),
                    hide(&self.chain),
                    &mut out,
                ))
            },
            || {
                _ = hide(rust(
                    hide(LEA),
                    hide(&self.key),
                    hide(&self.chain),
                    &mut other,
                ))
            },
        );
        assert!(out == other);
        times
    }
}

pub fn build(size: Size) -> Times {
    let given = Given::new(size, chains::valid);
    given.build(size.book_bytes(), bowlinette::build, book::build)
}

pub fn build_reading(size: Size) -> Times {
    let given = Given::new(size, |size, random| chains::reading(size, None, random));
    let rattle = bowlinette::build_reading;
    given.build(size.reading_bytes(), rattle, reading::build)
}

/// The check of a chain, beside another version of it.
pub fn check_chain_beside(size: Size, other: impl Fn(usize, &[u8]) -> bool) -> Times {
    let Given { key, chain } = Given::new(size, chains::valid);
    Times::of(
        || _ = hide(bowlinette::check_chain(hide(key.len()), hide(&chain))),
        || _ = hide(other(hide(key.len()), hide(&chain))),
    )
}

pub fn check_chain(size: Size) -> Times {
    check_chain_beside(size, |key, chain| chain::check(key, chain).is_ok())
}
