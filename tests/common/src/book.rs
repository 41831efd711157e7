//! Checking sets and chains, and building books and rounds of them, on both versions.

use crate::lent::{answer, both};
use reference::chain::{self, Chain};
use reference::{book, reading};

/// What is said of a lone set.
pub fn check_set(set: &[u8]) -> u32 {
    let number = bowlinette::check_set(set);
    let want = chain::check_set(set).err().unwrap_or(0);
    assert_eq!(number, want, "a set of {} bytes", set.len());
    number
}

/// What both versions of a check say of a chain.
fn checked<'a>(
    name: &str,
    (key, chain): (usize, &'a [u8]),
    proved: fn(usize, &[u8]) -> u32,
    reference: fn(usize, &'a [u8]) -> Result<Chain<'a>, u32>,
) -> u32 {
    let number = proved(key, chain);
    let want = reference(key, chain).err().unwrap_or(0);
    assert_eq!(number, want, "key of {key}, {name} of {}", chain.len());
    number
}

/// What is said of a chain for keys of so many bytes.
pub fn check_chain(key: usize, chain: &[u8]) -> u32 {
    let proved = bowlinette::check_chain;
    checked("chain", (key, chain), proved, chain::check)
}

/// What is said of a reading chain for keys of so many bytes.
pub fn check_reading_chain(key: usize, chain: &[u8]) -> u32 {
    let proved = bowlinette::check_reading_chain;
    checked("reading chain", (key, chain), proved, chain::check_reading)
}

/// Building on both versions.
pub type Build = fn(u8, &[u8], &[u8], usize) -> (u32, Vec<u8>);

/// What both versions of a builder make of a schedule, a key and a chain in a buffer of a length: the number,
/// and the buffer.
fn built(
    name: &str,
    (schedule, key, chain, room): (u8, &[u8], &[u8], usize),
    proved: fn(u8, &[u8], &[u8], &mut [u8]) -> u32,
    reference: book::Build,
) -> (u32, Vec<u8>) {
    let (told, left) = both(
        (name, schedule, key.len(), chain.len(), room),
        room,
        |out| answer(proved(schedule, key, chain, out)),
        |out| reference(schedule, key, chain, out),
    );
    (told.err().unwrap_or(0), left)
}

/// The book of a key and a chain in a buffer of a length: the number, and the buffer.
pub fn build(schedule: u8, key: &[u8], chain: &[u8], room: usize) -> (u32, Vec<u8>) {
    let proved = bowlinette::build;
    built("build", (schedule, key, chain, room), proved, book::build)
}

/// The reading book of a key and a reading chain.
pub fn build_reading(schedule: u8, key: &[u8], chain: &[u8], room: usize) -> (u32, Vec<u8>) {
    let proved = bowlinette::build_reading;
    built(
        "build_reading",
        (schedule, key, chain, room),
        proved,
        reading::build,
    )
}

/// One round of a book.
pub fn build_round(
    schedule: u8,
    key: &[u8],
    chain: &[u8],
    number: usize,
    room: usize,
) -> (u32, Vec<u8>) {
    let (told, left) = both(
        (
            "build_round",
            schedule,
            key.len(),
            chain.len(),
            number,
            room,
        ),
        room,
        |out| answer(bowlinette::build_round(schedule, key, chain, number, out)),
        |out| book::build_round(schedule, key, chain, number, out),
    );
    (told.err().unwrap_or(0), left)
}
