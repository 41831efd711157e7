//! Rounds, sealing and reading from books, on both versions.

use crate::lent::{both, told, written, FILL, LENGTH};
use reference::lea::Block;
use reference::{driver, reading};

/// A block through the first rounds of a book.
pub fn rounds(book: &[u8], count: usize, block: &[u8]) -> Result<Block, u32> {
    let told = written(FILL, |out| bowlinette::run_rounds(book, count, block, out));
    let want = driver::run_rounds(book, count, block);
    let given = (book.len(), book.first(), block.len());
    assert_eq!(told, want, "{count} rounds, {given:?}");
    told
}

/// A block through the tables of a round.
pub fn round(tables: &[u8], block: &[u8]) -> Result<Block, u32> {
    let told = written(FILL, |out| bowlinette::run_round(tables, block, out));
    let want = driver::run_round(tables, block);
    assert_eq!(told, want, "a round, {} bytes", tables.len());
    told
}

/// Sealing or reading on both versions.
pub type Pass = fn(&[u8], &[u8], &[u8], usize) -> (u32, Vec<u8>);

/// What both versions of sealing or of reading make of a book, an IV and whole blocks in a buffer of a
/// length: the number, and the buffer.
fn passed(
    name: &str,
    (book, iv, text, room): (&[u8], &[u8], &[u8], usize),
    proved: bowlinette::Pass,
    reference: driver::Pass,
) -> (u32, Vec<u8>) {
    let (told, left) = both(
        (name, book.len(), book.first(), iv.len(), text.len(), room),
        room,
        |out| told(LENGTH, |length| proved(book, iv, text, out, length)),
        |out| reference(book, iv, text, out).map(|n| n as u64),
    );
    (told.err().unwrap_or(0), left)
}

/// A coded message sealed into a buffer of a length: the number, and the buffer.
pub fn seal(book: &[u8], iv: &[u8], coded: &[u8], room: usize) -> (u32, Vec<u8>) {
    let proved = bowlinette::seal;
    passed("seal", (book, iv, coded, room), proved, driver::seal)
}

/// A sealed message read by a reading book into a buffer of a length: the number, and the buffer.
pub fn read(book: &[u8], iv: &[u8], sealed: &[u8], room: usize) -> (u32, Vec<u8>) {
    let proved = bowlinette::read;
    passed("read", (book, iv, sealed, room), proved, reading::read)
}
