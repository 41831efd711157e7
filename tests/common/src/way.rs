//! A message on its whole way, each step on both versions.

use crate::archive::{check, open};
use crate::books::Built;
use crate::driver::{read, seal};
use crate::pad::{code, due, padded, Use};
use crate::session::tag;
use reference::chain::decode_all;
use reference::lea::Block;

/// What is read of a sealed file, decoded by the reading chain's message set.
pub fn text_read(reading: &Built, iv: &[u8], sealed: &[u8]) -> Vec<u8> {
    let (number, out) = read(&reading.book, iv, sealed, sealed.len());
    assert_eq!(number, 0, "{} bytes", sealed.len());
    decode_all(reading.message_set(), &out)
}

/// A message coded and sealed: what is read of it is the padded message, and it opens to the message.
pub fn sealed(sealing: &Built, reading: &Built, iv: &[u8], message: &[u8]) {
    let given = (sealing.schedule, sealing.size(), message.len());
    let text = padded(message);
    let room = text.len();
    let (told, coded) = code(Use::Sealing, sealing.message_set(), message, room);
    assert_eq!(told, Ok((room, None)), "{given:?}: coded");
    let (number, sealed) = seal(&sealing.book, iv, &coded, room);
    assert_eq!(number, 0, "{given:?}: sealed");
    assert!(text_read(reading, iv, &sealed) == text, "{given:?}: read");
    let opened = open(
        sealing.schedule,
        &sealing.key,
        sealing.last_set(),
        iv,
        &sealed,
        room,
    );
    let same = opened.as_deref() == Ok(message);
    assert!(same, "{given:?}: opened");
}

/// A message coded and tagged: its tag, which must be Valid.
pub fn tagged(built: &Built, message: &[u8]) -> Block {
    let given = (built.schedule, built.size(), message.len());
    let room = due(Use::Tag, message.len());
    let (told, coded) = code(Use::Tag, built.message_set(), message, room);
    let (_, kind) = told.unwrap();
    let tag = tag(&built.book, &coded, kind.unwrap());
    let valid = check(built.schedule, &built.key, built.last_set(), message, &tag);
    assert_eq!(valid, Ok(true), "{given:?}: the tag");
    tag
}
