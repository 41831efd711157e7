//! The pad's two codings on both versions.

use crate::lent::{both, told, FILL, LENGTH};
use reference::pad::{self, BLOCK};

/// What a coding is for.
#[derive(Clone, Copy, Debug, PartialEq)]
pub enum Use {
    Sealing,
    Tag,
}

pub const USES: [Use; 2] = [Use::Sealing, Use::Tag];

/// The length and, for a tag, the kind of what was written, or the number of the refusal.
pub type Coded = Result<(usize, Option<u8>), u32>;

/// How many bytes the coding of a message of n bytes has.
pub fn due(uses: Use, n: usize) -> usize {
    match uses {
        Use::Sealing => n / BLOCK * BLOCK + BLOCK,
        Use::Tag => (n.max(1) + BLOCK - 1) / BLOCK * BLOCK,
    }
}

/// A message with its PKCS#7 padding.
pub fn padded(message: &[u8]) -> Vec<u8> {
    let added = BLOCK - message.len() % BLOCK;
    [message, &vec![added as u8; added]].concat()
}

fn proved(uses: Use, u: &[u8], message: &[u8], out: &mut [u8]) -> Coded {
    match uses {
        Use::Sealing => told(LENGTH, |length| {
            bowlinette::code_for_sealing(u, message, out, length)
        })
        .map(|length| (length as usize, None)),
        Use::Tag => told((LENGTH, FILL), |(length, kind)| {
            bowlinette::code_for_tag(u, message, out, length, kind)
        })
        .map(|(length, kind)| (length as usize, Some(kind))),
    }
}

fn reference(uses: Use, u: &[u8], message: &[u8], out: &mut [u8]) -> Coded {
    match uses {
        Use::Sealing => pad::code_for_sealing(u, message, out).map(|n| (n, None)),
        Use::Tag => pad::code_for_tag(u, message, out).map(|(n, kind)| (n, Some(kind))),
    }
}

/// A message coded into a buffer of a length: what is told, and the buffer.
pub fn code(uses: Use, u: &[u8], message: &[u8], room: usize) -> (Coded, Vec<u8>) {
    both(
        ("code for", uses, u.len(), message.len(), room),
        room,
        |out| proved(uses, u, message, out),
        |out| reference(uses, u, message, out),
    )
}
