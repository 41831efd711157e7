//! Opening and checking on both versions.

use crate::lent::{both, told, FILL, LENGTH};
use reference::{archive, chain, lea};

/// A sealed file opened into a buffer of a length: the message. After it the buffer must stay.
pub fn open(
    schedule: u8,
    key: &[u8],
    set: &[u8],
    iv: &[u8],
    sealed: &[u8],
    room: usize,
) -> Result<Vec<u8>, u32> {
    let given = (schedule, key.len(), set.len(), iv.len(), sealed.len(), room);
    let (told, mut out) = both(
        ("open", given),
        room,
        |out| {
            told(LENGTH, |length| {
                bowlinette::open(schedule, key, set, iv, sealed, out, length)
            })
        },
        |out| archive::open(schedule, key, set, iv, sealed, out).map(|n| n as u64),
    );
    let after = out.split_off(told? as usize);
    assert!(after.iter().all(|&x| x == FILL), "open, {given:?}");
    Ok(out)
}

/// Whether a tag is Valid.
pub fn check(
    schedule: u8,
    key: &[u8],
    set: &[u8],
    message: &[u8],
    tag: &[u8],
) -> Result<bool, u32> {
    let valid = told(FILL, |valid| {
        bowlinette::check(schedule, key, set, message, tag, valid)
    });
    let want = archive::check(schedule, key, set, message, tag);
    let given = (schedule, key.len(), set.len(), message.len(), tag.len());
    assert_eq!(valid, want.map(u8::from), "check, {given:?}");
    let one = bowlinette::is_valid(schedule, key, set, message, tag);
    assert_eq!(one, u32::from(want == Ok(true)), "is_valid, {given:?}");
    want
}

/// A text of whole blocks sealed as the archive reads it, padding or not: CBC from the decoded IV,
/// coded by set r.
pub fn sealed_text(schedule: u8, key: &[u8], set: &[u8], iv: &[u8], text: &[u8]) -> Vec<u8> {
    let mut x = chain::decode(set, iv.try_into().unwrap());
    let mut block = |plain: &[u8]| {
        let folded: Vec<u8> = plain.iter().zip(x).map(|(a, b)| a ^ b).collect();
        x = lea::encipher(schedule, key, &folded).unwrap();
        chain::code(set, &x)
    };
    text.chunks_exact(16).flat_map(&mut block).collect()
}
