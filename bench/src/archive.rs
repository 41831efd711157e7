//! Opening a sealed message and checking a tag, from the key, by LEA's schedule, and a set.

use crate::timing::Times;
use reference::{archive, lea, Size};
use shared::archive::sealed_text;
use shared::pad::padded;
use shared::schedules::LEA;
use shared::{chains, Random};
use std::hint::black_box as hide;

/// What the archive has, and a message as it comes in.
pub struct Given {
    key: Vec<u8>,
    set: Vec<u8>,
    message: Vec<u8>,
    sealed: Vec<u8>,
    iv: lea::Block,
}

impl Given {
    /// A message of n bytes.
    pub fn new(size: Size, n: usize) -> Given {
        let mut random = Random(1);
        let (key, set) = (random.bytes(size.key_bytes()), chains::set(&mut random));
        let (message, iv) = (random.bytes(n), random.block());
        Given {
            sealed: sealed_text(LEA, &key, &set, &iv, &padded(&message)),
            key,
            set,
            message,
            iv,
        }
    }
}

/// Opened into a buffer: the length of the message.
fn rattle_open(g: &Given, out: &mut [u8]) -> u64 {
    let (key, sealed, mut length) = (hide(&g.key), hide(&g.sealed), 0);
    hide(bowlinette::open(
        LEA,
        key,
        &g.set,
        &g.iv,
        sealed,
        out,
        &mut length,
    ));
    length
}

/// Whether a tag that is not the message's is Valid.
fn rattle_check(g: &Given) -> u8 {
    let (key, message, mut valid) = (hide(&g.key), hide(&g.message), 2);
    hide(bowlinette::check(
        LEA, key, &g.set, message, &g.iv, &mut valid,
    ));
    valid
}

pub fn open(g: &Given) -> Times {
    let room = g.sealed.len();
    let (mut out, mut other, mut length) = (vec![0; room], vec![0; room], 0);
    let rust = |out: &mut [u8]| {
        archive::open(hide(LEA), hide(&g.key), &g.set, &g.iv, hide(&g.sealed), out)
    };
    let times = Times::of(
        || length = rattle_open(g, &mut out),
        || _ = hide(rust(&mut other)),
    );
    assert!(out == other && out[..length as usize] == g.message);
    times
}

pub fn check(g: &Given) -> Times {
    let (mut valid, mut other) = (2, true);
    let rust = || archive::check(hide(LEA), hide(&g.key), &g.set, hide(&g.message), &g.iv);
    let times = Times::of(|| valid = rattle_check(g), || other = hide(rust()).unwrap());
    assert!(valid == 0 && !other);
    times
}
