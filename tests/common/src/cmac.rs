//! CMAC from its definition.

use reference::lea::{self, Block};

/// CMAC of a message (SP 800-38B): the last block filled up and xored with its subkey, then chaining.
pub fn cmac(schedule: u8, key: &[u8], message: &[u8]) -> Block {
    let double = |n: u128| (n << 1) ^ ((n >> 127) * 0x87);
    let first = double(u128::from_be_bytes(
        lea::encipher(schedule, key, &[0; 16]).unwrap(),
    ));
    let whole = !message.is_empty() && message.len() % 16 == 0;
    let mut text = message.to_vec();
    if !whole {
        text.push(0x80);
        text.resize((message.len() / 16 + 1) * 16, 0);
    }
    let subkey = if whole { first } else { double(first) }.to_be_bytes();
    let last = text.len() - 16;
    for (x, y) in text[last..].iter_mut().zip(subkey) {
        *x ^= y;
    }
    lea::cbc_mac(schedule, key, &text).unwrap()
}
