//! SHA-256 of the tests' own library, and the rows of WF-LEA, beside the program sha256sum, which others wrote.

use reference::sha256::{digest, Digest};
use reference::Size;
use shared::lent::written;
use shared::version::PROVED;
use shared::{Random, FILL};
use std::fs;
use std::path::Path;
use std::process::Command;

/// The longest message that is hashed.
const LONGEST: usize = 55;

fn proved(message: &[u8]) -> Result<Digest, u32> {
    written(FILL, |digest| bowlinette::sha256(message, digest))
}

/// What sha256sum prints for files of these messages, in a folder of a name, all by one call.
fn summed(name: &str, messages: &[Vec<u8>]) -> Vec<Digest> {
    let folder = Path::new(env!("CARGO_TARGET_TMPDIR")).join(name);
    fs::create_dir_all(&folder).unwrap();
    let files: Vec<_> = (0..messages.len())
        .map(|k| folder.join(k.to_string()))
        .collect();
    for (file, message) in files.iter().zip(messages) {
        fs::write(file, message).unwrap();
    }
    let done = Command::new("sha256sum").args(&files).output().unwrap();
    assert!(done.status.success(), "sha256sum: {}", done.status);
    fs::remove_dir_all(&folder).unwrap();
    let text = String::from_utf8(done.stdout).unwrap();
    let byte = |line: &str, k: usize| u8::from_str_radix(&line[2 * k..][..2], 16).unwrap();
    let digests: Vec<Digest> = text
        .lines()
        .map(|line| std::array::from_fn(|k| byte(line, k)))
        .collect();
    assert_eq!(digests.len(), messages.len(), "lines of sha256sum");
    digests
}

/// Messages of each length: random ones, and some of one byte.
#[test]
fn messages_of_every_length() {
    let mut random = Random(230);
    let mut messages: Vec<Vec<u8>> = Vec::new();
    for n in 0..=LONGEST {
        messages.extend((0..4).map(|_| random.bytes(n)));
        messages.extend([0x00, 0x80, 0xff].map(|byte| vec![byte; n]));
    }
    for (message, due) in messages.iter().zip(summed("messages", &messages)) {
        assert_eq!(digest(message), due, "the reference, {message:02x?}");
        assert_eq!(proved(message), Ok(due), "{message:02x?}");
    }
}

/// One bit of the longest message after the other.
#[test]
fn every_bit() {
    let message = Random(231).bytes(LONGEST);
    for bit in 0..8 * LONGEST {
        let mut other = message.clone();
        other[bit / 8] ^= 1 << (bit % 8);
        assert_eq!(proved(&other), Ok(digest(&other)), "bit {bit}");
    }
}

/// Longer ones are refused, also where their length differs from a right one only above the low bits.
#[test]
fn longer_messages() {
    let message = Random(232).bytes(65_600);
    let lengths = LONGEST + 1..=300;
    for n in lengths.chain([511, 512, 513, 65_535, 65_536, 65_591, 65_600]) {
        assert_eq!(proved(&message[..n]), Err(8), "{n} bytes");
    }
}

/// Row l is made of the digest of the key and the byte l + 1: its first six words, lowest byte first.
#[test]
fn rows_of_wf_lea() {
    let mut random = Random(233);
    for size in Size::ALL {
        let key = random.bytes(size.key_bytes());
        let message = |l: usize| [&key[..], &[l as u8 + 1]].concat();
        let messages: Vec<Vec<u8>> = (0..size.rounds()).map(message).collect();
        for (l, digest) in summed(&format!("{size:?}"), &messages).iter().enumerate() {
            let four = |m: usize| digest[4 * m..][..4].try_into().unwrap();
            let due = std::array::from_fn(|m| u32::from_le_bytes(four(m)));
            assert_eq!(
                (PROVED.round_keys)(1, &key, l),
                Ok(due),
                "{size:?}, row {l}"
            );
        }
    }
}
