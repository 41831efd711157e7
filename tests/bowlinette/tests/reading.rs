//! Reading by what it is for, on both versions: of what a book sealed, its reading book reads the padded
//! message, and of any sealed blocks what the archive has of them before it looks at padding. What is
//! refused, and each byte that is written, is tested beside the other kinds of the same operation: in
//! chain.rs, book.rs and driver.rs.

use reference::book::TURN;
use reference::chain::{self, decode_all, MIDDLES};
use reference::lea;
use reference::pad::LONGEST;
use reference::reading::ROUND;
use reference::Size;
use shared::archive::{open, sealed_text};
use shared::book::build_reading;
use shared::books::{self, Built};
use shared::driver::read;
use shared::schedules::{EACH, LEA};
use shared::way::{self, text_read};
use shared::Random;

/// A book, and what reads the files that it seals; the reading book is the proved library's.
fn two_books(schedule: u8, size: Size, random: &mut Random) -> (Built, Built) {
    let sealing = books::built(schedule, size, random);
    let mut reading = sealing.reading(random);
    let (number, book) =
        build_reading(schedule, &reading.key, &reading.chain, size.reading_bytes());
    assert_eq!(number, 0, "{size:?}");
    reading.book = book;
    (sealing, reading)
}

/// A message from the pad to the manager and, on the same file, to the archive.
#[test]
fn what_is_sealed_is_read() {
    let mut random = Random(120);
    for (schedule, size) in EACH {
        let (sealing, reading) = two_books(schedule, size, &mut random);
        for n in (0..=50).chain([255, 256, 9_412, LONGEST]) {
            let (message, iv) = (random.bytes(n), random.bytes(16));
            way::sealed(&sealing, &reading, &iv, &message);
        }
    }
}

/// Blocks that nobody sealed: what they decipher to, folded with the block before.
#[test]
fn any_blocks_are_read() {
    let mut random = Random(121);
    for (schedule, size) in EACH {
        let (sealing, reading) = two_books(schedule, size, &mut random);
        for blocks in (1..=12).chain([100, 589]) {
            let (iv, sealed) = (random.bytes(16), random.bytes(16 * blocks));
            let plain = decode_all(sealing.last_set(), &[&iv[..], &sealed].concat());
            let deciphered = |block: &[u8]| lea::decipher(schedule, &sealing.key, block).unwrap();
            let own = plain[16..].chunks_exact(16).flat_map(deciphered);
            let due: Vec<u8> = own.zip(&plain).map(|(x, before)| x ^ before).collect();
            let text = text_read(&reading, &iv, &sealed);
            assert!(text == due, "{size:?}, {blocks} blocks");
            let again = sealed_text(schedule, &sealing.key, sealing.last_set(), &iv, &text);
            assert!(again == sealed, "{size:?}, {blocks} blocks sealed again");
        }
    }
}

/// Files of which the archive takes nothing, as they do not end in padding, are read all the same.
#[test]
fn padding_is_not_looked_at() {
    let mut random = Random(122);
    for (schedule, size) in EACH {
        let (sealing, reading) = two_books(schedule, size, &mut random);
        for last in [0, 17, 255] {
            let (iv, mut text) = (random.bytes(16), random.bytes(48));
            text[47] = last;
            let sealed = sealed_text(schedule, &sealing.key, sealing.last_set(), &iv, &text);
            let opened = open(schedule, &sealing.key, sealing.last_set(), &iv, &sealed, 48);
            assert_eq!(opened, Err(11), "{size:?}, {last}");
            assert_eq!(text_read(&reading, &iv, &sealed), text, "{size:?}, {last}");
        }
    }
}

/// A sealed block, or the IV, is part of its own block of the text and of the next alone.
#[test]
fn what_a_changed_block_changes() {
    let mut random = Random(123);
    for (schedule, size) in EACH {
        let (_, reading) = two_books(schedule, size, &mut random);
        let file = random.bytes(16 * 10);
        let read = |file: &[u8]| text_read(&reading, &file[..16], &file[16..]);
        let text = read(&file);
        for at in 0..10 {
            let mut other = file.clone();
            other[16 * at + random.below(16)] ^= 1 << random.below(8);
            let other = read(&other);
            let apart = |k: &usize| other[16 * k..][..16] != text[16 * k..][..16];
            let changed: Vec<usize> = (0..9).filter(apart).collect();
            let due: Vec<usize> = (0..9).filter(|&k| k + 1 == at || k == at).collect();
            assert_eq!(changed, due, "{size:?}, block {at} changed");
        }
    }
}

/// Identity codings: the reading book deciphers. The block and the key are those of the example of two
/// rounds, 01's last.
#[test]
fn a_block_of_identity_codings() {
    let number = |hex: u128| hex.to_be_bytes();
    let key = number(0x0f1e_2d3c_4b5a_6978_8796_a5b4_c3d2_e1f0);
    let plain = number(0x1011_1213_1415_1617_1819_1a1b_1c1d_1e1f);
    let enciphered = number(0x9fc8_4e35_28c6_c618_5532_c7a7_0464_8bfd);
    let chain = chain::random_reading(Size::Lea128, None, |bound| bound - 1);
    let (number, book) = build_reading(LEA, &key, &chain, Size::Lea128.reading_bytes());
    assert_eq!(number, 0);
    assert_eq!(read(&book, &[0; 16], &enciphered, 16), (0, plain.to_vec()));
    let folded: Vec<u8> = plain.iter().map(|x| x ^ 0x3c).collect();
    assert_eq!(read(&book, &[0x3c; 16], &enciphered, 16), (0, folded));
}

/// The bits that a reader does not use of the byte at a place of a reading book of r rounds.
fn unused(r: usize, at: usize) -> u8 {
    match at < ROUND * r && at % ROUND >= MIDDLES * TURN {
        true => 0xe0,
        false => 0xf0,
    }
}

#[test]
fn bits_that_a_reader_does_not_use() {
    let mut random = Random(125);
    for (size, book) in books::any_reading(&mut random) {
        let other = books::stirred(&book, |at| unused(size.rounds(), at), &mut random);
        let (iv, sealed) = (random.bytes(16), random.bytes(528));
        let told = read(&book, &iv, &sealed, 528);
        assert!(read(&other, &iv, &sealed, 528) == told, "{size:?}");
    }
}
