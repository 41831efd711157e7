//! The proved library against the reference on random keys and blocks, and on keys and blocks with
//! a single bit set or clear.

use reference::lea;
use reference::schedule::{expand, EMPTY};
use shared::schedules::EACH;
use shared::version::{PROVED, REFERENCE};
use shared::Random;

/// Enciphering and deciphering of one block, on both sides, and back again.
fn both_ways(schedule: u8, key: &[u8], block: &[u8]) {
    let given = format!("schedule {schedule}, {key:02x?} {block:02x?}");
    let there = (PROVED.encipher)(schedule, key, block);
    let want = (REFERENCE.encipher)(schedule, key, block);
    assert_eq!(there, want, "encipher, {given}");
    let back = (PROVED.decipher)(schedule, key, block);
    let want = (REFERENCE.decipher)(schedule, key, block);
    assert_eq!(back, want, "decipher, {given}");
    let again = (PROVED.decipher)(schedule, key, &there.unwrap()).unwrap();
    assert_eq!(again, block, "there and back, {given}");
}

#[test]
fn random_keys_and_blocks_both_ways() {
    let mut random = Random(1);
    for (schedule, size) in EACH {
        for _ in 0..4_000 {
            both_ways(schedule, &random.bytes(size.key_bytes()), &random.bytes(16));
        }
    }
}

#[test]
fn single_bits_both_ways() {
    for (schedule, size) in EACH {
        for rest in [0x00, 0xff] {
            let (key, block) = (vec![rest; size.key_bytes()], vec![rest; 16]);
            for bit in 0..8 * key.len() {
                let mut other = key.clone();
                other[bit / 8] ^= 1 << (bit % 8);
                both_ways(schedule, &other, &block);
            }
            for bit in 0..8 * block.len() {
                let mut other = block.clone();
                other[bit / 8] ^= 1 << (bit % 8);
                both_ways(schedule, &key, &other);
            }
        }
    }
}

#[test]
fn first_rounds_of_any_count() {
    let mut random = Random(2);
    for (schedule, size) in EACH {
        for _ in 0..80 {
            let (key, block) = (random.bytes(size.key_bytes()), random.bytes(16));
            let whole = (PROVED.encipher)(schedule, &key, &block);
            for count in (0..=40).chain([1 << 32, usize::MAX]) {
                let got = (PROVED.first_rounds)(schedule, &key, count, &block);
                let want = (REFERENCE.first_rounds)(schedule, &key, count, &block);
                assert_eq!(
                    got, want,
                    "{count} rounds, schedule {schedule}, key {key:02x?}, block {block:02x?}"
                );
                assert_eq!(got == whole, count >= size.rounds(), "{count} rounds");
            }
        }
    }
}

#[test]
fn round_keys_of_any_round() {
    let mut random = Random(3);
    for (schedule, size) in EACH {
        for _ in 0..80 {
            let key = random.bytes(size.key_bytes());
            for number in (0..=100).chain([1 << 32, usize::MAX]) {
                let got = (PROVED.round_keys)(schedule, &key, number);
                let want = (REFERENCE.round_keys)(schedule, &key, number);
                assert_eq!(
                    got, want,
                    "round {number}, schedule {schedule}, key {key:02x?}"
                );
                let first = (PROVED.round_keys)(schedule, &key, number % size.rounds());
                assert_eq!(
                    got, first,
                    "round {number}, schedule {schedule}, key {key:02x?}"
                );
            }
        }
    }
}

/// The reference alone: any number of rounds undone, also one that is no multiple of four.
#[test]
fn the_reference_undoes_any_rounds() {
    let mut random = Random(4);
    for (schedule, size) in EACH {
        let (key, mut rows) = (random.bytes(size.key_bytes()), EMPTY);
        assert_eq!(expand(schedule, &key, &mut rows), Ok(size));
        let x = lea::state(&random.bytes(16).try_into().unwrap());
        for count in 0..=size.rounds() {
            let rows = &rows[..count];
            let y = lea::forward(rows, x);
            assert_eq!(
                lea::backward(rows, y),
                x,
                "{schedule}, {size:?}, {count} rounds"
            );
        }
    }
}
