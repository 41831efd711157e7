//! The chain maker of the reference: chains worked out by hand, the bytes that are skipped, how many are
//! drawn, random chains from the bytes that make them, and what is refused.

use reference::chain::{check, check_reading, SET, WORD};
use reference::Size;
use shared::chains::{on_each, uniform, Kind, IDENTITY, KINDS};
use shared::maker::SKIPPED;
use shared::{Random, FILL};

/// The number for a chain of a kind.
fn checked(kind: Kind, key: usize, chain: &[u8]) -> Option<u32> {
    match kind {
        Kind::Sealing => check(key, chain).err(),
        Kind::Reading => check_reading(key, chain).err(),
    }
}

/// How many bytes were drawn, and the chain, which must be valid. What is behind it must stay, and all of
/// the output where the call refuses.
fn made(kind: Kind, size: Size, set: &[u8], random: &[u8]) -> Result<(usize, Vec<u8>), u32> {
    let (key, length) = (size.key_bytes(), size.chain_bytes());
    let mut out = vec![FILL; length + 9];
    let told = kind.reference(key, set, random, &mut out);
    let kept = if told.is_ok() { length } else { 0 };
    assert!(out[kept..].iter().all(|&x| x == FILL), "{told:?}");
    out.truncate(length);
    let drawn = told?;
    assert_eq!(checked(kind, key, &out), None, "{kind:?}, {size:?}");
    Ok((drawn, out))
}

/// A random chain of a kind, its set 0, and bytes that make it.
fn drawn(kind: Kind, size: Size, random: &mut Random) -> (Vec<u8>, Vec<u8>, Vec<u8>) {
    let chain = kind.random(size, random);
    let bytes = kind.bytes_for(size, &chain, random);
    let set = chain[SET..2 * SET].to_vec();
    (chain, set, bytes)
}

/// Each place in turn, from the last on, is exchanged with place 0: v becomes v + 1.
#[test]
fn zeros() {
    let coding = [1, 2, 3, 4, 5, 6, 7, 8, 9, 10, 11, 12, 13, 14, 15, 0];
    on_each(|kind, size| {
        let told = made(kind, size, &coding.repeat(32), &[0; 30_000]);
        let due = (kind.fewest(size), uniform(size, coding, 0));
        assert!(told == Ok(due), "{kind:?}, {size:?}");
    });
}

/// Each is exchanged with place 1: 0 stays, and v becomes v + 1 except for the last.
#[test]
fn ones() {
    let coding = [0, 2, 3, 4, 5, 6, 7, 8, 9, 10, 11, 12, 13, 14, 15, 1];
    on_each(|kind, size| {
        let told = made(kind, size, &coding.repeat(32), &[1; 30_000]);
        let due = (kind.fewest(size), uniform(size, coding, 1));
        assert!(told == Ok(due), "{kind:?}, {size:?}");
    });
}

#[test]
fn identities() {
    on_each(|kind, size| {
        let random = kind.stay(size);
        assert_eq!(random.len(), kind.fewest(size));
        let told = made(kind, size, &IDENTITY.repeat(32), &random);
        let due = (kind.fewest(size), uniform(size, IDENTITY, 0));
        assert!(told == Ok(due), "{kind:?}, {size:?}");
    });
}

/// A given set that is no identity stands in its place, and word 3 of it in the next set; nothing else
/// is of it.
#[test]
fn the_given_set() {
    let coding = [15, 14, 13, 12, 11, 10, 9, 8, 7, 6, 5, 4, 3, 2, 1, 0];
    let word = coding.repeat(8);
    for size in Size::ALL {
        let mut due = uniform(size, IDENTITY, 0);
        due[SET..2 * SET].copy_from_slice(&coding.repeat(32));
        due[2 * SET..][..WORD].copy_from_slice(&word);
        let random = Kind::Reading.stay(size);
        let told = made(Kind::Reading, size, &coding.repeat(32), &random);
        assert!(told == Ok((random.len(), due)), "{size:?}");
    }
}

/// The 32 lowest and the 32 highest bytes at every place of the first coding and of the last. One that is
/// skipped is put before the byte that is due, and one that is not in its place.
#[test]
fn low_and_high_bytes_at_every_place() {
    let (kind, size, set) = (Kind::Sealing, Size::Lea128, IDENTITY.repeat(32));
    let (random, same) = (kind.stay(size), uniform(size, IDENTITY, 0));
    let ends = [(0, 0), (random.len() - 39, same.len() - 40)];
    for (k, first) in (1..16).rev().zip(SKIPPED) {
        for byte in (0..32).chain(224..256) {
            for (draw, coding) in ends {
                let at = draw + 15 - k;
                let (mut random, mut due) = (random.clone(), same.clone());
                if byte < first {
                    random[at] = byte as u8;
                    due.swap(coding + k, coding + byte % (k + 1));
                } else {
                    random.insert(at, byte as u8);
                }
                let told = made(kind, size, &set, &random);
                assert!(told == Ok((random.len(), due)), "{k}, {byte}");
            }
        }
    }
}

/// 255 at place 14 and 253 at place 13, however often.
#[test]
fn skipped_again_and_again() {
    let size = Size::Lea192;
    for kind in KINDS {
        for count in [1, 2, 300, 10_000] {
            let skipped = [vec![15], vec![255; count], vec![14], vec![253; count]];
            let random = [&skipped.concat(), &kind.stay(size)[2..]].concat();
            let told = made(kind, size, &IDENTITY.repeat(32), &random);
            let due = (random.len(), uniform(size, IDENTITY, 0));
            assert_eq!(due.0, kind.fewest(size) + 2 * count);
            assert!(told == Ok(due), "{kind:?}, {count}");
        }
    }
}

/// Each of the 24 masks of a round is the lowest bit of its own byte, none of which is skipped.
#[test]
fn every_byte_as_every_mask() {
    let (kind, size, set) = (Kind::Sealing, Size::Lea256, IDENTITY.repeat(32));
    for place in 0..24 {
        for byte in 0..=255 {
            let (random, due) = kind.one_mask(size, 31, place, byte);
            let told = made(kind, size, &set, &random);
            assert!(told == Ok((random.len(), due)), "{place}, {byte}");
        }
    }
}

#[test]
fn random_chains_come_out() {
    let mut random = Random(11);
    on_each(|kind, size| {
        for _ in 0..5 {
            let (chain, set, mut bytes) = drawn(kind, size, &mut random);
            let count = bytes.len();
            assert!(count > kind.fewest(size), "some are skipped");
            assert_eq!(checked(kind, size.key_bytes(), &chain), None);
            assert!(made(kind, size, &set, &bytes) == Ok((count, chain.clone())));
            bytes.extend([7, 255, 0]);
            let told = made(kind, size, &set, &bytes);
            assert!(told == Ok((count, chain)), "{kind:?}, {size:?}");
        }
    });
}

/// Any bytes make a valid chain, of its own kind alone, or run out.
#[test]
fn any_bytes() {
    let mut random = Random(12);
    on_each(|kind, size| {
        let (_, set, _) = drawn(kind, size, &mut random);
        let bytes = random.bytes(30_000);
        let (count, chain) = made(kind, size, &set, &bytes).unwrap();
        assert!(made(kind, size, &set, &bytes[..count]) == Ok((count, chain.clone())));
        assert_eq!(made(kind, size, &set, &bytes[..count - 1]), Err(32));
        let other = KINDS[usize::from(kind == Kind::Sealing)];
        assert_eq!(checked(other, size.key_bytes(), &chain), Some(4));
    });
}

#[test]
fn bytes_run_out() {
    let mut random = Random(13);
    on_each(|kind, size| {
        let (_, set, bytes) = drawn(kind, size, &mut random);
        let n = bytes.len();
        for count in [0, 1, 14, 15, n / 3, n / 2, n - 25, n - 24, n - 1] {
            let told = made(kind, size, &set, &bytes[..count]);
            assert_eq!(told, Err(32), "{kind:?}, {size:?}, {count}");
        }
    });
}

/// As many bytes as are enough if none is skipped, but one is: one more is wanted.
#[test]
fn skipped_bytes_are_drawn() {
    on_each(|kind, size| {
        let (set, mut random) = (IDENTITY.repeat(32), kind.stay(size));
        random[1] = 255;
        assert_eq!(made(kind, size, &set, &random), Err(32));
        random.push(0);
        let (count, _) = made(kind, size, &set, &random).unwrap();
        assert_eq!(count, kind.fewest(size) + 1, "{kind:?}, {size:?}");
    });
}

#[test]
fn key_lengths() {
    let (set, random) = (IDENTITY.repeat(32), [0; 30_000]);
    for kind in KINDS {
        for key in (0..=40).chain([128, 192, 256, 272, 65_552, usize::MAX]) {
            let mut out = vec![FILL; 30_464];
            let told = kind.reference(key, &set, &random, &mut out);
            match Size::of_key(key) {
                Some(size) => assert_eq!(told, Ok(kind.fewest(size))),
                None => {
                    assert_eq!(told, Err(1), "{kind:?}, {key}");
                    assert!(out.iter().all(|&x| x == FILL), "{kind:?}, {key}");
                }
            }
        }
    }
}

#[test]
fn short_outputs() {
    let (set, random) = (IDENTITY.repeat(32), [0; 30_000]);
    on_each(|kind, size| {
        let (key, n) = (size.key_bytes(), size.chain_bytes());
        for length in [0, 1, 512, n / 2, n - 1] {
            let mut out = vec![FILL; length];
            let told = kind.reference(key, &set, &random, &mut out);
            assert_eq!(told, Err(9), "{kind:?}, {size:?}, {length}");
            assert!(out.iter().all(|&x| x == FILL), "{length}");
        }
        let told = kind.reference(key, &set, &random, &mut vec![FILL; n]);
        assert_eq!(told, Ok(kind.fewest(size)), "{kind:?}, {size:?}");
    });
}

#[test]
fn sets_refused() {
    let (set, random) = (IDENTITY.repeat(34), [0; 30_000]);
    let told = |set: &[u8]| made(Kind::Reading, Size::Lea128, set, &random).err();
    for length in [0, 1, 16, 496, 511, 513, 528, 544] {
        assert_eq!(told(&set[..length]), Some(2), "{length}");
    }
    for at in 0..SET {
        for value in [16, 255, (at + 1) as u8 % 16] {
            let mut other = set[..SET].to_vec();
            other[at] = value;
            assert_eq!(told(&other), Some(3), "{at}, {value}");
        }
    }
    assert_eq!(told(&set[..SET]), None);
}

/// 1, 2, 3, 9, 32: the first of these decides.
#[test]
fn the_first_fault() {
    let (good, bad) = (IDENTITY.repeat(32), [0; SET]);
    let mut out = vec![FILL; 23_104];
    let mut told = |kind: Kind, key: usize, set: &[u8], room: usize| {
        let told = kind.reference(key, set, &[0; 14], &mut out[..room]);
        assert!(out.iter().all(|&x| x == FILL), "{kind:?}");
        told
    };
    assert_eq!(told(Kind::Reading, 17, &bad[1..], 0), Err(1));
    assert_eq!(told(Kind::Reading, 16, &bad[1..], 0), Err(2));
    assert_eq!(told(Kind::Reading, 16, &bad, 0), Err(3));
    assert_eq!(told(Kind::Reading, 16, &bad, 23_104), Err(3));
    assert_eq!(told(Kind::Reading, 16, &good, 23_103), Err(9));
    assert_eq!(told(Kind::Reading, 16, &good, 23_104), Err(32));
    assert_eq!(told(Kind::Sealing, 17, &good, 0), Err(1));
    assert_eq!(told(Kind::Sealing, 16, &good, 23_103), Err(9));
    assert_eq!(told(Kind::Sealing, 16, &good, 23_104), Err(32));
}
