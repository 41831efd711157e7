//! The chain maker on both versions: what each byte does at each place of a coding and as a mask, bytes that
//! are skipped, that run out and that are behind, chains from the bytes that make them, each refusal with its
//! neighbours, which of several comes first, and made chains on the whole way.

use reference::chain::{CODING, MIDDLES, SET, WORD};
use reference::Size;
use shared::book::{build, build_reading, Build};
use shared::books::Built;
use shared::chains::{self, on_each, uniform, Kind, IDENTITY, KINDS};
use shared::maker::{enough, make, skipped, Made, Part, SKIPPED, STAY};
use shared::schedules::EACH;
use shared::{places, way, Random};

/// A chain made in a buffer of its length.
fn made(kind: Kind, size: Size, set: &[u8], random: &[u8]) -> Made {
    make(kind, size.key_bytes(), set, random, size.chain_bytes())
}

/// These bytes must make this chain, all of them drawn; a reading chain is given its set 0.
fn must_make(kind: Kind, size: Size, bytes: &[u8], due: Vec<u8>, turn: usize) {
    let told = made(kind, size, &due[SET..2 * SET], bytes);
    assert!(told == Ok((bytes.len(), due)), "{kind:?}, {size:?}, {turn}");
}

/// The bytes that make an identity, with another at place k: what this changes is changed in the coding, and
/// if it is skipped, it stands before the byte that is due.
fn with_byte(byte: usize, k: usize, coding: &mut [u8]) -> Vec<u8> {
    let mut own = vec![byte as u8];
    if byte < SKIPPED[15 - k] {
        coding.swap(k, byte % (k + 1));
    } else {
        own.push(k as u8);
    }
    [&STAY[..15 - k], &own, &STAY[16 - k..]].concat()
}

/// Every byte at every place of a coding: of U, of a set and of a round. Each coding of a chain has another
/// byte at another place.
#[test]
fn every_byte_at_every_place() {
    on_each(|kind, size| {
        for turn in 0..15 * 256 / 32 {
            let mut due = uniform(size, IDENTITY, 0);
            let bytes = kind.bytes(size, |(n, part)| match part {
                Part::Mask(_) => vec![0],
                Part::Coding(at) => {
                    let (byte, k) = ((n + 32 * turn) % 256, 1 + (n + 32 * turn) / 256 % 15);
                    with_byte(byte, k, &mut due[at..][..CODING])
                }
            });
            kind.keep_words(size, &mut due);
            must_make(kind, size, &bytes, due, turn);
        }
    });
}

/// Every byte as every mask: its lowest bit counts, and none is skipped.
#[test]
fn every_byte_as_every_mask() {
    on_each(|kind, size| {
        for turn in 0..256 {
            let mut due = uniform(size, IDENTITY, 0);
            let bytes = kind.bytes(size, |(n, part)| match part {
                Part::Coding(_) => STAY.to_vec(),
                Part::Mask(at) => {
                    due[at] = (n + turn) as u8 % 2;
                    vec![(n + turn) as u8]
                }
            });
            must_make(kind, size, &bytes, due, turn);
        }
    });
}

/// The masks of a round are drawn as they stand: one byte that is odd makes 1 of one mask, those at half byte 0
/// too.
#[test]
fn each_mask_from_its_own_byte() {
    on_each(|kind, size| {
        for l in places(size.rounds()) {
            for place in 0..MIDDLES {
                let (bytes, due) = kind.one_mask(size, l, place, 1);
                must_make(kind, size, &bytes, due, place);
            }
        }
    });
}

/// With none skipped, all of U is drawn, all of set 0 unless it is given, and for each round three words of the
/// set behind it and the round itself: 15 bytes for a coding, one for a mask. One byte fewer is too few.
#[test]
fn the_fewest_bytes() {
    on_each(|kind, size| {
        let before = match kind {
            Kind::Sealing => 960,
            Kind::Reading => 480,
        };
        let n = kind.fewest(size);
        assert_eq!(n, before + 744 * size.rounds(), "{kind:?}, {size:?}");
        let told = |n: usize| made(kind, size, &IDENTITY.repeat(32), &vec![0; n]);
        assert_eq!(told(n).map(|(n, _)| n), Ok(n), "{kind:?}, {size:?}");
        assert_eq!(told(n - 1), Err(32), "{kind:?}, {size:?}");
    });
}

/// The bytes that make an identity, with so many that are skipped before each.
fn with_skipped(count: usize, random: &mut Random) -> Vec<u8> {
    let places = STAY.into_iter().zip(SKIPPED);
    let bytes = places.flat_map(|(k, first)| [skipped(first, count, random), vec![k]].concat());
    bytes.collect()
}

/// Some bytes one after another skipped at every place of every coding. They are drawn: with one byte fewer
/// the bytes run out.
#[test]
fn bytes_skipped_at_every_place() {
    let mut random = Random(150);
    on_each(|kind, size| {
        for count in [1, 2, 3, 20] {
            let bytes = kind.bytes(size, |(_, part)| match part {
                Part::Mask(_) => vec![0],
                Part::Coding(_) => with_skipped(count, &mut random),
            });
            let due = uniform(size, IDENTITY, 0);
            let told = made(kind, size, &due[..SET], &bytes[..bytes.len() - 1]);
            assert_eq!(told, Err(32), "{kind:?}, {size:?}, {count}");
            must_make(kind, size, &bytes, due, count);
        }
    });
}

/// Very many of a byte that is skipped put at a place among the bytes that make identities: the chain is made
/// if the rest of these follow, and else they have run out, however many they are.
fn very_many_at(kind: Kind, size: Size, byte: u8, (front, rest): (&[u8], &[u8])) {
    let due = uniform(size, IDENTITY, 0);
    let bytes = [front, &[byte; 70_000]].concat();
    for end in [front.len() + 1, 30_000, bytes.len()] {
        let told = made(kind, size, &due[..SET], &bytes[..end]);
        assert_eq!(told, Err(32), "{kind:?}, {size:?}, {byte}, {end} bytes");
    }
    must_make(kind, size, &[&bytes, rest].concat(), due, front.len());
}

/// Each byte at each place where it is skipped, in the first coding, in one of a set and in the last.
#[test]
fn very_many_bytes_skipped() {
    on_each(|kind, size| {
        let stay = kind.stay(size);
        for coding in [0, 15 * 500, stay.len() - MIDDLES - 15] {
            for (at, first) in (coding..).zip(SKIPPED) {
                for byte in first..256 {
                    very_many_at(kind, size, byte as u8, stay.split_at(at));
                }
            }
        }
    });
}

/// One byte for all: from 247 on it is skipped at some place, and then for ever.
#[test]
fn one_byte_for_all() {
    let set = IDENTITY.repeat(32);
    on_each(|kind, size| {
        for byte in 0..=255 {
            let told = made(kind, size, &set, &[byte; 30_000]);
            let due = match byte {
                0..=246 => Ok(kind.fewest(size)),
                _ => Err(32),
            };
            assert_eq!(told.map(|(n, _)| n), due, "{kind:?}, {size:?}, {byte}");
        }
    });
}

/// Random bytes make a chain, of its own kind alone. As many as are drawn are enough, and one fewer is not.
#[test]
fn as_many_as_are_drawn() {
    let mut random = Random(151);
    on_each(|kind, size| {
        for _ in 0..20 {
            let (set, bytes) = (chains::set(&mut random), random.bytes(enough(size)));
            let (n, chain) = made(kind, size, &set, &bytes).unwrap();
            assert!(n > kind.fewest(size), "{kind:?}: some are skipped");
            for other in KINDS {
                let number = if other == kind { 0 } else { 4 };
                assert_eq!(other.told(size.key_bytes(), &chain), number);
            }
            assert!(made(kind, size, &set, &bytes[..n]) == Ok((n, chain)), "{n}");
            let told = made(kind, size, &set, &bytes[..n - 1]);
            assert_eq!(told, Err(32), "{kind:?}, {size:?}, {n}");
        }
    });
}

/// Other bytes behind those that are drawn, and any number of them, change nothing.
#[test]
fn bytes_behind() {
    let mut random = Random(160);
    on_each(|kind, size| {
        let (set, mut bytes) = (chains::set(&mut random), random.bytes(enough(size)));
        let due = made(kind, size, &set, &bytes);
        bytes.truncate(due.as_ref().unwrap().0);
        for more in (0..=512).chain([20_000, 65_536, 1_000_000]) {
            let whole = [&bytes[..], &random.bytes(more)].concat();
            assert!(made(kind, size, &set, &whole) == due, "{kind:?}, {more}");
        }
    });
}

/// Bytes that end in any part of a chain, or are none.
#[test]
fn bytes_that_run_out() {
    let mut random = Random(152);
    on_each(|kind, size| {
        let chain = kind.random(size, &mut random);
        let bytes = kind.bytes_for(size, &chain, &mut random);
        let n = bytes.len();
        let any: Vec<usize> = (0..200).map(|_| random.below(n)).collect();
        for end in (0..40).chain(any).chain(n - 40..n) {
            let told = made(kind, size, &chain[SET..2 * SET], &bytes[..end]);
            assert_eq!(told, Err(32), "{kind:?}, {size:?}, {end} of {n}");
        }
    });
}

/// Any valid chain comes out of the bytes that undo its exchanges.
#[test]
fn any_chain_comes_out() {
    let mut random = Random(153);
    on_each(|kind, size| {
        for turn in 0..30 {
            let chain = kind.random(size, &mut random);
            let bytes = kind.bytes_for(size, &chain, &mut random);
            must_make(kind, size, &bytes, chain, turn);
        }
    });
}

/// A given set stands in its place, and its word 3 in the next set; nothing else is of it.
#[test]
fn the_given_set() {
    let mut random = Random(154);
    for size in Size::ALL {
        let bytes = random.bytes(enough(size));
        let sets = [chains::set(&mut random), chains::set(&mut random)];
        let told = sets.map(|set| {
            let (n, mut chain) = made(Kind::Reading, size, &set, &bytes).unwrap();
            assert!(chain[SET..2 * SET] == set, "{size:?}: set 0");
            assert!(chain[2 * SET..][..WORD] == set[3 * WORD..], "{size:?}");
            chain.drain(SET..2 * SET + WORD);
            (n, chain)
        });
        assert!(told[0] == told[1], "{size:?}");
    }
}

#[test]
fn key_lengths() {
    let (set, bytes) = (IDENTITY.repeat(32), [7; 30_000]);
    let high = [128, 192, 256, 272, 280, 288, 65_552, 65_560, 65_568];
    for kind in KINDS {
        for key in (0..=40).chain(high).chain([(1 << 32) + 16, usize::MAX]) {
            let told = make(kind, key, &set, &bytes, 30_464);
            let due = Size::of_key(key).map_or(Err(1), |size| Ok(kind.fewest(size)));
            assert_eq!(told.map(|(n, _)| n), due, "{kind:?}, {key}");
        }
    }
}

/// Buffers that are shorter than the chain, just as long, and longer.
#[test]
fn buffers_of_other_lengths() {
    let mut random = Random(155);
    on_each(|kind, size| {
        let (set, bytes) = (chains::set(&mut random), random.bytes(enough(size)));
        let told = |room: usize| make(kind, size.key_bytes(), &set, &bytes, room);
        let (due, n) = (made(kind, size, &set, &bytes), size.chain_bytes());
        for room in [0, 1, 16, 512, n / 2, n - 408, n - 16, n - 2, n - 1] {
            assert_eq!(told(room), Err(9), "{kind:?}, {size:?}, {room}");
        }
        for more in [1, 2, 16, 408, 1_000, 65_536] {
            assert!(told(n + more) == due, "{kind:?}, {size:?}, {more} more");
        }
    });
}

/// Of another length: 2, whatever the codings are.
#[test]
fn sets_of_other_lengths() {
    let mut random = Random(156);
    let (good, bytes) = (chains::set(&mut random).repeat(130), random.bytes(30_000));
    for size in Size::ALL {
        let told = |set: &[u8]| made(Kind::Reading, size, set, &bytes).err();
        for n in [0, 1, 16, 496, 511, 513, 528, 544, 768, 1_024, 66_048] {
            assert_eq!(told(&good[..n]), Some(2), "{size:?}, {n}");
            assert_eq!(told(&vec![16; n]), Some(2), "{size:?}, {n}");
        }
        assert_eq!(told(&good[..SET]), None, "{size:?}");
    }
}

/// An image over 15, or one that is there twice, at each place of each coding of the set: 3.
#[test]
fn codings_of_the_set() {
    let mut random = Random(157);
    let (good, bytes) = (chains::set(&mut random), random.bytes(30_000));
    for size in Size::ALL {
        for at in 0..SET {
            let twice = good[at - at % CODING + (at + 1) % CODING];
            for value in [16, 128, 255, twice] {
                let mut set = good.clone();
                set[at] = value;
                let told = made(Kind::Reading, size, &set, &bytes);
                assert_eq!(told, Err(3), "{size:?}, {at}, {value}");
            }
        }
        assert!(made(Kind::Reading, size, &good, &bytes).is_ok(), "{size:?}");
    }
}

/// Every choice among the faults that there are: 1, 2, 3, 9, 32, the lowest first. What is short is so by a
/// byte, or empty. No set is given to the maker of a chain.
#[test]
fn the_first_fault() {
    let mut random = Random(158);
    on_each(|kind, size| {
        let chain = kind.random(size, &mut random);
        let bytes = kind.bytes_for(size, &chain, &mut random);
        for (choice, empty) in (0..1 << 5).flat_map(|n| [(n, false), (n, true)]) {
            let has = |fault: usize| choice >> fault & 1 == 1;
            let cut = |length: usize, fault: usize| match (has(fault), empty) {
                (false, _) => length,
                (true, false) => length - 1,
                (true, true) => 0,
            };
            let mut set = chain[SET..2 * SET].to_vec();
            if has(2) {
                set[SET - CODING] = 16;
            }
            set.truncate(cut(SET, 1));
            let (key, room) = (cut(size.key_bytes(), 0), cut(size.chain_bytes(), 3));
            let told = make(kind, key, &set, &bytes[..cut(bytes.len(), 4)], room);
            let counts = |number: u32| kind == Kind::Reading || ![2, 3].contains(&number);
            let mut faults = (0..5).zip([1, 2, 3, 9, 32]);
            let due = faults.find(|&(fault, number)| has(fault) && counts(number));
            let due = due.map_or(0, |(_, number)| number);
            let given = (kind, size, empty);
            assert_eq!(told.err().unwrap_or(0), due, "{given:?}, {choice:05b}");
        }
    });
}

/// A chain that random bytes make, and the book that is built from it.
fn built(kind: Kind, (schedule, key): (u8, &[u8]), set: &[u8], random: &mut Random) -> Built {
    let size = Size::of_key(key.len()).unwrap();
    let (_, chain) = made(kind, size, set, &random.bytes(enough(size))).unwrap();
    let (call, room): (Build, usize) = match kind {
        Kind::Sealing => (build, size.book_bytes()),
        Kind::Reading => (build_reading, size.reading_bytes()),
    };
    let (number, book) = call(schedule, key, &chain, room);
    assert_eq!(number, 0, "{kind:?}, {size:?}");
    let key = key.to_vec();
    Built {
        schedule,
        key,
        chain,
        book,
    }
}

/// What a book of a made chain seals, the book of a made reading chain reads, and the archive opens; what it
/// tags is Valid.
#[test]
fn made_chains_on_the_whole_way() {
    let mut random = Random(159);
    for (schedule, size) in EACH {
        let key = random.bytes(size.key_bytes());
        let sealing = built(Kind::Sealing, (schedule, &key), &[], &mut random);
        let reading = built(
            Kind::Reading,
            (schedule, &key),
            sealing.last_set(),
            &mut random,
        );
        for n in [0, 1, 15, 16, 17, 1_000, 9_412] {
            let (iv, message) = (random.bytes(16), random.bytes(n));
            way::sealed(&sealing, &reading, &iv, &message);
            way::tagged(&sealing, &message);
        }
    }
}
