//! The checks of lone sets, of chains and of reading chains, on both versions: valid ones of each size,
//! and each refusal at first, middle and last places, alone and beside others (coding.rs has that of a coding).

use reference::chain::{CODING, MIDDLES, ROUND, SET, WORD};
use reference::Size;
use shared::book::check_set as told_set;
use shared::chains::{on_each, uniform, Kind, IDENTITY, KINDS};
use shared::{places, Random};

/// The number for a chain of this kind and size after a change.
fn changed(kind: Kind, size: Size, chain: &[u8], change: impl FnOnce(&mut [u8])) -> u32 {
    let mut other = chain.to_vec();
    change(&mut other);
    kind.told(size.key_bytes(), &other)
}

/// Runs a check on a valid chain of each kind and size.
fn on_chains(seed: u64, check: impl Fn(Kind, Size, Vec<u8>)) {
    let mut random = Random(seed);
    on_each(|kind, size| check(kind, size, kind.random(size, &mut random)));
}

/// Where set l, the middle codings and the masks of round l begin.
fn set_at(l: usize) -> usize {
    SET * (l + 1)
}

fn middles_at(size: Size, l: usize) -> usize {
    SET * (size.rounds() + 2) + ROUND * l
}

fn masks_at(size: Size, l: usize) -> usize {
    middles_at(size, l) + CODING * MIDDLES
}

#[test]
fn valid_chains() {
    for seed in 0..20 {
        on_chains(seed, |kind, size, chain| {
            for other in Size::ALL {
                let number = if other == size { 0 } else { 2 };
                let told = kind.told(other.key_bytes(), &chain);
                assert_eq!(told, number, "{kind:?} for {other:?}");
            }
            for other in KINDS {
                let number = if other == kind { 0 } else { 4 };
                let told = other.told(size.key_bytes(), &chain);
                assert_eq!(told, number, "{kind:?} as {other:?}");
            }
        });
    }
}

/// Identity codings, the masks all 0 or all 1: valid of both kinds.
#[test]
fn identity_chains() {
    for size in Size::ALL {
        for mask in [0, 1] {
            let chain = uniform(size, IDENTITY, mask);
            assert_eq!(
                KINDS.map(|kind| kind.told(size.key_bytes(), &chain)),
                [0, 0]
            );
        }
    }
}

#[test]
fn key_lengths() {
    on_chains(30, |kind, size, chain| {
        for key in (0..=40).chain([272, 280, 288, 65_552, usize::MAX]) {
            let known = Size::of_key(key);
            let number = match known {
                Some(other) if other == size => 0,
                Some(_) => 2,
                None => 1,
            };
            assert_eq!(kind.told(key, &chain), number);
            let empty = if known.is_some() { 2 } else { 1 };
            assert_eq!(kind.told(key, &[]), empty);
        }
    });
}

#[test]
fn chain_lengths() {
    on_chains(31, |kind, size, mut chain| {
        let (key, right) = (size.key_bytes(), chain.len());
        for length in [0, 1, SET, right / 2, right - CODING, right - 1] {
            assert_eq!(kind.told(key, &chain[..length]), 2);
        }
        for longer in [1, 2, CODING, 65_536] {
            chain.resize(right + longer, 0);
            assert_eq!(kind.told(key, &chain), 2);
        }
    });
}

/// Two neighbours in a coding exchanged, all of a word's: it stays a permutation, and only the word rule can break.
#[test]
fn the_word_rule() {
    on_chains(33, |kind, size, chain| {
        let swap = |at: usize| changed(kind, size, &chain, |c| c.swap(at, at + 1));
        let ((old, new), last) = (kind.rule(), size.rounds());
        for place in (0..WORD).filter(|place| place % CODING < CODING - 1) {
            for (l, w) in (0..=last).flat_map(|l| [(l, 0), (l, 1), (l, 2), (l, 3)]) {
                let kept = w == old && l < last || w == new && l > 0;
                let number = swap(set_at(l) + WORD * w + place);
                assert_eq!(
                    number,
                    if kept { 4 } else { 0 },
                    "{kind:?}, word {w} of set {l}"
                );
            }
            assert_eq!(swap(place), 0, "the message set");
        }
        for l in places(last) {
            assert_eq!(swap(middles_at(size, l)), 0, "middle codings of round {l}");
        }
    });
}

/// Every byte as every mask of a round, those at half byte 0 too: over 1 it is refused.
#[test]
fn masks() {
    on_chains(34, |kind, size, chain| {
        for l in places(size.rounds()) {
            for (place, mask) in (0..MIDDLES).flat_map(|place| (0..=255).map(move |m| (place, m))) {
                let at = masks_at(size, l) + place;
                let number = changed(kind, size, &chain, |c| c[at] = mask);
                let due = if mask > 1 { 5 } else { 0 };
                assert_eq!(number, due, "{kind:?}, mask {mask} at {l}, {place}");
            }
        }
    });
}

/// Every choice among the mistakes 1 to 5, each at a first and at a last place.
#[test]
fn the_lowest_number_first() {
    on_chains(35, |kind, size, chain| {
        let last = size.rounds() - 1;
        for (choice, late) in (0..32).flat_map(|n| [(n, false), (n, true)]) {
            let made = |number: u32| choice >> (number - 1) & 1 == 1;
            let (mut other, mut key) = (chain.clone(), size.key_bytes());
            let l = if late { last } else { 0 };
            if made(5) {
                other[masks_at(size, l) + if late { MIDDLES - 1 } else { 0 }] = 2;
            }
            if made(4) {
                let at = set_at(l + 1) + kind.rule().1 * WORD;
                other.swap(at, at + 1);
            }
            if made(3) {
                let at = if late { middles_at(size, l) } else { 0 };
                other[at] = 16;
            }
            if made(2) {
                other.extend([0; 7]);
            }
            if made(1) {
                key += 1;
            }
            let due = (1..=5).find(|&number| made(number)).unwrap_or(0);
            assert_eq!(
                kind.told(key, &other),
                due,
                "mistakes {choice:05b}, late: {late}"
            );
        }
    });
}

/// Every byte of a chain, changed at random to any other: both versions say the same.
#[test]
fn every_byte() {
    let (mut random, size) = (Random(36), Size::Lea128);
    for kind in KINDS {
        let chain = kind.random(size, &mut random);
        let mut numbers = [0; 6];
        for at in 0..chain.len() {
            let step = random.bytes(1)[0].max(1);
            let number = changed(kind, size, &chain, |c| c[at] = c[at].wrapping_add(step));
            numbers[number as usize] += 1;
        }
        assert_eq!(numbers[1] + numbers[2] + numbers[4], 0, "{kind:?}");
        assert!(numbers[3] >= SET * (size.rounds() + 2) && numbers[5] > 0);
    }
}

#[test]
fn lone_sets() {
    on_chains(37, |_, size, chain| {
        for l in places(size.rounds() + 2) {
            let set = &chain[SET * l..][..SET];
            assert_eq!(told_set(set), 0);
            for at in 0..SET {
                let mut other = set.to_vec();
                other[at] = 16;
                assert_eq!(told_set(&other), 3, "byte {at}");
                assert_eq!(told_set(&other[1..]), 2);
                other.push(0);
                assert_eq!(told_set(&other), 2);
            }
        }
        for length in [0, 1, CODING, SET - 1, SET + 1, 2 * SET, chain.len()] {
            assert_eq!(told_set(&chain[..length]), 2);
        }
    });
}
