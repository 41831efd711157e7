//! The check of one coding, as lone sets, chains and reading chains ask for it: every byte at every place of a
//! coding, every pair of places with one entry, and codings with several faults. Both versions are
//! called, and what is due comes from sorting the entries.

use reference::chain::{CODING, MIDDLES, ROUND, SET};
use reference::Size;
use shared::book::check_set;
use shared::chains::{self, on_each, Kind, IDENTITY};
use shared::{places, Random};

/// 0 for a permutation of 0 to 15, the refusal 3 for anything else.
fn due(coding: &[u8]) -> u32 {
    let mut entries = coding.to_vec();
    entries.sort_unstable();
    if entries == IDENTITY {
        0
    } else {
        3
    }
}

/// Bytes with a coding in them that is to be spoilt, and what checks them.
struct Spoilt<'a> {
    bytes: Vec<u8>,
    at: usize,
    told: &'a dyn Fn(&[u8]) -> u32,
}

impl Spoilt<'_> {
    /// Checks the bytes after a change of the coding, and puts it back.
    fn after(&mut self, change: impl FnOnce(&mut [u8])) -> u32 {
        let coding = &mut self.bytes[self.at..][..CODING];
        let before = coding.to_vec();
        change(coding);
        let (due, now) = (due(coding), coding.to_vec());
        let number = (self.told)(&self.bytes);
        assert_eq!(number, due, "{now:?} at byte {}", self.at);
        self.bytes[self.at..][..CODING].copy_from_slice(&before);
        number
    }

    /// Every byte at every place: of the 256 one is taken, that which stands there.
    fn every_value(&mut self) {
        for place in 0..CODING {
            let taken = (0..=255).filter(|&value| self.after(|c| c[place] = value) == 0);
            assert_eq!(taken.count(), 1);
        }
    }

    /// Every place with the entry of every other.
    fn every_repeat(&mut self) {
        for (place, other) in (0..CODING).flat_map(|i| (0..CODING).map(move |k| (i, k))) {
            let number = self.after(|c| c[place] = c[other]);
            assert_eq!(number, if place == other { 0 } else { 3 });
        }
    }
}

/// Where the first, a middle and the last coding of some parts of a chain stand: sets and middle codings.
fn some_codings(size: Size) -> Vec<usize> {
    let rounds = size.rounds();
    let set = |s| places(SET / CODING).map(|k| SET * s + CODING * k);
    let middles = |l| places(MIDDLES).map(|k| SET * (rounds + 2) + ROUND * l + CODING * k);
    let sets = places(rounds + 2).into_iter().flat_map(set);
    sets.chain(places(rounds).into_iter().flat_map(middles))
        .collect()
}

/// Runs a check on each coding of a lone set, and on some of a chain of each kind and size.
fn on_codings(seed: u64, check: impl Fn(&mut Spoilt)) {
    let mut random = Random(seed);
    let set = chains::set(&mut random);
    for at in (0..SET).step_by(CODING) {
        let (bytes, told) = (set.clone(), &check_set);
        check(&mut Spoilt { bytes, at, told });
    }
    on_each(|kind: Kind, size| {
        let chain = kind.random(size, &mut random);
        let told = &|bytes: &[u8]| kind.told(size.key_bytes(), bytes);
        for at in some_codings(size) {
            let bytes = chain.clone();
            check(&mut Spoilt { bytes, at, told });
        }
    });
}

#[test]
fn every_value_at_every_place() {
    on_codings(60, |spoilt| spoilt.every_value());
}

#[test]
fn every_pair_of_repeats() {
    on_codings(61, |spoilt| spoilt.every_repeat());
}

/// Permutations with two entries exchanged, and with up to 16 drawn anew from the bytes below a bound.
#[test]
fn entries_at_random() {
    let mut random = Random(62);
    let set = chains::set(&mut random);
    let mut numbers = [0; 4];
    for turn in 0..24_000 {
        let (bytes, told) = (set.clone(), &check_set);
        let at = CODING * random.below(SET / CODING);
        let bound = [16, 17, 24, 32, 128, 256][turn % 6];
        let drawn = [0, 1, 2, CODING][turn / 6 % 4];
        let number = Spoilt { bytes, at, told }.after(|coding| {
            coding.swap(random.below(CODING), random.below(CODING));
            for _ in 0..drawn {
                coding[random.below(CODING)] = random.below(bound) as u8;
            }
        });
        numbers[number as usize] += 1;
    }
    assert!(numbers[0] > 6_000 && numbers[3] > 6_000, "{numbers:?}");
}
