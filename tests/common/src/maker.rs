//! Chains made on both versions, and the bytes that they are made from.

use crate::chains::{uniform, Kind, IDENTITY};
use crate::lent::{both, told, FILL, LENGTH};
use crate::Random;
use reference::chain::{CODING, MIDDLES, ROUND, SET, WORD};
use reference::{maker, Size};

/// The bytes that make the identity: k at place k, from the last place on.
pub const STAY: [u8; 15] = [15, 14, 13, 12, 11, 10, 9, 8, 7, 6, 5, 4, 3, 2, 1];

/// The first byte that is skipped at the places 15 down to 1; 256 where none is.
pub const SKIPPED: [usize; 15] = [
    256, 255, 252, 247, 252, 253, 250, 252, 256, 252, 252, 255, 256, 255, 256,
];

/// So many random bytes are enough for a chain of either kind, as the header says.
pub fn enough(size: Size) -> usize {
    match size {
        Size::Lea128 => 19_500,
        Size::Lea192 => 22_500,
        Size::Lea256 => 25_500,
    }
}

/// What is drawn, by where it stands in a chain.
#[derive(Clone, Copy, Debug)]
pub enum Part {
    Coding(usize),
    Mask(usize),
}

impl Kind {
    /// The call of the proved library; the set is for reading chains alone.
    #[inline]
    pub fn proved(
        self,
        key: usize,
        set: &[u8],
        random: &[u8],
        out: &mut [u8],
        drawn: &mut u64,
    ) -> u32 {
        match self {
            Kind::Sealing => bowlinette::make_chain(key, random, out, drawn),
            Kind::Reading => bowlinette::make_reading_chain(key, set, random, out, drawn),
        }
    }

    /// The call of the reference.
    #[inline]
    pub fn reference(
        self,
        key: usize,
        set: &[u8],
        random: &[u8],
        out: &mut [u8],
    ) -> Result<usize, u32> {
        match self {
            Kind::Sealing => maker::make_chain(key, random, out),
            Kind::Reading => maker::make_reading_chain(key, set, random, out),
        }
    }

    /// How many bytes are drawn if none is skipped.
    pub fn fewest(self, size: Size) -> usize {
        let (chain, reading) = match size {
            Size::Lea128 => (18_816, 18_336),
            Size::Lea192 => (21_792, 21_312),
            Size::Lea256 => (24_768, 24_288),
        };
        match self {
            Kind::Sealing => chain,
            Kind::Reading => reading,
        }
    }

    /// Whether word w of set l is drawn.
    fn draws(self, l: usize, w: usize) -> bool {
        match self {
            Kind::Sealing => l == 0 || w != 3,
            Kind::Reading => l != 0 && w != 0,
        }
    }

    /// All that is drawn, in its order.
    pub fn parts(self, size: Size) -> Vec<Part> {
        let codings = |from: usize, bytes: usize| {
            let places = (from..from + bytes).step_by(CODING);
            places.map(Part::Coding)
        };
        let mut parts: Vec<Part> = codings(0, SET).collect();
        for l in 0..=size.rounds() {
            for w in (0..4).filter(|&w| self.draws(l, w)) {
                parts.extend(codings(SET * (l + 1) + WORD * w, WORD));
            }
        }
        for l in 0..size.rounds() {
            let round = SET * (size.rounds() + 2) + ROUND * l;
            let masks = round + CODING * MIDDLES;
            parts.extend(codings(round, CODING * MIDDLES));
            parts.extend((masks..masks + MIDDLES).map(Part::Mask));
        }
        parts
    }

    /// The bytes that `of` gives for each part that is drawn, by its number and where it stands.
    pub fn bytes(self, size: Size, of: impl FnMut((usize, Part)) -> Vec<u8>) -> Vec<u8> {
        let parts = self.parts(size).into_iter();
        parts.enumerate().flat_map(of).collect()
    }

    /// The bytes that make the chain of identities and of masks 0.
    pub fn stay(self, size: Size) -> Vec<u8> {
        self.bytes(size, |(_, part)| match part {
            Part::Coding(_) => STAY.to_vec(),
            Part::Mask(_) => vec![0],
        })
    }

    /// The bytes of `stay` with another for one mask of round l, and the chain that they make. A round draws 15
    /// bytes for each middle coding, then one for each mask.
    pub fn one_mask(self, size: Size, l: usize, place: usize, byte: u8) -> (Vec<u8>, Vec<u8>) {
        let (mut bytes, mut chain) = (self.stay(size), uniform(size, IDENTITY, 0));
        let left = size.rounds() - l;
        let draws = bytes.len() - 16 * MIDDLES * left;
        let round = chain.len() - ROUND * left;
        bytes[draws + 15 * MIDDLES + place] = byte;
        chain[round + CODING * MIDDLES + place] = byte % 2;
        (bytes, chain)
    }

    /// Bytes that make a chain, all of them drawn.
    pub fn bytes_for(self, size: Size, chain: &[u8], random: &mut Random) -> Vec<u8> {
        self.bytes(size, |(_, part)| match part {
            Part::Coding(at) => bytes_for_coding(&chain[at..][..CODING], random),
            Part::Mask(at) => vec![chain[at] + 2 * random.below(128) as u8],
        })
    }
}

/// Bytes that make a coding, each any of those that do, some with skipped ones before them: the value due at
/// the last place is looked for among those not yet placed.
fn bytes_for_coding(coding: &[u8], random: &mut Random) -> Vec<u8> {
    let (mut now, mut bytes) = (IDENTITY, Vec::new());
    for (k, first) in (1..CODING).rev().zip(SKIPPED) {
        let place = now.iter().position(|&v| v == coding[k]).unwrap();
        now.swap(k, place);
        if random.below(15) == 0 {
            bytes.extend(skipped(first, random.below(10), random));
        }
        bytes.push((place + (k + 1) * random.below(first / (k + 1))) as u8);
    }
    assert_eq!(now, coding);
    bytes
}

/// So many bytes that are skipped at a place, by the first of those; none if that is 256.
pub fn skipped(first: usize, count: usize, random: &mut Random) -> Vec<u8> {
    let count = if first < 256 { count } else { 0 };
    let byte = |_| (first + random.below(256 - first)) as u8;
    (0..count).map(byte).collect()
}

/// How many bytes were drawn, and the chain; or the number of the refusal.
pub type Made = Result<(usize, Vec<u8>), u32>;

/// A chain made in a buffer of a length. It must be valid, and what is after it and what is only read must
/// stay.
pub fn make(kind: Kind, key: usize, set: &[u8], random: &[u8], room: usize) -> Made {
    let given = (kind, key, set.len(), random.len(), room);
    let before = [set.to_vec(), random.to_vec()];
    let (told, mut out) = both(
        ("make", given),
        room,
        |out| told(LENGTH, |drawn| kind.proved(key, set, random, out, drawn)),
        |out| kind.reference(key, set, random, out).map(|n| n as u64),
    );
    assert!(
        [set, random] == before,
        "make, {given:?}: what is only read"
    );
    let drawn = told? as usize;
    let after = out.split_off(Size::of_key(key).unwrap().chain_bytes());
    assert!(after.iter().all(|&x| x == FILL), "make, {given:?}");
    assert_eq!(kind.told(key, &out), 0, "make, {given:?}: the chain");
    Ok((drawn, out))
}
