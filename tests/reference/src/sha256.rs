//! SHA-256 (FIPS 180-4).

/// What a message is hashed to.
pub type Digest = [u8; 32];
/// A hash value, and a block of the padded message, as words.
type Hash = [u32; 8];
type Words = [u32; 16];

/// A block in bytes, and how many of them tell the message's length, at the end of the last block.
const BLOCK: usize = 64;
const LENGTH: usize = 8;

/// The constants (4.2.2), and the hash value to begin with (5.3.3).
static CONSTANTS: [u32; 64] = [
    0x428a2f98, 0x71374491, 0xb5c0fbcf, 0xe9b5dba5, 0x3956c25b, 0x59f111f1, 0x923f82a4, 0xab1c5ed5,
    0xd807aa98, 0x12835b01, 0x243185be, 0x550c7dc3, 0x72be5d74, 0x80deb1fe, 0x9bdc06a7, 0xc19bf174,
    0xe49b69c1, 0xefbe4786, 0x0fc19dc6, 0x240ca1cc, 0x2de92c6f, 0x4a7484aa, 0x5cb0a9dc, 0x76f988da,
    0x983e5152, 0xa831c66d, 0xb00327c8, 0xbf597fc7, 0xc6e00bf3, 0xd5a79147, 0x06ca6351, 0x14292967,
    0x27b70a85, 0x2e1b2138, 0x4d2c6dfc, 0x53380d13, 0x650a7354, 0x766a0abb, 0x81c2c92e, 0x92722c85,
    0xa2bfe8a1, 0xa81a664b, 0xc24b8b70, 0xc76c51a3, 0xd192e819, 0xd6990624, 0xf40e3585, 0x106aa070,
    0x19a4c116, 0x1e376c08, 0x2748774c, 0x34b0bcb5, 0x391c0cb3, 0x4ed8aa4a, 0x5b9cca4f, 0x682e6ff3,
    0x748f82ee, 0x78a5636f, 0x84c87814, 0x8cc70208, 0x90befffa, 0xa4506ceb, 0xbef9a3f7, 0xc67178f2,
];
const START: Hash = [
    0x6a09e667, 0xbb67ae85, 0x3c6ef372, 0xa54ff53a, 0x510e527f, 0x9b05688c, 0x1f83d9ab, 0x5be0cd19,
];

/// A word turned right by three counts, and these xored (4.1.2, the two that a round uses).
#[inline]
fn turned(x: u32, counts: [u32; 3]) -> u32 {
    x.rotate_right(counts[0]) ^ x.rotate_right(counts[1]) ^ x.rotate_right(counts[2])
}

/// A word turned right by two counts and shifted by a third, and these xored (4.1.2, the two that the words
/// of a block are continued with).
#[inline]
fn shifted(x: u32, turns: [u32; 2], shift: u32) -> u32 {
    x.rotate_right(turns[0]) ^ x.rotate_right(turns[1]) ^ (x >> shift)
}

/// The next 16 words of a block after 16 of them, in their place (6.2.2, step 1).
#[inline]
fn extend(w: &mut Words) {
    for t in 0..16 {
        let early = shifted(w[(t + 1) % 16], [7, 18], 3);
        let late = shifted(w[(t + 14) % 16], [17, 19], 10);
        w[t] = w[t]
            .wrapping_add(early)
            .wrapping_add(w[(t + 9) % 16])
            .wrapping_add(late);
    }
}

/// One step in place (6.2.2, step 3), given the sum of its word and its constant: what is new is in d and h,
/// and the next step has h first.
#[inline(always)]
fn step(sum: u32, [a, b, c]: [u32; 3], d: &mut u32, [e, f, g]: [u32; 3], h: &mut u32) {
    let choice = g ^ (e & (f ^ g));
    let first = h
        .wrapping_add(turned(e, [6, 11, 25]))
        .wrapping_add(choice)
        .wrapping_add(sum);
    let majority = (a & b) ^ (c & (a ^ b));
    *d = d.wrapping_add(first);
    *h = first
        .wrapping_add(turned(a, [2, 13, 22]))
        .wrapping_add(majority);
}

/// The hash value after one more block (6.2.2).
fn compress(hash: &mut Hash, mut words: Words) {
    let [mut a, mut b, mut c, mut d, mut e, mut f, mut g, mut h] = *hash;
    for (n, constants) in CONSTANTS.chunks_exact(16).enumerate() {
        if n > 0 {
            extend(&mut words);
        }
        for (k, w) in constants.chunks_exact(8).zip(words.chunks_exact(8)) {
            let sum = |t: usize| k[t].wrapping_add(w[t]);
            step(sum(0), [a, b, c], &mut d, [e, f, g], &mut h);
            step(sum(1), [h, a, b], &mut c, [d, e, f], &mut g);
            step(sum(2), [g, h, a], &mut b, [c, d, e], &mut f);
            step(sum(3), [f, g, h], &mut a, [b, c, d], &mut e);
            step(sum(4), [e, f, g], &mut h, [a, b, c], &mut d);
            step(sum(5), [d, e, f], &mut g, [h, a, b], &mut c);
            step(sum(6), [c, d, e], &mut f, [g, h, a], &mut b);
            step(sum(7), [b, c, d], &mut e, [f, g, h], &mut a);
        }
    }
    for (word, more) in hash.iter_mut().zip([a, b, c, d, e, f, g, h]) {
        *word = word.wrapping_add(more);
    }
}

/// The hash value after the blocks of some bytes, their words highest byte first.
fn absorb(hash: &mut Hash, blocks: &[u8]) {
    for block in blocks.chunks_exact(BLOCK) {
        let four = |t: usize| block[4 * t..][..4].try_into().unwrap();
        compress(hash, std::array::from_fn(|t| u32::from_be_bytes(four(t))));
    }
}

/// The digest of a message of any length.
pub fn digest(message: &[u8]) -> Digest {
    let mut hash = START;
    let (whole, rest) = message.split_at(message.len() - message.len() % BLOCK);
    absorb(&mut hash, whole);
    let mut end = [0; 2 * BLOCK];
    end[..rest.len()].copy_from_slice(rest);
    end[rest.len()] = 0x80;
    let length = if rest.len() < BLOCK - LENGTH {
        BLOCK
    } else {
        2 * BLOCK
    };
    let bits = 8 * message.len() as u64;
    end[length - LENGTH..length].copy_from_slice(&bits.to_be_bytes());
    absorb(&mut hash, &end[..length]);
    let mut digest = [0; 32];
    for (four, word) in digest.chunks_exact_mut(4).zip(hash) {
        four.copy_from_slice(&word.to_be_bytes());
    }
    digest
}
