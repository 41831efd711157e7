//! Reading books of the reference by what they are for: their tables, run on coded blocks and decoded,
//! undo what the cipher does, and what was sealed is read.

mod given;

use given::{block, built, hidden, numbers, opened, xor};
use reference::chain::{self, check_reading, decode, decode_all, Chain, CODING, SET, WORD};
use reference::driver::{self, halves};
use reference::lea::{self, Block};
use reference::schedule::{expand, EMPTY};
use reference::{pad, reading, Size};
use shared::schedules::EACH;

/// A key and its schedule, its sealing book, and the chains and the reading book that go with it.
struct Given {
    schedule: u8,
    size: Size,
    key: Vec<u8>,
    sealing: Vec<u8>,
    book: Vec<u8>,
    chain: Vec<u8>,
    reading: Vec<u8>,
}

impl Given {
    /// Set 0 of the reading chain is set r of the sealing chain.
    fn new(schedule: u8, size: Size, below: &mut impl FnMut(usize) -> usize) -> Given {
        let (key, sealing, book) = built(schedule, size, below);
        let last = &sealing[SET * (size.rounds() + 1)..][..SET];
        let chain = chain::random_reading(size, Some(last), below);
        let mut reading = vec![0; size.reading_bytes()];
        assert_eq!(reading::build(schedule, &key, &chain, &mut reading), Ok(()));
        Given {
            schedule,
            size,
            key,
            sealing,
            book,
            chain,
            reading,
        }
    }

    fn chain(&self) -> Chain<'_> {
        check_reading(self.key.len(), &self.chain).ok().unwrap()
    }

    /// What is read of a sealed file, decoded.
    fn read(&self, iv: &Block, sealed: &[u8]) -> Vec<u8> {
        let mut out = vec![0; sealed.len()];
        let told = reading::read(&self.reading, iv, sealed, &mut out);
        assert_eq!(told, Ok(sealed.len()), "{:?}", self.size);
        decode_all(self.chain().message(), &out)
    }
}

/// Runs a check on random keys, chains and books of each schedule and size.
fn on_each(seed: u32, mut check: impl FnMut(Given, &mut dyn FnMut(usize) -> usize)) {
    let mut below = numbers(seed);
    for (schedule, size) in EACH {
        check(Given::new(schedule, size, &mut below), &mut below);
    }
}

#[test]
fn reading_rounds_undo_rounds_of_the_cipher() {
    on_each(3, |given, mut below| {
        let (chain, r, mut rows) = (given.chain(), given.size.rounds(), EMPTY);
        let told = expand(given.schedule, &given.key, &mut rows);
        assert_eq!(told, Ok(given.size));
        for _ in 0..20 {
            let coded = block(&mut below);
            let (plain, mut x) = (lea::state(&decode(chain.set(0), &coded)), halves(&coded));
            for l in 0..r {
                let tables = &given.reading[reading::ROUND * l..][..reading::ROUND];
                x = reading::round(tables, &x);
                let want = lea::block(lea::backward(&rows[r - 1 - l..r], plain));
                let told = decode(chain.set(l + 1), &driver::block(&x));
                assert_eq!(told, want, "{:?}, {l}", given.size);
            }
        }
    });
}

/// Entry 16p + q of turn table (i, j) of reading round l, word for word.
fn turn_entry(chain: Chain, l: usize, (i, j): (usize, usize), (p, q): (usize, usize)) -> u8 {
    let (high, low) = [(j + 3, j + 2), (j + 7, j + 6), (j, j + 7)][i];
    let u = opened(chain.set(l), 8 * i + high % 8, p);
    let v = opened(chain.set(l), 8 * i + low % 8, q);
    let turned = [8 * u + v / 2, 2 * u + v / 8, 8 * u + v / 2][i] % 16;
    chain.middles(l)[CODING * (8 * i + j) + turned]
}

/// Entry 256c + 16p + q of subtract table (i, j), with the key row that the round undoes.
fn subtract_entry(
    chain: Chain,
    row: &lea::Row,
    l: usize,
    (i, j): (usize, usize),
    (c, p, q): (usize, usize, usize),
) -> u8 {
    let place = 8 * i + j;
    let key = |k: usize| (row[k] >> (4 * j)) as i32 & 15;
    let t = opened(chain.middles(l), place, p) as i32;
    let x = opened(chain.set(l + 1), place, q) as i32;
    let [mask_in, mask_out] = hidden(&chain.masks(l)[8 * i..], j);
    let d = t - (x ^ key(2 * i)) - i32::from(c as u8 ^ mask_in);
    let borrow = u8::from(d < 0) ^ mask_out;
    let half = (d.rem_euclid(16) ^ key(2 * i + 1)) as usize;
    16 * borrow + chain.set(l + 1)[CODING * (place + 8) + half]
}

#[test]
fn every_entry_of_the_rounds() {
    on_each(8, |given, _| {
        let (chain, r) = (given.chain(), given.size.rounds());
        for (l, tables) in given
            .reading
            .chunks_exact(reading::ROUND)
            .take(r)
            .enumerate()
        {
            let row = lea::round_keys(given.schedule, &given.key, r - 1 - l).unwrap();
            for (k, &entry) in tables.iter().enumerate() {
                let (p, q) = (k / 16 % 16, k % 16);
                let due = match k.checked_sub(24 * 256) {
                    None => turn_entry(chain, l, (k / 2048, k / 256 % 8), (p, q)),
                    Some(k) => {
                        let place = (k / 4096, k / 512 % 8);
                        subtract_entry(chain, &row, l, place, (k / 256 % 2, p, q))
                    }
                };
                assert_eq!(entry, due, "{:?}, {l}, {k}", given.size);
            }
        }
    });
}

#[test]
fn every_entry_of_the_folds() {
    on_each(9, |given, _| {
        let (chain, r) = (given.chain(), given.size.rounds());
        let group = &given.reading[reading::ROUND * r..];
        assert_eq!(group.len(), 32 * 256);
        for (k, &entry) in group.iter().enumerate() {
            let (p, t, m) = (k / 256, k / 16 % 16, k % 16);
            let plain = opened(chain.set(r), p, t) ^ opened(chain.set(0), p, m);
            let due = chain.message()[CODING * p + plain];
            assert_eq!(entry, due, "{:?}, {k}", given.size);
        }
    });
}

#[test]
fn what_is_sealed_is_read() {
    on_each(4, |given, mut below| {
        for n in (0..=50).chain([255, 256, 1_000]) {
            let message: Vec<u8> = (0..n).map(|_| below(256) as u8).collect();
            let (iv, u) = (block(&mut below), &given.sealing[..SET]);
            let (mut coded, added) = (vec![0; n + 16 - n % 16], 16 - n % 16);
            let mut sealed = coded.clone();
            let told = pad::code_for_sealing(u, &message, &mut coded);
            assert_eq!(told, Ok(coded.len()));
            let told = driver::seal(&given.book, &iv, &coded, &mut sealed);
            assert_eq!(told, Ok(coded.len()));
            let padded = [message, vec![added as u8; added]].concat();
            assert_eq!(given.read(&iv, &sealed), padded, "{:?}, {n}", given.size);
        }
    });
}

/// CBC undone, whatever was sealed: no padding is looked at.
#[test]
fn any_blocks_are_read() {
    on_each(5, |given, mut below| {
        let (iv, set) = (block(&mut below), given.chain().set(0));
        let sealed: Vec<Block> = (0..9).map(|_| block(&mut below)).collect();
        let (mut before, mut due) = (decode(set, &iv), Vec::new());
        for text in sealed.iter().map(|coded| decode(set, coded)) {
            due.extend(xor(
                lea::decipher(given.schedule, &given.key, &text).unwrap(),
                before,
            ));
            before = text;
        }
        assert_eq!(given.read(&iv, &sealed.concat()), due, "{:?}", given.size);
    });
}

/// No byte in front states the key length: the book has the lengths of request 2026-01, and any first byte.
#[test]
fn first_bytes() {
    on_each(10, |mut given, _| {
        let length = match given.size {
            Size::Lea128 => 450_560,
            Size::Lea192 => 524_288,
            Size::Lea256 => 598_016,
        };
        assert_eq!(given.reading.len(), length, "{:?}", given.size);
        let read = |book: &[u8]| reading::read(book, &[0; 16], &[0; 16], &mut [0; 16]);
        for byte in 0..=255 {
            given.reading[0] = byte;
            assert_eq!(read(&given.reading), Ok(16), "{:?}, {byte}", given.size);
        }
        let stated = [&[given.key.len() as u8][..], &given.reading].concat();
        assert_eq!(read(&stated), Err(6), "{:?}", given.size);
    });
}

/// Two images of a coding exchanged in one of the two words, and a chain of the other kind: 4.
#[test]
fn the_word_rule() {
    on_each(6, |given, _| {
        let number = |chain: &[u8]| check_reading(given.key.len(), chain).err();
        for l in 0..given.size.rounds() {
            for word in [SET * (l + 2), SET * (l + 1) + 3 * WORD] {
                for at in [word, word + WORD - CODING] {
                    let mut other = given.chain.clone();
                    other.swap(at, at + 1);
                    assert_eq!(number(&other), Some(4), "{:?}, {l}", given.size);
                }
            }
        }
        assert_eq!(number(&given.chain), None);
        assert_eq!(number(&given.sealing), Some(4));
        assert_eq!(chain::check(given.key.len(), &given.chain).err(), Some(4));
    });
}

#[test]
fn refusals() {
    on_each(7, |given, _| {
        let (key, chain, book) = (&given.key, &given.chain, &given.reading);
        let mut out = book.clone();
        let n = out.len() - 1;
        let build = |key: &[u8], chain: &[u8], out: &mut [u8]| {
            reading::build(given.schedule, key, chain, out)
        };
        assert_eq!(build(&key[1..], &chain[1..], &mut out), Err(1));
        assert_eq!(build(key, &chain[1..], &mut out[..n]), Err(2));
        assert_eq!(build(key, &given.sealing, &mut []), Err(4));
        assert_eq!(build(key, chain, &mut out[..n]), Err(9));
        let mut read = |book: &[u8], iv: &[u8], sealed: &[u8], room: usize| {
            reading::read(book, iv, sealed, &mut out[..room])
        };
        assert_eq!(read(&given.book, &[0; 15], &[], 0), Err(6));
        assert_eq!(read(book, &[0; 15], &[], 0), Err(7));
        assert_eq!(read(book, &[0; 16], &[], 0), Err(8));
        assert_eq!(read(book, &[0; 16], &[0; 24], 0), Err(8));
        assert_eq!(read(book, &[0; 16], &vec![0; 1_048_592], 0), Err(8));
        assert_eq!(read(book, &[0; 16], &[0; 32], 31), Err(9));
        assert_eq!(read(book, &[0; 16], &[0; 32], 33), Ok(32));
        assert!(out[32..] == book[32..], "past what is read");
    });
}
