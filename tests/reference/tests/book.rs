//! Books of the reference by what they are for: their tables, run on coded blocks and decoded, do
//! what the cipher does, and hold each entry that is due. And by their layout: the key length in front, then every
//! byte, and what is refused of them.

mod given;

use given::{built, hidden, numbers, opened, xor};
use reference::book::{self, FRONT, GROUP, ROUND, START};
use reference::chain::{self, decode, Chain, CODING, MIDDLES, SET};
use reference::driver::{block, fold, halves, round, run_round, run_rounds, seal, Session};
use reference::lea::{self, Block};
use shared::chains::{uniform, IDENTITY};
use shared::schedules::EACH;

/// The key lengths, and the lengths of their books (request 2026-05).
const LENGTHS: [(usize, usize); 3] = [(16, 466_961), (24, 540_689), (32, 614_417)];

/// What the three groups of folds have in them: nothing, K1, K2.
fn subkeys(schedule: u8, key: &[u8]) -> [Block; 3] {
    let l = u128::from_be_bytes(lea::encipher(schedule, key, &[0; 16]).unwrap());
    let double = |n: u128| (n << 1) ^ ((n >> 127) * 0x87);
    [0, double(l), double(double(l))].map(u128::to_be_bytes)
}

#[test]
fn rounds_of_tables_are_rounds_of_the_cipher() {
    let mut below = numbers(1);
    for (schedule, size) in EACH {
        let (key, bytes, book) = built(schedule, size, &mut below);
        let chain = chain::check(key.len(), &bytes).ok().unwrap();
        for _ in 0..20 {
            let coded = given::block(&mut below);
            let (plain, mut x) = (decode(chain.set(0), &coded), halves(&coded));
            for l in 0..size.rounds() {
                x = round(&book[FRONT + START + 3 * GROUP + ROUND * l..][..ROUND], &x);
                let want = lea::first_rounds(schedule, &key, l + 1, &plain).unwrap();
                assert_eq!(decode(chain.set(l + 1), &block(&x)), want, "{size:?}, {l}");
            }
        }
    }
}

/// Entry 256c + 16p + q of add table (i, j) of round l, word for word.
fn add_entry(
    chain: Chain,
    row: &lea::Row,
    l: usize,
    (i, j): (usize, usize),
    (c, p, q): (u8, usize, usize),
) -> u8 {
    let place = 8 * i + j;
    let key = |k: usize| (row[k] >> (4 * j)) as usize & 15;
    let [mask_in, mask_out] = hidden(&chain.masks(l)[8 * i..], j);
    let a = opened(chain.set(l), place, p) ^ key(2 * i);
    let b = opened(chain.set(l), place + 8, q) ^ key(2 * i + 1);
    let s = a + b + usize::from(c ^ mask_in);
    let carry = u8::from(s > 15) ^ mask_out;
    16 * carry + chain.middles(l)[CODING * place + s % 16]
}

#[test]
fn every_entry_of_the_adds() {
    let mut below = numbers(17);
    for (schedule, size) in EACH {
        let (key, bytes, book) = built(schedule, size, &mut below);
        let chain = chain::check(key.len(), &bytes).ok().unwrap();
        let rounds = book[FRONT + START + 3 * GROUP..].chunks_exact(ROUND);
        for (l, tables) in rounds.enumerate() {
            let row = lea::round_keys(schedule, &key, l).unwrap();
            for (k, &entry) in tables[..24 * 512].iter().enumerate() {
                let (place, c) = ((k / 4096, k / 512 % 8), (k / 256 % 2) as u8);
                let due = add_entry(chain, &row, l, place, (c, k / 16 % 16, k % 16));
                assert_eq!(entry, due, "{size:?}, {l}, {k}");
            }
        }
    }
}

/// 9 and 8 added in half byte 7, all codings identities and the half bytes of the key taken off beforehand: the
/// carry is seen where the mask at half byte 0 is 0, and not where that is 1 (request 2026-06).
#[test]
fn the_top_of_a_sum() {
    for (schedule, size) in EACH {
        let (key, mut tables) = (vec![0x5c; size.key_bytes()], [0; ROUND]);
        let row = lea::round_keys(schedule, &key, 0).unwrap();
        let mut chain = uniform(size, IDENTITY, 0);
        let masks = SET * (size.rounds() + 2) + MIDDLES * CODING;
        for (i, (mask, due)) in (0..3).flat_map(|i| [(0, 17), (1, 1)].map(|due| (i, due))) {
            chain[masks + 8 * i] = mask;
            assert_eq!(
                book::build_round(schedule, &key, &chain, 0, &mut tables),
                Ok(())
            );
            let [p, q] = [(9, 2 * i), (8, 2 * i + 1)].map(|(x, k)| x ^ (row[k] >> 28) as usize);
            let entry = tables[512 * (8 * i + 7) + 16 * p + q];
            assert_eq!(entry, due, "{size:?}, sum {i}, mask {mask}");
        }
    }
}

#[test]
fn folds_are_xors() {
    let mut below = numbers(2);
    for (schedule, size) in EACH {
        let (key, bytes, book) = built(schedule, size, &mut below);
        let chain = chain::check(key.len(), &bytes).ok().unwrap();
        let last = chain.set(size.rounds());
        let zero: Block = book[FRONT..][..START].try_into().unwrap();
        assert_eq!(decode(last, &zero), [0; 16], "{size:?}, the start");
        let groups = book[FRONT + START..][..3 * GROUP].chunks_exact(GROUP);
        for (group, subkey) in groups.zip(subkeys(schedule, &key)) {
            let (text, message) = (given::block(&mut below), given::block(&mut below));
            let folded = block(&fold(group, &halves(&text), &halves(&message)));
            let plain = xor(decode(last, &text), decode(chain.message(), &message));
            assert_eq!(
                decode(chain.set(0), &folded),
                xor(plain, subkey),
                "{size:?}"
            );
        }
    }
}

/// A group of folds with a subkey in it, word for word: entry 16t + m of table p.
fn group(chain: Chain, subkey: Block) -> Vec<u8> {
    let entry = |k: usize| {
        let (p, t, m) = (k / 256, k / 16 % 16, k % 16);
        let half = usize::from(subkey[p / 2] >> (4 * (p % 2)) & 15);
        let text = opened(chain.set(chain.rounds()), p, t);
        let plain = text ^ opened(chain.message(), p, m) ^ half;
        chain.set(0)[CODING * p + plain]
    };
    (0..32 * 256).map(entry).collect()
}

/// In front the key length, and then what a book was without it: start, groups and rounds. The rounds are as
/// they are by themselves.
#[test]
fn every_part_in_its_place() {
    let mut below = numbers(10);
    for (schedule, size) in EACH {
        let (key_bytes, length) = LENGTHS[size as usize];
        let (key, bytes, book) = built(schedule, size, &mut below);
        let chain = chain::check(key.len(), &bytes).ok().unwrap();
        let start = chain::code(chain.set(size.rounds()), &[0; 16]);
        let mut due = [&[key_bytes as u8][..], &start].concat();
        due.extend(
            subkeys(schedule, &key)
                .into_iter()
                .flat_map(|k| group(chain, k)),
        );
        assert_eq!(due.len(), 1 + 16 + 3 * 8_192, "{size:?}");
        for l in 0..size.rounds() {
            let mut tables = vec![0; 18_432];
            assert_eq!(
                book::build_round(schedule, &key, &bytes, l, &mut tables),
                Ok(())
            );
            due.extend(tables);
        }
        assert_eq!(due.len(), length, "{size:?}");
        assert!(book == due, "{size:?}");
    }
}

#[test]
fn buffers_for_a_book() {
    let mut below = numbers(11);
    for (schedule, size) in EACH {
        let (key_bytes, length) = LENGTHS[size as usize];
        let (key, chain, book) = built(schedule, size, &mut below);
        assert_eq!((key.len(), book.len()), (key_bytes, length));
        for room in [0, 1, length - 1] {
            let mut out = vec![0x55; room];
            assert_eq!(
                book::build(schedule, &key, &chain, &mut out),
                Err(9),
                "{room}"
            );
            assert!(out.iter().all(|&x| x == 0x55), "{room}");
        }
        let mut out = vec![0x55; length + 2];
        assert_eq!(
            book::build(schedule, &key, &chain, &mut out),
            Ok(()),
            "{size:?}"
        );
        assert!(
            out[..length] == book && out[length..] == [0x55; 2],
            "{size:?}"
        );
    }
}

/// What goes into a call beside its book, and the session that it is made on.
#[derive(Clone)]
struct Given {
    block: Vec<u8>,
    message: Vec<u8>,
    room: usize,
    kind: u8,
    session: Session,
}

impl Given {
    /// Of which nothing is refused.
    fn new(below: &mut impl FnMut(usize) -> usize) -> Given {
        Given {
            block: given::block(below).to_vec(),
            message: given::block(below).repeat(3),
            room: 48,
            kind: 1,
            session: Session {
                block: given::block(below),
                count: 7,
                finished: false,
            },
        }
    }

    /// The numbers of rounds, sealing, beginning, a block call and a last call. A refusal leaves output and
    /// session as they were.
    fn told(&self, book: &[u8]) -> [u32; 5] {
        let (mut out, mut block, mut last) = (vec![0x55; self.room], self.session, self.session);
        let sealed = seal(book, &self.block, &self.message, &mut out);
        let blocked = block.block_call(book, &self.block);
        let ended = last.last_call(book, &self.block, self.kind);
        assert!(sealed.is_ok() || out.iter().all(|&x| x == 0x55));
        assert!(blocked.is_ok() || block == self.session);
        assert!(ended.is_ok() || last == self.session);
        [
            run_rounds(book, 1, &self.block).err(),
            sealed.err(),
            Session::begin(book).err(),
            blocked.err(),
            ended.err(),
        ]
        .map(|number| number.unwrap_or(0))
    }
}

/// Random bytes of a book's length, the first of them the key length.
fn any(key_bytes: usize, length: usize, below: &mut impl FnMut(usize) -> usize) -> Vec<u8> {
    let body = (1..length).map(|_| below(256) as u8);
    std::iter::once(key_bytes as u8).chain(body).collect()
}

/// Every byte in front of a book of each length: but for its own key length, 33.
#[test]
fn first_bytes() {
    let mut below = numbers(12);
    for (key_bytes, length) in LENGTHS {
        let (given, mut book) = (Given::new(&mut below), any(key_bytes, length, &mut below));
        for byte in 0..=255 {
            book[0] = byte;
            let right = usize::from(byte) == key_bytes;
            let due = if right { 0 } else { 33 };
            assert_eq!(given.told(&book), [due; 5], "{byte} before {length}");
        }
    }
}

/// Lengths that are no book's, those without the first byte among them, whatever that byte is: 6.
#[test]
fn lengths_of_books() {
    let mut below = numbers(13);
    let (given, mut bytes) = (Given::new(&mut below), any(16, 700_000, &mut below));
    let near = LENGTHS
        .into_iter()
        .flat_map(|(_, n)| [n - 1, n + 1, n - 16, n + 18_432]);
    for length in near.chain([0, 1, 2, 16, 17, 24_593, 18_432, 450_560]) {
        for byte in [16, 24, 32, 0, 33] {
            bytes[0] = byte;
            assert_eq!(given.told(&bytes[..length]), [6; 5], "{byte}, {length}");
        }
    }
}

/// What is wrong beside the book, and its numbers where the book is right.
fn wrongs(given: &Given) -> Vec<(Given, [u32; 5])> {
    let with = |change: fn(&mut Given), due: [u32; 5]| {
        let mut other = given.clone();
        change(&mut other);
        (other, due)
    };
    vec![
        with(|g| g.block.truncate(15), [7, 7, 0, 7, 7]),
        with(|g| g.message.clear(), [0, 8, 0, 0, 0]),
        with(|g| g.room = 47, [0, 9, 0, 0, 0]),
        with(|g| g.kind = 2, [0, 0, 0, 0, 10]),
        with(|g| g.session.finished = true, [0, 0, 0, 21, 21]),
        with(|g| g.session.count = 65_535, [0, 0, 0, 22, 0]),
    ]
}

/// 6, then 33, then any other.
#[test]
fn the_first_fault() {
    let mut below = numbers(14);
    for (key_bytes, length) in LENGTHS {
        let (given, mut book) = (Given::new(&mut below), any(key_bytes, length, &mut below));
        for (other, due) in wrongs(&given) {
            book[0] = key_bytes as u8;
            assert_eq!(other.told(&book), due, "{length}");
            assert_eq!(other.told(&book[..length - 1]), [6; 5], "{length}");
            book[0] ^= 8;
            assert_eq!(other.told(&book), [33; 5], "{length}");
            assert_eq!(other.told(&book[..length - 1]), [6; 5], "{length}");
        }
    }
}

/// The rounds of a book without its first byte.
fn rounds(body: &[u8]) -> impl Iterator<Item = &[u8]> {
    body[16 + 3 * 8_192..].chunks_exact(18_432)
}

/// A block folded in by a group of such a book, and taken through all rounds.
fn absorbed(body: &[u8], g: usize, x: &Block, coded: &[u8]) -> Block {
    let group = &body[16 + 8_192 * g..][..8_192];
    let coded = halves(coded.try_into().unwrap());
    let folded = block(&fold(group, &halves(x), &coded));
    rounds(body).fold(folded, |x, tables| run_round(tables, &x).unwrap())
}

/// Rounds, sealed files and tags are those of the book without its first byte.
#[test]
fn what_the_rest_of_a_book_makes() {
    let mut below = numbers(15);
    for (key_bytes, length) in LENGTHS {
        let book = any(key_bytes, length, &mut below);
        let (body, iv, mut sealed) = (&book[1..], given::block(&mut below), [0; 48]);
        let coded: Vec<u8> = (0..48).map(|_| below(256) as u8).collect();
        assert_eq!(seal(&book, &iv, &coded, &mut sealed), Ok(48));
        let mut x = iv;
        for (n, tables) in (1..).zip(rounds(body)) {
            x = run_round(tables, &x).unwrap();
            assert_eq!(run_rounds(&book, n, &iv), Ok(x), "{length}, {n} rounds");
        }
        let mut x = iv;
        for (text, place) in coded.chunks_exact(16).zip(sealed.chunks_exact(16)) {
            x = absorbed(body, 0, &x, text);
            assert_eq!(x, place, "{length}, sealed");
        }
        for (kind, g) in [(0, 1), (1, 2)] {
            let mut session = Session::begin(&book).unwrap();
            let mut x: Block = body[..16].try_into().unwrap();
            assert_eq!(session.block, x, "{length}, begun");
            for text in coded[..32].chunks_exact(16) {
                assert_eq!(session.block_call(&book, text), Ok(()));
                x = absorbed(body, 0, &x, text);
                assert_eq!(session.block, x, "{length}, a block call");
            }
            let tag = absorbed(body, g, &x, &coded[32..]);
            let told = session.last_call(&book, &coded[32..], kind);
            assert_eq!(told, Ok(tag), "{length}, kind {kind}");
        }
    }
}

/// A round by itself has no byte in front.
#[test]
fn a_round_by_itself() {
    let mut below = numbers(16);
    let mut tables = any(16, 18_433, &mut below);
    let text = given::block(&mut below);
    for byte in 0..=255 {
        tables[0] = byte;
        assert!(run_round(&tables[..18_432], &text).is_ok(), "{byte}");
        assert_eq!(run_round(&tables, &text), Err(6), "{byte}");
    }
}
