//! Request 2026-05 on both versions: the byte in front of a book, which states the length of its key. What is
//! refused of it, what stands behind it, and what has no such byte. Beside all other refusals it is tested in
//! driver.rs and session.rs.

use reference::book::{double, GROUP, ROUND, START};
use reference::chain::{self, Chain, CODING, SET};
use reference::driver::{self, fold, halves, run_round};
use reference::lea::{self, Block};
use shared::book::{build, build_round};
use shared::driver::{read, round, rounds, seal};
use shared::schedules::EACH;
use shared::session::{tag, Both, Call};
use shared::{books, chains, Random};

/// What the five operations on a book are given beside it.
struct Given {
    block: Vec<u8>,
    coded: Vec<u8>,
    session: Both,
}

impl Given {
    /// A block of so many bytes, a coded message, and a session that goes on.
    fn new(block: usize, random: &mut Random) -> Given {
        Given {
            block: random.bytes(block),
            coded: random.bytes(48),
            session: Both::new(random.block(), 7, 0),
        }
    }

    /// The number of a call on the session.
    fn called(&self, book: &[u8], call: Call) -> u32 {
        let mut session = self.session;
        session.call(book, &call).err().unwrap_or(0)
    }

    /// The numbers of rounds, sealing, beginning, a block call and a last call.
    fn told(&self, book: &[u8]) -> [u32; 5] {
        [
            rounds(book, usize::MAX, &self.block).err().unwrap_or(0),
            seal(book, &self.block, &self.coded, 48).0,
            self.called(book, Call::Begin),
            self.called(book, Call::Block(self.block.clone())),
            self.called(book, Call::Last(self.block.clone(), 1)),
        ]
    }
}

/// Bytes with another in front.
fn behind(byte: u8, rest: &[u8]) -> Vec<u8> {
    [&[byte], rest].concat()
}

/// Every byte in front of books of each length: but for the length of their key, 33, and that before 7.
#[test]
fn every_first_byte() {
    let mut random = Random(200);
    for (size, book) in books::any(&mut random) {
        for n in [16, 15] {
            let given = Given::new(n, &mut random);
            for byte in 0..=255 {
                let other = behind(byte, &book[1..]);
                let due = match (usize::from(byte) == size.key_bytes(), n) {
                    (false, _) => [33; 5],
                    (true, 16) => [0; 5],
                    (true, _) => [7, 7, 0, 7, 7],
                };
                assert_eq!(given.told(&other), due, "{size:?}, {byte}, block of {n}");
                assert!(other == behind(byte, &book[1..]), "{size:?}, the book");
            }
        }
    }
}

/// Every byte in front of what has no book's length, as what books were without it: 6, before 33 and 7.
#[test]
fn every_first_byte_at_other_lengths() {
    let mut random = Random(201);
    let (mut bytes, given) = (
        random.bytes(700_000),
        [16, 15].map(|n| Given::new(n, &mut random)),
    );
    let before = [466_960, 540_688, 614_416];
    let reading = [450_560, 524_288, 598_016];
    let near = books::LENGTHS.map(|n| [n + 1, n + ROUND, n - ROUND]);
    let lengths = before.into_iter().chain(reading);
    let lengths = lengths.chain(near.into_iter().flatten());
    for n in lengths.chain([0, 1, 16, 17, ROUND, ROUND + 1]) {
        for byte in 0..=255 {
            bytes[0] = byte;
            for given in &given {
                assert_eq!(given.told(&bytes[..n]), [6; 5], "{byte} in front of {n}");
            }
        }
    }
}

/// A group of fold tables with a subkey in it, as docs/FORMAT.md has entry 16t + m of table p.
fn group(chain: Chain, subkey: &Block) -> Vec<u8> {
    let last = chain::inverted::<SET>(chain.set(chain.rounds()));
    let message = chain::inverted::<SET>(chain.message());
    let entry = |k: usize| {
        let (p, t, m) = (k / 256, k / 16 % 16, k % 16);
        let half = subkey[p / 2] >> (4 * (p % 2)) & 15;
        let plain = last[CODING * p + t] ^ message[CODING * p + m] ^ half;
        chain.set(0)[CODING * p + usize::from(plain)]
    };
    (0..GROUP).map(entry).collect()
}

/// What a book of a key and a chain was without its first byte: start, groups, and each round by itself.
fn body(schedule: u8, key: &[u8], bytes: &[u8]) -> Vec<u8> {
    let chain = chain::check(key.len(), bytes).ok().unwrap();
    let mut body = chain::code(chain.set(chain.rounds()), &[0; 16]).to_vec();
    let first = double(lea::encipher(schedule, key, &[0; 16]).unwrap());
    for subkey in [[0; 16], first, double(first)] {
        body.extend(group(chain, &subkey));
    }
    for l in 0..chain.rounds() {
        let (number, tables) = build_round(schedule, key, bytes, l, ROUND);
        assert_eq!(number, 0, "round {l}");
        body.extend(tables);
    }
    body
}

/// A book is the length of its key and what it was; and there must be room for both.
#[test]
fn books_that_are_built() {
    let mut random = Random(202);
    for (schedule, size) in EACH {
        let length = books::LENGTHS[size as usize];
        let key = random.bytes(size.key_bytes());
        let chain = chains::valid(size, &mut random);
        let (number, book) = build(schedule, &key, &chain, length);
        assert_eq!(number, 0, "{size:?}");
        assert!(
            book == behind(key.len() as u8, &body(schedule, &key, &chain)),
            "{size:?}"
        );
        assert_eq!(build(schedule, &key, &chain, length - 1).0, 9, "{size:?}");
    }
}

/// A block folded in by a group of a book without its first byte, and taken through all rounds.
fn absorbed(body: &[u8], g: usize, x: &Block, coded: &[u8]) -> Block {
    let group = &body[START + GROUP * g..][..GROUP];
    let coded = halves(coded.try_into().unwrap());
    let folded = driver::block(&fold(group, &halves(x), &coded));
    let rounds = body[START + 3 * GROUP..].chunks_exact(ROUND);
    rounds.fold(folded, |x, tables| run_round(tables, &x).unwrap())
}

/// The blocks that come out of coded ones, one after the other.
fn absorbed_all(body: &[u8], mut x: Block, coded: &[u8]) -> Vec<Block> {
    let next = |text: &[u8]| {
        x = absorbed(body, 0, &x, text);
        x
    };
    coded.chunks_exact(16).map(next).collect()
}

/// Sealed files and tags are those of the book without its first byte.
#[test]
fn what_the_rest_of_a_book_makes() {
    let mut random = Random(203);
    for (size, book) in books::any(&mut random) {
        let (body, iv, coded) = (&book[1..], random.block(), random.bytes(48));
        let sealed = absorbed_all(body, iv, &coded).concat();
        assert_eq!(seal(&book, &iv, &coded, 48), (0, sealed), "{size:?}");
        let start = body[..START].try_into().unwrap();
        let before = absorbed_all(body, start, &coded[..32])[1];
        for (kind, g) in [(0, 1), (1, 2)] {
            let due = absorbed(body, g, &before, &coded[32..]);
            assert_eq!(tag(&book, &coded, kind), due, "{size:?}, kind {kind}");
        }
    }
}

/// A reading book and the tables of a round have no such byte: their first byte may be any, and with one in
/// front their length is wrong.
#[test]
fn what_has_no_byte_in_front() {
    let mut random = Random(204);
    for (size, book) in books::any_reading(&mut random) {
        let (block, sealed, tables) = (random.block(), random.bytes(32), random.bytes(ROUND));
        let reads = |book: &[u8]| read(book, &block, &sealed, 32).0;
        for byte in 0..=255 {
            let told = [&book, &book[1..]].map(|rest| reads(&behind(byte, rest)));
            assert_eq!(told, [6, 0], "{size:?}, {byte}: read");
            let told = [&tables, &tables[1..]].map(|rest| round(&behind(byte, rest), &block).err());
            assert_eq!(told, [Some(6), None], "{byte}: a round");
        }
    }
}
