//! Request 2026-07 on both versions: numbers that are no schedule's are refused by every operation with a key,
//! before all else; and what goes by the schedule, in a book and in all that is made with one. That the rows are
//! those of document 000 is tested in lists.rs, and each operation by both schedules beside its other tests.

use reference::book::{ADD, FRONT, GROUP, ROUND, START, TURN};
use reference::chain::{self, MIDDLES, SET};
use reference::{lea, Size};
use shared::archive::{check, open, sealed_text};
use shared::book::{build, build_reading, build_round};
use shared::books::{self, Built, ROUNDS};
use shared::chains::{self, KINDS};
use shared::cmac::cmac;
use shared::lent::written;
use shared::pad::padded;
use shared::roundtrip;
use shared::schedules::EACH;
use shared::version::{PROVED, REFERENCE};
use shared::way::text_read;
use shared::{Random, FILL};

/// The CBC-MAC of the test library, on both versions.
fn cbc_mac(schedule: u8, key: &[u8], text: &[u8]) -> Result<lea::Block, u32> {
    let told = written(FILL, |out| bowlinette::cbc_mac(schedule, key, text, out));
    let due = lea::cbc_mac(schedule, key, text);
    assert_eq!(
        told,
        due,
        "{schedule}, key of {}, {} bytes",
        key.len(),
        text.len()
    );
    told
}

/// What every operation with a key is given beside the schedule.
#[derive(Clone)]
struct Given {
    key: Vec<u8>,
    chains: [Vec<u8>; 2],
    set: Vec<u8>,
    block: Vec<u8>,
    tag: Vec<u8>,
    sealed: Vec<u8>,
    message: Vec<u8>,
    rooms: [usize; 4],
}

impl Given {
    /// Of which nothing is refused by a schedule; the tag is that of the message.
    fn new(schedule: u8, size: Size, random: &mut Random) -> Given {
        let (key, set) = (random.bytes(size.key_bytes()), chains::set(random));
        let (block, message) = (random.bytes(16), random.bytes(40));
        let sealed = sealed_text(schedule, &key, &set, &block, &padded(&message));
        let tag = chain::code(&set, &cmac(schedule, &key, &message)).to_vec();
        Given {
            chains: KINDS.map(|kind| kind.random(size, random)),
            rooms: [size.book_bytes(), size.reading_bytes(), ROUND, sealed.len()],
            key,
            set,
            block,
            tag,
            sealed,
            message,
        }
    }

    /// The numbers of all operations with a key, each on both versions.
    fn told(&self, schedule: u8) -> Vec<u32> {
        let (key, block, [chain, reading]) = (&self.key, &self.block, &self.chains);
        let [book, reading_book, tables, room] = self.rooms;
        let versions = [&PROVED, &REFERENCE];
        let blocks = versions.map(|v| {
            [
                (v.encipher)(schedule, key, block).err(),
                (v.decipher)(schedule, key, block).err(),
                (v.first_rounds)(schedule, key, 3, block).err(),
                (v.round_keys)(schedule, key, 3).err(),
            ]
        });
        assert_eq!(blocks[0], blocks[1], "{schedule}");
        let trip = roundtrip::Given {
            schedule,
            key: key.clone(),
            chain: chain.clone(),
            iv: block.clone(),
            message: &self.message,
            rooms: [book, room, room, room],
        };
        let archive = [
            cbc_mac(schedule, key, &self.message).err(),
            open(schedule, key, &self.set, block, &self.sealed, room).err(),
            check(schedule, key, &self.set, &self.message, &self.tag).err(),
        ];
        let whole = [
            build(schedule, key, chain, book).0,
            build_reading(schedule, key, reading, reading_book).0,
            build_round(schedule, key, chain, 3, tables).0,
            trip.tagged(),
            trip.sealed(),
        ];
        let others = blocks[0].iter().chain(&archive);
        let others = others.map(|number| number.unwrap_or(0));
        others.chain(whole).collect()
    }
}

/// Each makes some operation refuse.
const WRONGS: [fn(&mut Given); 10] = [
    |g| g.key.push(7),
    |g| g.key.clear(),
    |g| g.chains.iter_mut().for_each(|chain| chain.push(0)),
    |g| g.chains.iter_mut().for_each(|chain| chain[SET] = 16),
    |g| g.set.truncate(SET - 1),
    |g| g.block.push(7),
    |g| g.tag.push(7),
    |g| g.sealed.clear(),
    |g| g.message.resize(1_048_576, 7),
    |g| g.rooms = [0; 4],
];

/// All 254 other numbers, be the rest right or all of it wrong.
#[test]
fn every_other_number() {
    let mut random = Random(220);
    for (schedule, size) in EACH {
        let right = Given::new(schedule, size, &mut random);
        assert_eq!(right.told(schedule), [0; 12], "{schedule}, {size:?}");
        let mut wrong = right.clone();
        WRONGS.iter().for_each(|make| make(&mut wrong));
        assert_eq!(wrong.told(schedule), [1; 12], "{schedule}, {size:?}");
        for number in 2..=255 {
            let told = [&right, &wrong].map(|given| given.told(number));
            assert_eq!(told, [[34; 12]; 2], "{number}, {size:?}");
        }
    }
}

/// Some of them before each other refusal.
#[test]
fn before_all_others() {
    let mut random = Random(221);
    for (schedule, size) in EACH {
        let right = Given::new(schedule, size, &mut random);
        for (k, make) in WRONGS.iter().enumerate() {
            let mut wrong = right.clone();
            make(&mut wrong);
            let told = wrong.told(schedule);
            let refused = told.iter().any(|&number| number != 0) && !told.contains(&34);
            assert!(refused, "{schedule}, {size:?}, {k}: {told:?}");
            for number in [2, 3, 128, 255] {
                assert_eq!(wrong.told(number), [34; 12], "{number}, {size:?}, {k}");
            }
        }
    }
}

/// The parts of books of a key and a chain by both schedules, beginning at each place, that are the same.
fn same(books: &[Vec<u8>; 2], places: &[usize]) -> Vec<bool> {
    let ends = places[1..].iter().copied().chain([books[0].len()]);
    let part = |from: usize, to: usize| books[0][from..to] == books[1][from..to];
    places
        .iter()
        .zip(ends)
        .map(|(&from, to)| part(from, to))
        .collect()
}

/// In a book its add tables and the groups of fold tables with K1 and K2 go by the schedule, in a reading book its
/// subtract tables; all else is the same.
#[test]
fn what_goes_by_the_schedule_in_books() {
    let mut random = Random(222);
    for size in Size::ALL {
        let (key, r) = (random.bytes(size.key_bytes()), size.rounds());
        let chain = chains::valid(size, &mut random);
        let books = [0, 1].map(|schedule| build(schedule, &key, &chain, size.book_bytes()).1);
        let groups = (0..3).map(|g| FRONT + START + GROUP * g);
        let rounds = (0..r).flat_map(|l| [0, MIDDLES * ADD].map(|at| ROUNDS + ROUND * l + at));
        let places: Vec<usize> = [0].into_iter().chain(groups).chain(rounds).collect();
        let due = [&[true, true, false, false][..], &[false, true].repeat(r)].concat();
        assert_eq!(same(&books, &places), due, "{size:?}");
        let chain = chains::reading(size, None, &mut random);
        let room = size.reading_bytes();
        let books = [0, 1].map(|schedule| build_reading(schedule, &key, &chain, room).1);
        let rounds = (0..r).flat_map(|l| [0, MIDDLES * TURN].map(|at| ROUND * l + at));
        let places: Vec<usize> = rounds.chain([ROUND * r]).collect();
        let due = [&[true, false].repeat(r)[..], &[true]].concat();
        assert_eq!(same(&books, &places), due, "{size:?}, reading");
    }
}

/// A file that a book of one schedule sealed is read by the reading book of that schedule alone. What the archive
/// makes of it by the other is tested in archive.rs.
#[test]
fn reading_by_the_other_schedule() {
    let mut random = Random(223);
    for (schedule, size) in EACH {
        let sealing = books::built(schedule, size, &mut random);
        let reading = sealing.reading(&mut random);
        let (iv, text) = (random.bytes(16), random.bytes(64));
        let sealed = sealed_text(schedule, &sealing.key, sealing.last_set(), &iv, &text);
        assert_eq!(
            text_read(&reading, &iv, &sealed),
            text,
            "{schedule}, {size:?}"
        );
        let room = reading.book.len();
        let (number, book) = build_reading(1 - schedule, &reading.key, &reading.chain, room);
        assert_eq!(number, 0, "{schedule}, {size:?}");
        let other = Built { book, ..reading };
        let told = text_read(&other, &iv, &sealed);
        let differs = |k: usize| told[16 * k..][..16] != text[16 * k..][..16];
        assert!((0..4).all(differs), "{schedule}, {size:?}");
    }
}
