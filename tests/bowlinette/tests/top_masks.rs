//! Request 2026-06 on both versions: the mask at half byte 0 of a sum hides the carry out of its half byte 7, or
//! of a difference the borrow. What it changes in a book, and that nothing that is made with one goes by it. That
//! it is checked, drawn and built as any other is tested in chain.rs, maker.rs, book.rs and round.rs.

use reference::book::{ADD, ROUND, TURN};
use reference::chain::MIDDLES;
use reference::lea::{self, Block};
use reference::Size;
use shared::book::{build, build_reading, build_round};
use shared::books::{self, Built};
use shared::chains::{on_each, top_masks, uniform, Kind, IDENTITY};
use shared::driver::{read, round, rounds, seal};
use shared::schedules::EACH;
use shared::session::{Both, Call};
use shared::Random;
use std::collections::BTreeSet;

/// Each sum of a book by itself, some of them, and all: sum i of round l is number 3l + i, and so is difference i
/// of a reading book.
fn choices(size: Size, random: &mut Random) -> Vec<Vec<usize>> {
    let all: Vec<usize> = (0..3 * size.rounds()).collect();
    let some = all.iter().copied().filter(|_| random.below(2) == 0);
    let more = [some.collect(), all.clone()];
    all.iter().map(|&n| vec![n]).chain(more).collect()
}

/// A chain with the masks at half byte 0 of these sums the other way round.
fn masked(size: Size, chain: &[u8], sums: &[usize]) -> Vec<u8> {
    let (mut other, places) = (chain.to_vec(), top_masks(size));
    for &n in sums {
        other[places[n]] ^= 1;
    }
    other
}

/// The book of a chain of a kind.
fn built(kind: Kind, (schedule, key): (u8, &[u8]), chain: &[u8]) -> Vec<u8> {
    let size = Size::of_key(key.len()).unwrap();
    let (number, book) = match kind {
        Kind::Sealing => build(schedule, key, chain, size.book_bytes()),
        Kind::Reading => build_reading(schedule, key, chain, size.reading_bytes()),
    };
    assert_eq!(number, 0, "{kind:?}, {size:?}");
    book
}

/// Where the add table, or subtract table, of half byte j of sum n stands in a book.
fn table_at(kind: Kind, n: usize, j: usize) -> usize {
    let first = match kind {
        Kind::Sealing => books::ROUNDS,
        Kind::Reading => MIDDLES * TURN,
    };
    first + ROUND * (n / 3) + ADD * (8 * (n % 3) + j)
}

/// Masks at half byte 0 the other way round: so is bit 4 of every entry of the tables at half byte 7 of the same
/// sums, and nothing else changes.
#[test]
fn what_the_masks_change() {
    let mut random = Random(210);
    on_each(|kind, size| {
        let key = random.bytes(size.key_bytes());
        let chain = kind.random(size, &mut random);
        let own = (random.schedule(), &key[..]);
        let book = built(kind, own, &chain);
        for sums in choices(size, &mut random) {
            let mut due = book.clone();
            for &n in &sums {
                let table = &mut due[table_at(kind, n, 7)..][..ADD];
                table.iter_mut().for_each(|entry| *entry ^= 16);
            }
            let other = built(kind, own, &masked(size, &chain, &sums));
            assert!(other == due, "{kind:?}, {size:?}, {sums:?}");
        }
    });
}

/// All that is made with a book and a reading book: a block after each number of rounds and after each round by
/// itself, a sealed file, a session after each block, the tags of both kinds, and what is read.
#[derive(PartialEq)]
struct Made {
    blocks: Vec<Block>,
    sealed: Vec<u8>,
    sessions: Vec<bowlinette::Session>,
    tags: [Block; 2],
    read: Vec<u8>,
}

impl Made {
    fn with(sealing: &Built, reading: &Built, iv: &[u8], coded: &[u8]) -> Made {
        let (book, r) = (&sealing.book, sealing.size().rounds());
        let by_itself = |l: usize| {
            let (number, tables) =
                build_round(sealing.schedule, &sealing.key, &sealing.chain, l, ROUND);
            assert_eq!(number, 0, "round {l}");
            round(&tables, iv).unwrap()
        };
        let after = (1..=r).map(|n| rounds(book, n, iv).unwrap());
        let (number, sealed) = seal(book, iv, coded, coded.len());
        let (told, text) = read(&reading.book, iv, &sealed, sealed.len());
        assert_eq!([number, told], [0, 0], "sealed and read");
        let (mut session, mut sessions) = (Both::begun(book), Vec::new());
        for block in coded.chunks_exact(16) {
            session.call(book, &Call::Block(block.to_vec())).unwrap();
            sessions.push(session.proved);
        }
        let tag = |kind: u8| {
            let mut last = session;
            let told = last.call(book, &Call::Last(iv.to_vec(), kind));
            told.unwrap().unwrap()
        };
        Made {
            blocks: after.chain((0..r).map(by_itself)).collect(),
            tags: [tag(0), tag(1)],
            read: text,
            sealed,
            sessions,
        }
    }
}

/// Nothing that is made goes by the masks at half byte 0, of a book or of a reading book.
#[test]
fn what_the_masks_leave() {
    let mut random = Random(211);
    for (schedule, size) in EACH {
        let sealing = books::built(schedule, size, &mut random);
        let reading = sealing.reading(&mut random);
        let (iv, coded) = (random.bytes(16), random.bytes(64));
        let due = Made::with(&sealing, &reading, &iv, &coded);
        for sums in choices(size, &mut random) {
            let other = |kind: Kind, own: &Built| {
                let (key, chain) = (own.key.clone(), masked(size, &own.chain, &sums));
                let book = built(kind, (schedule, &key), &chain);
                Built {
                    schedule,
                    key,
                    chain,
                    book,
                }
            };
            let others = (
                other(Kind::Sealing, &sealing),
                other(Kind::Reading, &reading),
            );
            let made = Made::with(&others.0, &others.1, &iv, &coded);
            assert!(made == due, "{size:?}, {sums:?}");
        }
    }
}

/// How many entries of each half of a table, for the two carry bits, have bit 4 set.
fn carries(table: &[u8]) -> [usize; 2] {
    [0, 1].map(|c| {
        let half = &table[256 * c..][..256];
        half.iter().filter(|&entry| entry & 16 != 0).count()
    })
}

/// Of 256 sums of two half bytes 120 are over 15, and with a carry 136; and as many differences are below 0. So
/// bit 4 is set in 120 entries of one half of a table and in 136 of the other, at half byte 7 as at any; and
/// which half that is goes by the masks.
#[test]
fn no_half_byte_stands_out() {
    let mut random = Random(212);
    on_each(|kind, size| {
        let key = random.bytes(size.key_bytes());
        let book = built(
            kind,
            (random.schedule(), &key),
            &kind.random(size, &mut random),
        );
        for j in 0..8 {
            let counts =
                (0..3 * size.rounds()).map(|n| carries(&book[table_at(kind, n, j)..][..ADD]));
            let told: BTreeSet<[usize; 2]> = counts.collect();
            let due = BTreeSet::from([[120, 136], [136, 120]]);
            assert_eq!(told, due, "{kind:?}, {size:?}, {j}");
        }
    });
}

/// 8 less 9, and 9 less 8, in half byte 7 of each difference of the first round, with identity codings: bit 4 is
/// the borrow where the mask at half byte 0 is 0, and the other way round where it is 1. The key half bytes are
/// those of the last row.
#[test]
fn figures_of_differences() {
    for (schedule, size) in EACH {
        let key = Random(213).bytes(size.key_bytes());
        let row = lea::round_keys(schedule, &key, size.rounds() - 1).unwrap();
        let half = |k: usize| (row[k] >> 28) as usize;
        for (sums, due) in [(vec![], [31, 1]), (vec![0, 1, 2], [15, 17])] {
            let chain = masked(size, &uniform(size, IDENTITY, 0), &sums);
            let book = built(Kind::Reading, (schedule, &key), &chain);
            for i in 0..3 {
                let table = &book[table_at(Kind::Reading, i, 7)..][..ADD];
                let less = |t: usize, x: usize| {
                    let entry = table[16 * t + (x ^ half(2 * i))];
                    entry ^ half(2 * i + 1) as u8
                };
                assert_eq!([less(8, 9), less(9, 8)], due, "{size:?}, {i}, {sums:?}");
            }
        }
    }
}
