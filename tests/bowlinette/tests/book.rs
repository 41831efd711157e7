//! Books, single rounds of them and reading books, on both versions: every byte, each refusal, and what
//! stays as it was.

use reference::book::{ADD, FOLD, ROUND};
use reference::chain::{self, CODING, MIDDLES, SET, WORD};
use reference::{lea, Size};
use shared::book::{build, build_reading, build_round};
use shared::chains::{self, uniform, IDENTITY};
use shared::schedules::EACH;
use shared::{books, places, Random, FILL};

/// What is built.
#[derive(Clone, Copy, Debug, PartialEq)]
enum Kind {
    Book,
    Reading,
}

/// What a call is given beside its buffer.
#[derive(Clone)]
struct Case {
    kind: Kind,
    schedule: u8,
    size: Size,
    key: Vec<u8>,
    chain: Vec<u8>,
}

impl Case {
    fn new(kind: Kind, (schedule, size): (u8, Size), random: &mut Random) -> Case {
        Case {
            kind,
            schedule,
            size,
            key: random.bytes(size.key_bytes()),
            chain: match kind {
                Kind::Book => chains::valid(size, random),
                Kind::Reading => chains::reading(size, None, random),
            },
        }
    }

    /// How many bytes the book has.
    fn bytes(&self) -> usize {
        match self.kind {
            Kind::Book => self.size.book_bytes(),
            Kind::Reading => self.size.reading_bytes(),
        }
    }

    /// The whole book.
    fn book(&self, length: usize) -> (u32, Vec<u8>) {
        match self.kind {
            Kind::Book => build(self.schedule, &self.key, &self.chain, length),
            Kind::Reading => build_reading(self.schedule, &self.key, &self.chain, length),
        }
    }

    /// One round of it.
    fn round(&self, number: usize, length: usize) -> (u32, Vec<u8>) {
        build_round(self.schedule, &self.key, &self.chain, number, length)
    }
}

/// Runs a check on a few random keys and chains of each schedule and size, for books or for reading books.
fn on_kind(kind: Kind, seed: u64, count: usize, check: impl Fn(Size, Case)) {
    let mut random = Random(seed);
    for (schedule, size) in EACH {
        for _ in 0..count {
            check(size, Case::new(kind, (schedule, size), &mut random));
        }
    }
}

/// The same for both.
fn on_cases(seed: u64, count: usize, check: impl Fn(Size, Case)) {
    for kind in [Kind::Book, Kind::Reading] {
        on_kind(kind, seed, count, &check);
    }
}

#[test]
fn random_books() {
    on_cases(40, 12, |size, case| {
        assert_eq!(case.book(case.bytes()).0, 0, "{size:?}, {:?}", case.kind);
    });
}

/// A round by itself is that part of the book, its number taken mod the rounds.
#[test]
fn rounds_of_a_book() {
    on_kind(Kind::Book, 41, 1, |size, case| {
        let rounds = size.rounds();
        let (_, book) = case.book(case.bytes());
        for number in (0..3 * rounds).chain([1 << 32, usize::MAX]) {
            let (told, tables) = case.round(number, ROUND);
            assert_eq!(told, 0);
            let same = tables == books::round(&book, number % rounds);
            assert!(same, "{size:?}, round {number}");
        }
    });
}

/// Buffers for so many bytes that are shorter, or longer: then the bytes after them stay.
fn buffers(due: usize, build: impl Fn(usize) -> (u32, Vec<u8>)) {
    for length in [0, 1, due / 2, due - 1] {
        assert_eq!(build(length).0, 9, "{length} bytes for {due}");
    }
    for more in [0, 1, 16, ROUND] {
        let (number, out) = build(due + more);
        assert_eq!(number, 0, "{due} bytes and {more}");
        assert!(out[due..].iter().all(|&x| x == FILL), "past {due} bytes");
    }
}

#[test]
fn buffers_of_other_lengths() {
    on_cases(42, 1, |_, case| {
        buffers(case.bytes(), |length| case.book(length));
        if case.kind == Kind::Book {
            buffers(ROUND, |length| case.round(5, length));
        }
    });
}

/// The numbers that building the book, and a round of it, give after a change, in buffers that are
/// long enough or empty: but for 9, what is refused is so in both.
fn refused(case: &Case, change: impl Fn(&mut Case)) -> u32 {
    let mut other = case.clone();
    change(&mut other);
    let number = other.book(case.bytes()).0;
    let empty = if number == 0 { 9 } else { number };
    assert_eq!(other.book(0).0, empty, "{:?}", case.kind);
    if case.kind == Kind::Book {
        let rounds = [other.round(0, ROUND).0, other.round(7, 0).0];
        assert_eq!(rounds, [number, empty], "a round");
    }
    number
}

#[test]
fn key_and_chain_lengths() {
    on_cases(43, 1, |size, case| {
        for length in (0..=40).chain([272, 65_552]) {
            let number = match Size::of_key(length) {
                Some(other) if other == size => 0,
                Some(_) => 2,
                None => 1,
            };
            assert_eq!(refused(&case, |c| c.key.resize(length, 7)), number);
        }
        let right = case.chain.len();
        for length in [0, SET, right - 1, right + 1, right + 65_536] {
            assert_eq!(refused(&case, |c| c.chain.resize(length, 0)), 2);
            let both = |c: &mut Case| {
                c.chain.resize(length, 0);
                c.key.push(0);
            };
            assert_eq!(refused(&case, both), 1);
        }
    });
}

#[test]
fn chains_that_are_not_valid() {
    on_cases(44, 1, |size, case| {
        let sets = SET * (size.rounds() + 2);
        for k in places(sets / CODING) {
            let twice = |c: &mut Case| c.chain[CODING * k] = c.chain[CODING * k + 15];
            assert_eq!(refused(&case, twice), 3, "coding {k} of the sets");
        }
        for l in places(size.rounds()) {
            let middles = sets + chain::ROUND * l;
            for k in places(MIDDLES) {
                let large = |c: &mut Case| c.chain[middles + CODING * k] = 16;
                assert_eq!(refused(&case, large), 3, "middle coding {k} of round {l}");
                let mask = |c: &mut Case| c.chain[middles + CODING * MIDDLES + k] = 2;
                assert_eq!(refused(&case, mask), 5, "mask {k} of round {l}");
            }
            let word = match case.kind {
                Kind::Book => 3,
                Kind::Reading => 0,
            };
            let at = SET * (l + 2) + WORD * word;
            let swap = |c: &mut Case| c.chain.swap(at, at + 1);
            assert_eq!(refused(&case, swap), 4, "word {word} after round {l}");
        }
    });
}

/// Every choice among a mistake of each number from the schedule's, 34, and 1 to 5. Word 0 of set 1 is part of
/// both word rules.
#[test]
fn the_first_number() {
    let numbers = [34, 1, 2, 3, 4, 5];
    let mistakes: [fn(&mut Case); 6] = [
        |c| c.schedule = 2,
        |c| c.key.push(0),
        |c| c.chain.push(0),
        |c| c.chain[0] = 16,
        |c| c.chain.swap(2 * SET, 2 * SET + 1),
        |c| c.chain[SET * (c.size.rounds() + 2) + CODING * MIDDLES] = 2,
    ];
    on_cases(46, 1, |_, case| {
        for choice in 0..64 {
            let made = |k: &usize| choice >> k & 1 == 1;
            let change = |c: &mut Case| (0..6).filter(made).for_each(|k| mistakes[k](c));
            let due = (0..6).find(made).map_or(0, |k| numbers[k]);
            assert_eq!(refused(&case, change), due, "mistakes {choice:06b}");
        }
    });
}

/// The examples of 01's table for add and turn tables, those of half byte 7 as of request 2026-06, read off
/// books of identity codings. The key half bytes of a round are what its row has, so the index is moved by
/// them.
#[test]
fn table_examples() {
    for (schedule, size) in EACH {
        let mut case = Case::new(Kind::Book, (schedule, size), &mut Random(45));
        case.chain = uniform(size, IDENTITY, 0);
        let (_, plain) = case.round(0, ROUND);
        let row = lea::round_keys(schedule, &case.key, 0).unwrap();
        let add = |tables: &[u8], j: usize, c: usize, p: usize, q: usize| {
            let half = |word: u32| (word >> (4 * j)) as usize & 15;
            tables[ADD * j + 256 * c + 16 * (p ^ half(row[0])) + (q ^ half(row[1]))]
        };
        assert_eq!(add(&plain, 0, 0, 9, 8), 17);
        assert_eq!(add(&plain, 7, 0, 9, 8), 17);
        assert_eq!(add(&plain, 1, 1, 15, 15), 31);
        assert_eq!(add(&plain, 0, 0, 9 ^ 3, 8 ^ 5), 23);
        let turn = |i: usize| plain[MIDDLES * ADD + FOLD * 8 * i + 16 * 9 + 8];
        assert_eq!([turn(0), turn(1)], [3, 12]);
        for (masked, j) in [(1, 0), (0, 7)] {
            let mut other = case.clone();
            other.chain[SET * (size.rounds() + 2) + CODING * MIDDLES + masked] = 1;
            let (_, tables) = other.round(0, ROUND);
            assert_eq!(add(&tables, j, 0, 9, 8), 1);
            assert_eq!(add(&tables, 7 - j, 0, 9, 8), 17);
        }
    }
}
