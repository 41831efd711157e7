//! Rounds, sealing and reading from books on both versions: books of random keys and chains, and random
//! bytes of a book's length. What is written, each refusal, and what stays as it was.

use reference::book::{ADD, FRONT, GROUP, ROUND, START};
use reference::chain::{self, MIDDLES};
use reference::driver::LONGEST;
use reference::lea::{self, Block};
use reference::Size;
use shared::books::Books;
use shared::driver::{read, round, rounds, seal, Pass};
use shared::schedules::{EACH, LEA};
use shared::{books, first, Random, FILL};

/// Each count of rounds, and on from each by the tables of the next.
#[test]
fn rounds_of_any_count() {
    let mut random = Random(70);
    for (size, book) in books::any(&mut random) {
        let (before, r) = (book.clone(), size.rounds());
        for _ in 0..12 {
            let block: Block = random.bytes(16).try_into().unwrap();
            let mut x = rounds(&book, 0, &block).unwrap();
            assert_eq!(x, block, "no rounds");
            for l in 0..r {
                x = round(books::round(&book, l), &x).unwrap();
                assert_eq!(rounds(&book, l + 1, &block), Ok(x), "{size:?}, {l}");
            }
            for more in [r + 1, r + 2, 2 * r, 255, 256, 1 << 32, usize::MAX] {
                assert_eq!(rounds(&book, more, &block), Ok(x), "{size:?}, {more}");
            }
        }
        assert!(book == before, "{size:?}, the book");
    }
}

/// Tables and blocks of every kind of byte, also the same byte throughout.
#[test]
fn rounds_of_any_tables() {
    let mut random = Random(71);
    for _ in 0..60 {
        let (some, block) = (random.bytes(ROUND), random.bytes(16));
        round(&some, &block).unwrap();
        for byte in [0x00, 0x0f, 0x10, 0x1f, 0xf0, 0xff] {
            round(&[byte; ROUND], &block).unwrap();
            round(&some, &[byte; 16]).unwrap();
        }
    }
}

/// After n rounds, decoded by set n: the cipher's first n rounds of what set 0 decodes.
#[test]
fn rounds_of_books_are_rounds_of_the_cipher() {
    let mut random = Random(72);
    for (schedule, size) in EACH {
        let built = books::built(schedule, size, &mut random);
        let chain = chain::check(built.key.len(), &built.chain).ok().unwrap();
        for _ in 0..20 {
            let coded: Block = random.bytes(16).try_into().unwrap();
            let plain = chain::decode(chain.set(0), &coded);
            for n in 0..=size.rounds() {
                let x = rounds(&built.book, n, &coded).unwrap();
                let want = lea::first_rounds(schedule, &built.key, n, &plain).unwrap();
                assert_eq!(chain::decode(chain.set(n), &x), want, "{size:?}, {n}");
            }
        }
    }
}

/// 01's example of the round program: identity codings; masks change nothing.
#[test]
fn the_example_of_two_rounds() {
    let number = |hex: u128| hex.to_be_bytes();
    let key = number(0x0f1e_2d3c_4b5a_6978_8796_a5b4_c3d2_e1f0);
    let block = number(0x1011_1213_1415_1617_1819_1a1b_1c1d_1e1f);
    let chain = chain::random(Size::Lea128, |bound| bound - 1);
    let mut book = vec![0; Size::Lea128.book_bytes()];
    assert_eq!(bowlinette::build(LEA, &key, &chain, &mut book), 0);
    let first = number(0x5190_070f_8d66_3d69_d4cf_ede5_1011_1213);
    let last = number(0x9fc8_4e35_28c6_c618_5532_c7a7_0464_8bfd);
    assert_eq!(rounds(&book, 1, &block), Ok(first));
    assert_eq!(rounds(&book, 24, &block), Ok(last));
}

/// The bits that a reader does not use of the byte at a place of a book.
fn unused(at: usize) -> u8 {
    match at.checked_sub(FRONT + START) {
        None => 0,
        Some(k) if k >= 3 * GROUP && (k - 3 * GROUP) % ROUND < MIDDLES * ADD => 0xe0,
        Some(_) => 0xf0,
    }
}

#[test]
fn bits_that_a_reader_does_not_use() {
    let mut random = Random(73);
    for (size, book) in books::any(&mut random) {
        let other = books::stirred(&book, unused, &mut random);
        let (iv, coded) = (random.bytes(16), random.bytes(512));
        for block in coded.chunks_exact(16) {
            let told = rounds(&book, usize::MAX, block);
            assert_eq!(rounds(&other, usize::MAX, block), told, "{size:?}");
        }
        let told = seal(&book, &iv, &coded, 512);
        assert!(seal(&other, &iv, &coded, 512) == told, "{size:?}, sealed");
    }
}

/// Lengths near those of books, and those of books of other counts of rounds.
fn book_lengths() -> Vec<usize> {
    let near = |s: Size| [1, 16, 65_536].map(|n| [s.book_bytes() - n, s.book_bytes() + n]);
    let mut lengths: Vec<usize> = Size::ALL.into_iter().flat_map(near).flatten().collect();
    lengths.extend((0..=40).map(|n| books::ROUNDS + ROUND * n));
    lengths.extend([0, 1, START, FRONT + START, ROUND]);
    lengths
}

/// Lengths near that of a block, and some that differ from it only above the low bits.
const BLOCKS: [usize; 9] = [0, 1, 8, 15, 16, 17, 32, 272, 65_552];

/// Each count of rounds of a book with blocks of several lengths.
fn rounds_refused(book: &[u8], text: &[u8]) {
    let [length, byte] = books::reasons(book);
    for b in BLOCKS {
        let due = first(&[length, byte, (7, b != 16)]);
        for count in [0, 1, 24, usize::MAX] {
            let told = rounds(book, count, &text[..b]);
            let given = (book.len(), book.first(), b);
            assert_eq!(told.err().unwrap_or(0), due, "book and block {given:?}");
        }
    }
}

#[test]
fn lengths_of_books_and_blocks() {
    let mut random = Random(74);
    let (given, text) = (books::fronts(&mut random), random.bytes(65_552));
    for bytes in &given {
        for n in book_lengths() {
            rounds_refused(&bytes[..n], &text);
        }
    }
}

#[test]
fn lengths_of_tables_and_blocks() {
    let mut random = Random(75);
    let (bytes, text) = (random.bytes(800_000), random.bytes(65_552));
    let others = [1, 9_216, ROUND - 1, ROUND, ROUND + 1, ROUND + 65_536];
    for n in book_lengths().into_iter().chain(others) {
        for b in BLOCKS {
            let due = first(&[(6, n != 18_432), (7, b != 16)]);
            let told = round(&bytes[..n], &text[..b]);
            assert_eq!(told.err().unwrap_or(0), due, "tables of {n}, block of {b}");
        }
    }
}

/// Sealing or reading, which take whole blocks from an IV through a book of one of three lengths.
struct Kind {
    name: &'static str,
    books: fn(&mut Random) -> Books,
    lengths: [usize; 3],
    /// What is refused of a book.
    reasons: fn(&[u8]) -> [(u32, bool); 2],
    /// What a book has beside its rounds.
    beside: usize,
    run: Pass,
}

/// The lengths of reading books.
const READING: [usize; 3] = [450_560, 524_288, 598_016];

/// Of a reading book the length alone: its first byte is a table's.
fn reading_reasons(book: &[u8]) -> [(u32, bool); 2] {
    [(6, !READING.contains(&book.len())), (33, false)]
}

const KINDS: [Kind; 2] = [
    Kind {
        name: "seal",
        books: books::any,
        lengths: books::LENGTHS,
        reasons: books::reasons,
        beside: books::ROUNDS,
        run: seal,
    },
    Kind {
        name: "read",
        books: books::any_reading,
        lengths: READING,
        reasons: reading_reasons,
        beside: GROUP,
        run: read,
    },
];

/// So many blocks in buffers of several lengths.
fn passed(Kind { name, run, .. }: &Kind, book: &[u8], blocks: usize, random: &mut Random) {
    let (n, iv) = (16 * blocks, random.bytes(16));
    let text = random.bytes(n);
    let lent = (iv.clone(), text.clone());
    let (number, exact) = run(book, &iv, &text, n);
    assert_eq!(number, 0, "{name}, {n} bytes");
    for more in [1, 15, 16, 100] {
        let (number, out) = run(book, &iv, &text, n + more);
        assert!(number == 0 && out[..n] == exact, "{name}, {n} bytes");
        assert!(out[n..].iter().all(|&x| x == FILL), "past the last block");
    }
    for room in [n - 1, n - 16, 0] {
        let number = run(book, &iv, &text, room).0;
        assert_eq!(number, 9, "{name}, {room} for {n} bytes");
    }
    assert!((iv, text) == lent, "{name}, IV and message");
}

#[test]
fn sealed_and_read_messages() {
    let mut random = Random(76);
    for kind in &KINDS {
        for (size, book) in (kind.books)(&mut random) {
            let before = book.clone();
            let some: Vec<usize> = (0..6).map(|_| 1 + random.below(256)).collect();
            for blocks in (1..=20).chain(some).chain([589]) {
                passed(kind, &book, blocks, &mut random);
            }
            assert!(book == before, "{size:?}, {}, the book", kind.name);
        }
    }
}

#[test]
fn the_longest_messages() {
    let mut random = Random(77);
    let (text, iv) = (random.bytes(LONGEST + 16), random.bytes(16));
    for kind in &KINDS {
        for (size, book) in (kind.books)(&mut random) {
            for (n, room, due) in [
                (LONGEST, LONGEST, 0),
                (LONGEST, LONGEST + 5, 0),
                (LONGEST, LONGEST - 1, 9),
                (LONGEST + 16, LONGEST + 16, 8),
                (LONGEST + 1, LONGEST + 16, 8),
                (LONGEST - 1, LONGEST, 8),
            ] {
                let number = (kind.run)(&book, &iv, &text[..n], room).0;
                assert_eq!(number, due, "{size:?}, {}, {n}", kind.name);
            }
        }
    }
}

/// A book with IVs, messages and buffers of right and wrong lengths: the first reason.
fn passes_refused(kind: &Kind, book: &[u8], iv: &[u8], text: &[u8]) {
    let [length, byte] = (kind.reasons)(book);
    for v in [16, 0, 15, 17, 32] {
        for m in [
            16,
            48,
            0,
            1,
            15,
            17,
            47,
            LONGEST - 15,
            LONGEST + 1,
            LONGEST + 16,
        ] {
            for room in [m, 0, m.saturating_sub(1), m + 1] {
                let message = m == 0 || m > 1_048_576 || m % 16 != 0;
                let reasons = [length, byte, (7, v != 16), (8, message), (9, room < m)];
                let (number, _) = (kind.run)(book, &iv[..v], &text[..m], room);
                let given = (kind.name, book.len(), book.first(), v, m, room);
                assert_eq!(number, first(&reasons), "{given:?}");
            }
        }
    }
}

/// All reasons at once and every part of them.
fn refused(kind: &Kind, random: &mut Random) {
    let (given, iv) = (books::fronts(random), random.bytes(32));
    let text = random.bytes(LONGEST + 16);
    let others = KINDS.iter().flat_map(|other| other.lengths);
    let near = kind.lengths.into_iter().flat_map(|n| [n - 1, n + 1]);
    for n in others.chain(near).chain([0]) {
        for bytes in &given {
            passes_refused(kind, &bytes[..n], &iv, &text);
        }
    }
}

/// Books of every count of rounds: but for three counts, which have each their first byte, no book has that
/// length.
#[test]
fn books_of_other_counts_of_rounds() {
    let mut random = Random(81);
    let (given, iv, text) = (
        books::fronts(&mut random),
        random.bytes(16),
        random.bytes(32),
    );
    for kind in &KINDS {
        for count in 0..=40 {
            let own = [24, 28, 32].iter().position(|&rounds| rounds == count);
            let due = if own.is_some() { 0 } else { 6 };
            let bytes = &given[own.unwrap_or(0)];
            let n = kind.beside + ROUND * count;
            let number = (kind.run)(&bytes[..n], &iv, &text, 32).0;
            assert_eq!(number, due, "{}, {count} rounds", kind.name);
        }
    }
}

#[test]
fn refusals_of_sealing() {
    refused(&KINDS[0], &mut Random(78));
}

#[test]
fn refusals_of_reading() {
    refused(&KINDS[1], &mut Random(80));
}

/// A message coded for sealing and sealed, decoded by the last set: CBC, and under it the message
/// with its padding.
#[test]
fn sealed_files_are_cbc() {
    let mut random = Random(79);
    for (schedule, size) in EACH {
        let built = books::built(schedule, size, &mut random);
        let chain = chain::check(built.key.len(), &built.chain).ok().unwrap();
        let open =
            |block: &[u8]| chain::decode(chain.set(size.rounds()), block.try_into().unwrap());
        for n in (0..=50).chain([255, 256, 9_412]) {
            let (message, iv) = (random.bytes(n), random.bytes(16));
            let (mut coded, mut length) = (vec![FILL; n + 16], 0);
            let number =
                bowlinette::code_for_sealing(chain.message(), &message, &mut coded, &mut length);
            coded.truncate(length as usize);
            assert_eq!(number, 0, "{n} bytes coded");
            let (number, file) = seal(&built.book, &iv, &coded, coded.len());
            assert_eq!(number, 0, "{n} bytes sealed");
            let (mut text, mut before) = (Vec::new(), open(&iv));
            for block in file.chunks_exact(16).map(open) {
                let plain = lea::decipher(schedule, &built.key, &block).unwrap();
                text.extend(plain.iter().zip(before).map(|(x, y)| x ^ y));
                before = block;
            }
            let added = 16 - n % 16;
            assert_eq!(text.len(), n + added, "{size:?}");
            assert!(text[..n] == message, "{size:?}, {n} bytes");
            assert!(
                text[n..].iter().all(|&x| usize::from(x) == added),
                "{size:?}"
            );
        }
    }
}
