//! The tag session on both versions: after each call the answer and the three things that make a
//! session; each refusal in each state; whole tags.

use reference::book::FRONT;
use reference::chain;
use shared::cmac::cmac;
use shared::pad::{code, Use};
use shared::schedules::EACH;
use shared::session::{tag, Both, Call};
use shared::{books, first, Random};

/// Lists of calls from a fresh session on one book, now and then with a wrong length or first byte of it.
#[test]
fn lists_of_calls() {
    let mut random = Random(80);
    let mut seen = [0u32; 34];
    for (_, book) in books::any(&mut random) {
        let (before, other) = (book.clone(), books::other_front(&book, &mut random));
        for _ in 0..60 {
            let mut session = Both::begun(&book);
            for _ in 0..50 {
                let call = Call::any(&mut random);
                let given = match random.below(15) {
                    0 => &book[..random.one_of(&[0, 16, book.len() - 1])],
                    1 => &other,
                    _ => &book,
                };
                let told = session.call(given, &call);
                seen[told.err().unwrap_or(0) as usize] += 1;
            }
        }
        assert!(book == before, "the book");
    }
    let often = |n: &usize| seen[*n] > 100;
    assert!([0, 6, 33, 7, 10, 21].iter().all(often), "{seen:?}");
}

/// Calls that change from book to book, in sessions in any state.
#[test]
fn sessions_in_any_state() {
    let mut random = Random(81);
    let books = books::any(&mut random);
    for _ in 0..1_500 {
        let mut session = Both::any(&mut random);
        for _ in 0..20 {
            let book = &books[random.below(books.len())].1;
            _ = session.call(book, &Call::any(&mut random));
        }
    }
}

/// The number due, from the reasons of 01 and of request 2026-05 in their order.
fn due(book: &[u8], call: &Call, taken: u16, finished: bool) -> u32 {
    let length = |coded: &Vec<u8>| coded.len() != 16;
    let (block, kind, over, full) = match call {
        Call::Begin => (false, false, false, false),
        Call::Block(coded) => (length(coded), false, finished, taken == 65_535),
        Call::Last(coded, kind) => (length(coded), *kind > 1, finished, false),
    };
    let mut reasons = books::reasons(book).to_vec();
    reasons.extend([(7, block), (10, kind), (21, over), (22, full)]);
    first(&reasons)
}

/// Every call with blocks of right and wrong lengths and kinds right and wrong.
fn every_call(random: &mut Random) -> Vec<Call> {
    let mut calls = vec![Call::Begin];
    for length in [16, 0, 1, 15, 17, 32, 272, 65_552] {
        calls.push(Call::Block(random.bytes(length)));
        for kind in [0, 1, 2, 3, 254, 255] {
            calls.push(Call::Last(random.bytes(length), kind));
        }
    }
    calls
}

/// Each call in each state with a book.
fn calls_refused(book: &[u8], calls: &[Call], random: &mut Random) {
    for taken in [0, 1, 255, 256, 32_768, 65_534, 65_535] {
        for flag in [0, 1, 2, 255] {
            let state = Both::new(random.block(), taken, flag);
            for call in calls {
                let mut session = state;
                let told = session.call(book, call);
                let number = due(book, call, taken, flag != 0);
                let given = (book.len(), book.first(), taken, flag);
                assert_eq!(told.err().unwrap_or(0), number, "{given:?}");
            }
        }
    }
}

/// Books of right and wrong lengths and first bytes: one reason, or several at once, or none.
#[test]
fn refusals_in_every_state() {
    let mut random = Random(82);
    let given = books::fronts(&mut random);
    let calls = every_call(&mut random);
    let before = (given.clone(), calls.clone());
    let near = books::LENGTHS.map(|n| [n - 1, n, n + 1, n - 18_432, n + 18_432]);
    for n in near.into_iter().flatten().chain([0, 1, 16, 18_432]) {
        for bytes in &given {
            calls_refused(&bytes[..n], &calls, &mut random);
        }
    }
    assert!((given, calls) == before, "what is read");
}

/// Beginning again, at any time, gives the same fresh session.
#[test]
fn beginning_again() {
    let mut random = Random(83);
    for (size, book) in books::any(&mut random) {
        let fresh = Both::begun(&book).proved;
        let start = book[FRONT..][..16].try_into().unwrap();
        assert_eq!(fresh, Both::new(start, 0, 0).proved, "{size:?}");
        for taken in [0, 1, 65_534, 65_535] {
            for flag in [0, 1, 2, 255] {
                let mut session = Both::new(random.bytes(16).try_into().unwrap(), taken, flag);
                let first = Call::any(&mut random);
                _ = session.call(&book, &first);
                assert_eq!(session.call(&book, &Call::Begin), Ok(None));
                assert_eq!(session.proved, fresh, "{size:?}, after {first:?}");
            }
        }
    }
}

/// As many block calls as a session takes, then one more, refused again and again; a last call is
/// still taken, and after it nothing is.
#[test]
fn the_limit() {
    let mut random = Random(84);
    for (size, book) in books::any(&mut random) {
        let block = |random: &mut Random| Call::Block(random.bytes(16));
        let mut session = Both::begun(&book);
        for n in 0..65_535 {
            let told = session.call(&book, &block(&mut random));
            assert_eq!(told, Ok(None), "{size:?}, block call {n}");
        }
        for _ in 0..2 {
            assert_eq!(
                session.call(&book, &block(&mut random)),
                Err(22),
                "{size:?}"
            );
        }
        let last = Call::Last(random.bytes(16), random.below(2) as u8);
        assert!(session.call(&book, &last).is_ok(), "{size:?}");
        for _ in 0..2 {
            assert_eq!(
                session.call(&book, &block(&mut random)),
                Err(21),
                "{size:?}"
            );
            assert_eq!(session.call(&book, &last), Err(21), "{size:?}");
        }
    }
}

#[test]
fn tags_are_cmac() {
    let mut random = Random(85);
    for (schedule, size) in EACH {
        let built = books::built(schedule, size, &mut random);
        let chain = chain::check(built.key.len(), &built.chain).ok().unwrap();
        let longest = random.one_of(&[1_048_560, 1_048_575]);
        for n in (0..=100).chain([255, 256, 257, 9_412, longest]) {
            let message = random.bytes(n);
            let (told, coded) = code(Use::Tag, chain.message(), &message, n + 16);
            let (length, kind) = told.unwrap();
            let tag = tag(&built.book, &coded[..length], kind.unwrap());
            let opened = chain::decode(chain.set(size.rounds()), &tag);
            assert_eq!(
                opened,
                cmac(schedule, &built.key, &message),
                "{size:?}, {n} bytes"
            );
        }
    }
}
