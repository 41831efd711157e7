//! What the files hold, against the reference: what one of the two seals, the other opens, checks and reads.

use crate::support::pads::{on_each_way, pads, Pad, Way, WORDS};
use crate::support::tree::{fresh, get, put};
use cli::sizes::SIZES;
use cli::works::Works;
use reference::driver::{self, Session};
use reference::ink::{self, Fields};
use reference::{archive, book, chain, maker, pad, reading, Size};
use shared::maker::enough;
use shared::pad::{due, padded, Use};
use shared::Random;

/// Some messages, with lengths around those of blocks.
fn messages(random: &mut Random) -> Vec<Vec<u8>> {
    let lengths = [0, 1, 16, 31, 500];
    lengths.iter().map(|&n| random.bytes(n)).collect()
}

/// The reference's tag of a message by a pad's files.
fn tag(set: &[u8], book: &[u8], message: &[u8]) -> [u8; 16] {
    let mut coded = vec![0; due(Use::Tag, message.len())];
    let (_, kind) = pad::code_for_tag(set, message, &mut coded).unwrap();
    let (front, last) = coded.split_at(coded.len() - 16);
    let mut session = Session::begin(book).unwrap();
    for block in front.chunks_exact(16) {
        session.block_call(book, block).unwrap();
    }
    session.last_call(book, last, kind).unwrap()
}

/// The ink file that the reference makes of a message by a pad's files.
fn by_reference(own: &Pad, message: &[u8], iv: &[u8]) -> Vec<u8> {
    let (set, book) = (own.get("pad/message-set"), own.get("driver/book"));
    let mut coded = vec![0; due(Use::Sealing, message.len())];
    pad::code_for_sealing(&set, message, &mut coded).unwrap();
    let mut sealed = vec![0; coded.len()];
    driver::seal(&book, iv, &coded, &mut sealed).unwrap();
    let fields = Fields {
        number: &own.get("pad/number"),
        iv,
        sealed: &sealed,
        tag: &tag(&set, &book, message),
        kinds: &[0x12],
        remarks: [b"by the reference", b"", b"", b""],
    };
    let mut file = vec![0; 64 + sealed.len() + 22];
    assert_eq!(ink::write(&fields, &mut file), Ok(file.len()));
    file
}

/// The reference seals; the program opens, checks and reads.
#[test]
fn sealed_by_the_reference() {
    let mut random = Random(41);
    on_each_way(|way| {
        let dir = fresh("by-reference");
        let own = pads(way, 1, &format!("{dir}/pallet")).remove(0);
        for (n, message) in messages(&mut random).iter().enumerate() {
            let file = by_reference(&own, message, &random.block());
            let path = put(format!("{dir}/{n}.ink"), &file);
            let (opened, read) = (format!("{dir}/{n}.opened"), format!("{dir}/{n}.read"));
            assert!(own.open(&path, &opened).text().starts_with("Valid"));
            assert_eq!(own.read(&path, &read).status, Some(0));
            assert_eq!(&get(&opened), message, "{way:?}");
            assert_eq!(&get(&read), message, "{way:?}");
        }
    });
}

/// A file by the reference: opened, checked and read with a pad's archive and screen.
fn judged(own: &Pad, (_, schedule): Way, file: &[u8], message: &[u8]) {
    let ink = ink::read(file).unwrap();
    let fields = ink.fields(file);
    assert_eq!(fields.number, own.get("pad/number"));
    let (key, set) = (own.get("archive/key"), own.get("archive/last-set"));
    let mut out = vec![0; fields.sealed.len()];
    let n = archive::open(schedule, &key, &set, fields.iv, fields.sealed, &mut out).unwrap();
    assert_eq!(&out[..n], message);
    let valid = archive::check(schedule, &key, &set, message, fields.tag);
    assert_eq!(valid, Ok(true));
    let (book, screen) = (
        own.get("screen/reading-book"),
        own.get("screen/message-set"),
    );
    reading::read(&book, fields.iv, fields.sealed, &mut out).unwrap();
    assert_eq!(chain::decode_all(&screen, &out), padded(message));
    // The reference, given the program's IV, makes the same file.
    let again = by_reference(own, message, fields.iv);
    assert_eq!(again[..again.len() - 22], file[..file.len()]);
}

/// The program seals; the reference opens, checks, reads, and seals the same.
#[test]
fn sealed_by_the_program() {
    let mut random = Random(42);
    on_each_way(|way| {
        let dir = fresh("by-program");
        let own = pads(way, 1, &format!("{dir}/pallet")).remove(0);
        for (n, message) in messages(&mut random).iter().enumerate() {
            let path = put(format!("{dir}/{n}"), message);
            let ink = format!("{dir}/{n}.ink");
            own.seal(&path, &ink).silent();
            judged(&own, way, &get(&ink), message);
        }
    });
}

/// Bytes that are drawn one after the other, and then no more.
fn source(size: Size, random: &mut Random) -> Vec<u8> {
    random.bytes(size.key_bytes() + 2 * enough(size))
}

/// The files of a pad as the reference makes them of the same bytes: the key first, then those for the chain, then
/// those for the reading chain.
fn due_files((size, schedule): Way, bytes: &[u8]) -> Vec<(&'static str, Vec<u8>)> {
    let (key, rest) = bytes.split_at(size.key_bytes());
    let (first, second) = rest.split_at(enough(size));
    let (mut chain, mut reading) = (vec![0; size.chain_bytes()], vec![0; size.chain_bytes()]);
    maker::make_chain(key.len(), first, &mut chain).unwrap();
    let last = &chain[512 * (size.rounds() + 1)..][..512];
    maker::make_reading_chain(key.len(), last, second, &mut reading).unwrap();
    let (mut book, mut pages) = (vec![0; size.book_bytes()], vec![0; size.reading_bytes()]);
    book::build(schedule, key, &chain, &mut book).unwrap();
    reading::build(schedule, key, &reading, &mut pages).unwrap();
    let word = format!("{}\n", WORDS[usize::from(schedule)]);
    vec![
        ("archive/key", key.to_vec()),
        ("archive/last-set", last.to_vec()),
        ("archive/schedule", word.into_bytes()),
        ("driver/book", book),
        ("pad/message-set", chain[..512].to_vec()),
        ("pad/number", b"00000123".to_vec()),
        ("screen/message-set", reading[..512].to_vec()),
        ("screen/reading-book", pages),
    ]
}

/// Every byte of two pads made one after the other from bytes that are known. Where they are too few, none is made.
#[test]
fn from_the_same_bytes() {
    let mut random = Random(43);
    on_each_way(|way| {
        let (size, schedule) = way;
        let own = SIZES.into_iter().find(|own| own.key == size.key_bytes());
        let mut works = Works::new(schedule, own.unwrap());
        for _ in 0..2 {
            let bytes = source(size, &mut random);
            let mut left = &bytes[..];
            assert!(works.make(&mut left).is_ok(), "{way:?}");
            assert!(left.is_empty(), "{} bytes are not drawn", left.len());
            let mut files = works
                .files("00000123")
                .map(|(name, own)| (name, own.to_vec()));
            files.sort();
            assert!(files[..] == due_files(way, &bytes)[..], "{way:?}");
            assert!(works.make(&mut &bytes[..bytes.len() - 1]).is_err());
        }
    });
}

/// The sets and books of a pallet are valid, as the reference judges.
#[test]
fn valid_parts() {
    on_each_way(|way| {
        let dir = fresh("valid-parts");
        for own in pads(way, 2, &dir) {
            for set in ["pad/message-set", "screen/message-set", "archive/last-set"] {
                assert_eq!(chain::check_set(&own.get(set)), Ok(()), "{set}");
            }
            assert!(Session::begin(&own.get("driver/book")).is_ok());
            assert_eq!(usize::from(own.get("driver/book")[0]), way.0.key_bytes());
            // A book begins with the zero block coded by set r.
            let start = chain::code(&own.get("archive/last-set"), &[0; 16]);
            assert_eq!(own.get("driver/book")[1..17], start);
        }
    });
}
