//! Opening and checking on both versions: whole ways from a message to the archive's answer, damaged
//! files and tags, each refusal, and what stays as it was.

use reference::chain::{self, CODING, SET};
use reference::lea::Block;
use reference::Size;
use shared::archive::{check, open, sealed_text};
use shared::cmac::cmac;
use shared::pad::padded;
use shared::schedules::EACH;
use shared::{chains, first, Random};

/// The longest message, and the longest sealed one.
const LONGEST: usize = 1_048_575;
const SEALED: usize = 1_048_576;

/// What pad, driver and archive have: the schedule, the key, its book, the message set and set r.
struct Product {
    schedule: u8,
    key: Vec<u8>,
    u: Vec<u8>,
    set: Vec<u8>,
    book: Vec<u8>,
}

impl Product {
    /// Random, the book built by the proved library.
    fn new(schedule: u8, size: Size, random: &mut Random) -> Product {
        let key = random.bytes(size.key_bytes());
        let bytes = chains::valid(size, random);
        let mut book = vec![0; size.book_bytes()];
        assert_eq!(bowlinette::build(schedule, &key, &bytes, &mut book), 0);
        let chain = chain::check(key.len(), &bytes).ok().unwrap();
        let (u, set) = (chain.message().to_vec(), chain.set(size.rounds()).to_vec());
        Product {
            schedule,
            key,
            u,
            set,
            book,
        }
    }

    /// A message coded for sealing and sealed, by the proved library.
    fn seal(&self, iv: &[u8], message: &[u8]) -> Vec<u8> {
        let (mut coded, mut n) = (vec![0; message.len() + 16], 0);
        let number = bowlinette::code_for_sealing(&self.u, message, &mut coded, &mut n);
        assert_eq!(number, 0, "coding {} bytes", message.len());
        coded.truncate(n as usize);
        let mut sealed = vec![0; coded.len()];
        let number = bowlinette::seal(&self.book, iv, &coded, &mut sealed, &mut n);
        assert_eq!((number, n), (0, coded.len() as u64), "sealing");
        sealed
    }

    /// A message coded for a tag, and its tag by a session, by the proved library.
    fn tag(&self, message: &[u8]) -> Block {
        let (mut coded, mut n, mut kind) = (vec![0; message.len() + 16], 0, 0);
        let number = bowlinette::code_for_tag(&self.u, message, &mut coded, &mut n, &mut kind);
        assert_eq!(number, 0, "coding {} bytes", message.len());
        let (front, last) = coded[..n as usize].split_at(n as usize - 16);
        let (mut tag, mut session) = ([0; 16], DIRTY);
        assert_eq!(session.begin(&self.book), 0);
        for block in front.chunks_exact(16) {
            assert_eq!(session.block_call(&self.book, block), 0);
        }
        let number = session.last_call(&self.book, last, kind, &mut tag);
        assert_eq!(number, 0, "the last call");
        tag
    }

    /// A sealed file opened into a buffer with so many bytes more than it needs.
    fn open(&self, iv: &[u8], sealed: &[u8], more: usize) -> Result<Vec<u8>, u32> {
        let room = sealed.len() + more;
        open(self.schedule, &self.key, &self.set, iv, sealed, room)
    }

    fn check(&self, message: &[u8], tag: &[u8]) -> Result<bool, u32> {
        check(self.schedule, &self.key, &self.set, message, tag)
    }

    /// A tag is Valid, and with any one bit changed Invalid.
    fn only_valid(&self, message: &[u8], tag: &Block) {
        let given = (self.schedule, self.key.len(), message.len());
        assert_eq!(self.check(message, tag), Ok(true), "{given:?}");
        for bit in 0..128 {
            let mut other = *tag;
            other[bit / 8] ^= 1 << (bit % 8);
            let told = self.check(message, &other);
            assert_eq!(told, Ok(false), "{given:?}, bit {bit}");
        }
    }
}

/// What is no session before it has begun.
const DIRTY: bowlinette::Session = bowlinette::Session::of([7; 16], 7, 7);

/// The lengths of messages to take whole ways: named ones, and some random ones.
fn lengths(random: &mut Random) -> Vec<usize> {
    let mut lengths = vec![0, 1, 15, 16, 17, 31, 32, 33, 9_412];
    lengths.extend((0..30).map(|_| random.below(3_000)));
    lengths
}

/// A sealed file is CBC of the padded message, coded by set r, and opens to the message.
#[test]
fn what_is_sealed_is_cbc_and_opens() {
    let mut random = Random(90);
    for (schedule, size) in EACH {
        let product = Product::new(schedule, size, &mut random);
        for n in lengths(&mut random).into_iter().chain([LONGEST]) {
            let (iv, message) = (random.bytes(16), random.bytes(n));
            let sealed = product.seal(&iv, &message);
            let text = padded(&message);
            let due = sealed_text(schedule, &product.key, &product.set, &iv, &text);
            assert!(sealed == due, "{size:?}, {n} bytes: CBC");
            let copy = sealed.clone();
            for more in [0, 1, 16, 1_000] {
                let told = product.open(&iv, &sealed, more);
                assert!(told == Ok(message.clone()), "{size:?}, {n} bytes, {more}");
            }
            assert!(sealed == copy, "{size:?}, {n} bytes: the sealed file");
        }
    }
}

/// Messages that differ little from one: a bit changed, a byte or a block more or less.
fn others(message: &[u8], random: &mut Random) -> Vec<Vec<u8>> {
    let longer = |end: &[u8]| [message, end].concat();
    let mut others = vec![longer(&[0]), longer(&[0x80]), longer(&[0; 16])];
    if let Some((_, front)) = message.split_last() {
        others.push(front.to_vec());
        others.push(message[1..].to_vec());
        let mut changed = message.to_vec();
        changed[random.below(message.len())] ^= 1 << random.below(8);
        others.push(changed);
    }
    others
}

#[test]
fn tags_are_valid_for_their_message_alone() {
    let mut random = Random(91);
    for (schedule, size) in EACH {
        let product = Product::new(schedule, size, &mut random);
        for n in lengths(&mut random) {
            let message = random.bytes(n);
            let tag = product.tag(&message);
            product.only_valid(&message, &tag);
            for other in others(&message, &mut random) {
                let told = product.check(&other, &tag);
                assert_eq!(told, Ok(false), "{size:?}, {n} bytes, now {}", other.len());
            }
        }
    }
}

/// The longest message has a tag that is Valid, and no other a bit away is; one byte more is refused.
#[test]
fn the_longest_messages() {
    let mut random = Random(92);
    for size in Size::ALL {
        let product = Product::new(random.schedule(), size, &mut random);
        let mut message = random.bytes(LONGEST);
        let tag = product.tag(&message);
        product.only_valid(&message, &tag);
        for at in [0, LONGEST / 2, LONGEST - 1] {
            message[at] ^= 0x10;
            assert_eq!(product.check(&message, &tag), Ok(false), "{size:?}, {at}");
            message[at] ^= 0x10;
        }
        message.push(0);
        for n in [0, 15, 17] {
            let told = product.check(&message, &random.bytes(n));
            assert_eq!(told, Err(7), "{size:?}, a tag of {n} bytes");
        }
        assert_eq!(product.check(&message, &tag), Err(8), "{size:?}");
    }
}

/// Files that differ from a sealed one in a bit, or in which blocks they have.
fn damaged(sealed: &[u8]) -> Vec<Vec<u8>> {
    let blocks: Vec<&[u8]> = sealed.chunks_exact(16).collect();
    let mut files = Vec::new();
    for bit in 0..8 * sealed.len() {
        let mut file = sealed.to_vec();
        file[bit / 8] ^= 1 << (bit % 8);
        files.push(file);
    }
    for k in 0..blocks.len() {
        let mut fewer = blocks.clone();
        fewer.remove(k);
        files.extend([blocks[..k].concat(), blocks[k..].concat(), fewer.concat()]);
        for other in 0..k {
            let mut swapped = blocks.clone();
            swapped.swap(k, other);
            files.push(swapped.concat());
        }
    }
    files.retain(|file| !file.is_empty() && file != sealed);
    files
}

/// Damage is never overlooked: what opens is another message, or the padding is none.
#[test]
fn damaged_files() {
    let mut random = Random(93);
    let (mut refused, mut opened) = (0, 0);
    for (schedule, size) in EACH.repeat(2) {
        let product = Product::new(schedule, size, &mut random);
        for n in [0, 1, 15, 16, 17, 40, 48, 100] {
            let (iv, message) = (random.bytes(16), random.bytes(n));
            let sealed = product.seal(&iv, &message);
            for file in damaged(&sealed) {
                match product.open(&iv, &file, 0) {
                    Err(11) => refused += 1,
                    Err(number) => panic!("{size:?}, {n} bytes: {number}"),
                    Ok(other) => {
                        assert!(other != message, "{size:?}, {n} bytes");
                        opened += 1;
                    }
                }
            }
        }
    }
    assert!(refused > 1_000 && opened > 1_000, "{refused}, {opened}");
}

/// With the other schedule, another key, another set or another IV a file does not open to its message, and a
/// tag is not Valid. An IV changed in a byte changes that byte of the first block alone.
#[test]
fn other_schedules_keys_sets_and_ivs() {
    let mut random = Random(94);
    for (schedule, size) in EACH.repeat(2) {
        let right = Product::new(schedule, size, &mut random);
        let (iv, message) = (random.bytes(16), random.bytes(100));
        let (sealed, tag) = (right.seal(&iv, &message), right.tag(&message));
        let wrong = Product::new(schedule, size, &mut random);
        for (schedule, key, set) in [
            (1 - schedule, &right.key, &right.set),
            (schedule, &wrong.key, &right.set),
            (schedule, &right.key, &wrong.set),
        ] {
            let told = open(schedule, key, set, &iv, &sealed, sealed.len());
            assert!(told != Ok(message.clone()), "{schedule}, {size:?}");
            let told = check(schedule, key, set, &message, &tag);
            assert_eq!(told, Ok(false), "{schedule}, {size:?}");
        }
        for k in 0..16 {
            let mut other = iv.clone();
            other[k] ^= 1 << random.below(8);
            let told = right.open(&other, &sealed, 0).unwrap();
            let differs = |i: usize| told[i] != message[i];
            assert!((0..100).all(|i| differs(i) == (i == k)), "{size:?}, {k}");
        }
    }
}

/// A random key, set and IV.
fn any(size: Size, random: &mut Random) -> (Vec<u8>, Vec<u8>, Vec<u8>) {
    let key = random.bytes(size.key_bytes());
    (key, chains::set(random), random.bytes(16))
}

/// Texts that end in so many bytes: taken off, or 11.
fn ends(size: Size, random: &mut Random, end: &[u8], taken_off: Option<usize>) {
    let (schedule, (key, set, iv)) = (random.schedule(), any(size, random));
    for blocks in 1..=3 {
        let mut text = random.bytes(16 * blocks - end.len());
        text.extend(end);
        let sealed = sealed_text(schedule, &key, &set, &iv, &text);
        let told = open(schedule, &key, &set, &iv, &sealed, sealed.len() + blocks);
        let want = match taken_off {
            Some(v) => Ok(text[..text.len() - v].to_vec()),
            None => Err(11),
        };
        assert_eq!(told, want, "{size:?}, {blocks} blocks, end {end:02x?}");
    }
}

/// Every last byte, after as many as it says and after others; 01's examples are 00, 11 and 03 02.
#[test]
fn every_padding() {
    let mut random = Random(95);
    for size in Size::ALL {
        for end in [&[0x00][..], &[0x11], &[0x03, 0x02]] {
            ends(size, &mut random, end, None);
        }
        for v in 0..=255 {
            let whole = (1..=16).contains(&v).then_some(usize::from(v));
            ends(size, &mut random, &[v; 16], whole);
            for at in 0..15 {
                let mut end = [v; 16];
                end[at] ^= 1 << random.below(8);
                let inside = whole.filter(|v| at < 16 - v);
                ends(size, &mut random, &end, inside);
            }
        }
    }
}

/// Schedules and keys: right ones, keys of other lengths by both schedules, and numbers of no schedule with
/// either.
fn keys(random: &mut Random) -> Vec<(u8, Vec<u8>)> {
    let mut given = EACH
        .map(|(schedule, size)| (schedule, size.key_bytes()))
        .to_vec();
    let lengths = [0, 1, 15, 17, 23, 25, 31, 33, 48, 272, 65_552];
    given.extend((0..).map(|k| k % 2).zip(lengths));
    given.extend([(2, 16), (3, 24), (255, 32), (2, 0), (254, 17)]);
    let key = |(schedule, length)| (schedule, random.bytes(length));
    given.into_iter().map(key).collect()
}

/// The reasons to refuse a schedule or a key, in their order, and whether each holds.
fn of_key(schedule: u8, key: &[u8]) -> [(u32, bool); 2] {
    let wrong = Size::of_key(key.len()).is_none();
    [(34, schedule > 1), (1, wrong)]
}

/// A set, and some that are none: of other lengths, with and without a wrong coding, and of its own
/// with one, each with the number due.
fn sets(random: &mut Random) -> Vec<(Vec<u8>, u32)> {
    let right = any(Size::Lea128, random).1;
    let mut sets = vec![(right.clone(), 0)];
    for n in [0, 1, 16, 256, SET - 16, SET - 1, SET + 1, 2 * SET] {
        sets.push((right.iter().cycle().take(n).copied().collect(), 2));
    }
    for k in [0, 1, 15, 16, 30, 31] {
        for at in [0, 7, 15] {
            for value in [16, 255, right[CODING * k + (at + 1) % CODING]] {
                let mut wrong = right.clone();
                wrong[CODING * k + at] = value;
                sets.push((wrong.clone(), 3));
                wrong.pop();
                sets.push((wrong, 2));
            }
        }
    }
    sets
}

/// Lengths near that of a block, and some that differ from it only above the low bits.
const BLOCKS: [usize; 7] = [16, 0, 1, 15, 17, 272, 65_552];

/// Sealed files of right and wrong lengths, and whether the padding of each is none.
fn files(
    (schedule, key): (u8, &[u8]),
    set: &[u8],
    iv: &[u8],
    random: &mut Random,
) -> Vec<(Vec<u8>, bool)> {
    let lengths = [
        0,
        1,
        15,
        17,
        24,
        31,
        33,
        SEALED - 1,
        SEALED + 1,
        SEALED + 16,
    ];
    let mut files: Vec<_> = lengths.map(|n| (random.bytes(n), false)).to_vec();
    for n in [16, 32, 160, SEALED] {
        for (end, wrong) in [(1, false), (0, true)] {
            let mut text = random.bytes(n - 1);
            text.push(end);
            let sealed = match first(&of_key(schedule, key)) {
                0 => sealed_text(schedule, key, set, iv, &text),
                _ => text,
            };
            files.push((sealed, wrong));
        }
    }
    files
}

/// One reason to refuse opening, or several at once, or none.
#[test]
fn refusals_of_opening() {
    let mut random = Random(96);
    let (sets, bytes) = (sets(&mut random), random.bytes(65_552));
    for (schedule, key) in keys(&mut random) {
        let [other, wrong] = of_key(schedule, &key);
        for (sealed, padding) in files((schedule, &key), &sets[0].0, &bytes[..16], &mut random) {
            let n = sealed.len();
            let length = n == 0 || n > SEALED || n % 16 != 0;
            for room in [n, n + 1, n.saturating_sub(1), n / 2, 0] {
                for iv in BLOCKS {
                    for (set, number) in sets.iter().step_by(if n > 200 { 39 } else { 1 }) {
                        let due = first(&[
                            other,
                            wrong,
                            (*number, *number != 0),
                            (7, iv != 16),
                            (8, length),
                            (9, room < n),
                            (11, padding),
                        ]);
                        let told = open(schedule, &key, set, &bytes[..iv], &sealed, room);
                        let given = (schedule, key.len(), set.len(), iv, n, room);
                        assert_eq!(told.err().unwrap_or(0), due, "{given:?}");
                    }
                }
            }
        }
    }
}

/// The same for checking.
#[test]
fn refusals_of_checking() {
    let mut random = Random(97);
    let (sets, bytes) = (sets(&mut random), random.bytes(SEALED + 16));
    for (schedule, key) in keys(&mut random) {
        let [other, wrong] = of_key(schedule, &key);
        for n in [
            0,
            1,
            15,
            16,
            17,
            LONGEST - 1,
            LONGEST,
            LONGEST + 1,
            LONGEST + 17,
        ] {
            for tag in BLOCKS {
                for (set, number) in &sets {
                    let due = first(&[
                        other,
                        wrong,
                        (*number, *number != 0),
                        (7, tag != 16),
                        (8, n > LONGEST),
                    ]);
                    let told = check(schedule, &key, set, &bytes[..n], &bytes[..tag]);
                    let given = (schedule, key.len(), set.len(), tag, n);
                    assert_eq!(told.err().unwrap_or(0), due, "{given:?}");
                }
            }
        }
    }
}

/// Random bytes, of every length, opened into buffers of any length; now and then their padding
/// is right.
#[test]
fn any_bytes_opened() {
    let mut random = Random(98);
    let mut seen = [0; 12];
    for (schedule, size) in EACH {
        for n in (0..=600).chain([16, 32].repeat(1_000)) {
            let (key, set, iv) = any(size, &mut random);
            let room = match random.below(4) {
                0 => random.below(n + 2),
                more => n + 7 * more,
            };
            let told = open(schedule, &key, &set, &iv, &random.bytes(n), room);
            seen[told.err().unwrap_or(0) as usize] += 1;
        }
    }
    assert!([0, 8, 9, 11].iter().all(|&k| seen[k] > 10), "{seen:?}");
}

/// Messages of every length with tags right and random.
#[test]
fn any_messages_checked() {
    let mut random = Random(99);
    for (schedule, size) in EACH {
        for n in 0..=600 {
            let (key, set, tag) = any(size, &mut random);
            let message = random.bytes(n);
            let due = cmac(schedule, &key, &message);
            let right = chain::decode(&set, tag[..].try_into().unwrap()) == due;
            let told = check(schedule, &key, &set, &message, &tag);
            assert_eq!(told, Ok(right), "{n} bytes");
            let told = check(schedule, &key, &set, &message, &chain::code(&set, &due));
            assert_eq!(told, Ok(true), "{n} bytes");
        }
    }
}
