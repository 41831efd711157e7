//! Ink files on both versions: whole ways, each refusal of reading and of writing with its neighbours, which
//! of several comes first, and what stays as it was. Each file that is accepted is written again byte for
//! byte.

use reference::ink::Fields;
use reference::{pad, Size};
use shared::archive::{check, open};
use shared::books::{self, Built};
use shared::driver::seal;
use shared::ink::{headed, judge, kind, read, record, write, Owned, LONGEST, REMARK, SEALED};
use shared::pad::{code, due, Use};
use shared::session::tag;
use shared::Random;

/// The example of docs/FORMAT.md, byte by byte: one sealed block and two remarks, of which the second is empty.
const FILE: &[u8; 94] = b"\
    \xa5\x01\x08\0\0\0\x01\x02\x03\x04\x05\x06\x07\x08\
    \xa5\x02\x10\0\0\0\x11\x11\x11\x11\x11\x11\x11\x11\x11\x11\x11\x11\x11\x11\x11\x11\
    \xa5\x03\x10\0\0\0\x22\x22\x22\x22\x22\x22\x22\x22\x22\x22\x22\x22\x22\x22\x22\x22\
    \xa5\x04\x10\0\0\0\x33\x33\x33\x33\x33\x33\x33\x33\x33\x33\x33\x33\x33\x33\x33\x33\
    \xa5\x1f\x02\0\0\0hi\
    \xa5\x10\x00\0\0\0";

#[test]
fn the_example() {
    let places = [6, 20, 42, 16, 64, 2];
    let (kinds, offsets, lengths) = ([0x1f, 0x10, 0, 0], [86, 94, 0, 0], [2, 0, 0, 0]);
    let numbers = [&places[..], &kinds, &offsets, &lengths].concat();
    let ink = read(FILE).unwrap();
    assert_eq!(ink.numbers()[..], numbers);
    assert_eq!(write(&ink.fields(FILE), 94).as_deref(), Ok(&FILE[..]));
    assert_eq!(write(&ink.fields(FILE), 93), Err(9));
}

/// Fields with three sealed blocks and up to four remarks. No byte of any is that of a mark.
fn sample(remarks: usize) -> Owned {
    Owned {
        number: b"pad no 8".to_vec(),
        iv: b"any IV, 16 bytes".to_vec(),
        sealed: b"three sealed blocks, which are forty-eight bytes".to_vec(),
        tag: b"any tag 16 bytes".to_vec(),
        kinds: [0x1f, 0x10, 0x18, 0x10][..remarks].to_vec(),
        remarks: [
            vec![],
            b"read this first".to_vec(),
            vec![7; REMARK],
            vec![9],
        ],
    }
}

/// The first number, if any, of those whose reason holds.
fn first(reasons: &[(u32, bool)]) -> u32 {
    let fits = reasons.iter().find(|(_, holds)| *holds);
    fits.map_or(0, |&(number, _)| number)
}

/// Whether a kind may stand at a place, from 0.
fn is_due(place: usize, kind: u8) -> bool {
    match place {
        0..=3 => usize::from(kind) == place + 1,
        4..=7 => (0x10..=0x1f).contains(&kind),
        _ => false,
    }
}

/// Whether the record at a place may have so many bytes.
fn is_allowed(place: usize, length: usize) -> bool {
    match place {
        0 => length == 8,
        1 | 3 => length == 16,
        2 => length != 0 && length <= 1_048_576 && length % 16 == 0,
        _ => length <= 255,
    }
}

/// Where each record of a file begins, and where the last one ends.
fn bounds(records: &[Vec<u8>]) -> Vec<usize> {
    let end = |n: usize| records[..n].iter().map(Vec::len).sum();
    (0..=records.len()).map(end).collect()
}

/// Cut short in a head, or before the tag: 30. In the bytes of a record: 31. The rest of the file stands
/// right behind the part that is given.
#[test]
fn files_cut_short() {
    for remarks in 0..=4 {
        let records = sample(remarks).records();
        let (file, bounds) = (records.concat(), bounds(&records));
        for end in 0..=file.len() {
            let n = bounds.iter().rposition(|&at| at <= end).unwrap();
            let due = match end - bounds[n] {
                0 if n >= 4 => 0,
                0..=5 => 30,
                _ => 31,
            };
            assert_eq!(judge(&file[..end]), due, "{remarks} remarks, {end} bytes");
        }
    }
}

/// One to seven bytes more: a remark where they are one and not the fifth.
#[test]
fn bytes_behind_a_file() {
    let mut random = Random(130);
    let (empty, one) = (headed(0x1c, 0, b"!"), headed(0x1c, 1, b"!"));
    for remarks in 0..=4 {
        let file = sample(remarks).records().concat();
        let behind = |bytes: &[u8]| judge(&[&file, bytes].concat());
        for more in 1..=7 {
            let fifth = remarks == 4;
            let due = first(&[(30, more < 6 || fifth), (31, more == 6)]);
            assert_eq!(behind(&one[..more]), due, "{remarks}, {more} bytes");
            let due = first(&[(30, more != 6 || fifth)]);
            assert_eq!(behind(&empty[..more]), due, "{remarks}, {more} bytes");
            for _ in 0..100 {
                let mut bytes = random.bytes(more);
                bytes[0] = random.one_of(&[0x00, 0x5a, 0xa4, 0xff]);
                assert_eq!(behind(&bytes), 30, "{remarks}, {bytes:02x?}");
            }
        }
    }
}

/// The number due where record n of a file has another head. A length that is allowed leads to the begin of
/// another record, or to where no mark is.
fn due_of_head(bounds: &[usize], n: usize, head: &[u8]) -> u32 {
    let length = u32::from_le_bytes(head[2..6].try_into().unwrap()) as usize;
    let end = bounds[n] + 6 + length;
    let next = match n {
        0..=3 => end == bounds[n + 1],
        _ => bounds.contains(&end),
    };
    first(&[
        (30, head[0] != 0xa5),
        (30, !is_due(n, head[1])),
        (31, !is_allowed(n, length) || end > *bounds.last().unwrap()),
        (30, !next),
    ])
}

#[test]
fn every_byte_of_every_head() {
    let mut seen = [0; 32];
    for remarks in [0, 2, 4] {
        let records = sample(remarks).records();
        let (file, bounds) = (records.concat(), bounds(&records));
        for n in 0..records.len() {
            for k in 0..6 {
                for value in 0..=255 {
                    let mut other = file.clone();
                    other[bounds[n] + k] = value;
                    let due = due_of_head(&bounds, n, &other[bounds[n]..]);
                    assert_eq!(judge(&other), due, "record {n}, byte {k}, {value}");
                    seen[due as usize] += 1;
                }
            }
        }
    }
    assert!([0, 30, 31].iter().all(|&n| seen[n] > 100), "{seen:?}");
}

/// Any kind with any of some lengths at any place, the rest of the file behind it.
#[test]
fn every_kind_at_every_place() {
    let records = sample(4).records();
    for place in 0..=8 {
        let (front, rest) = records.split_at(place);
        let (front, rest) = (front.concat(), rest.get(1..).unwrap_or(&[]).concat());
        for kind in 0..=255 {
            for length in [0, 8, 16, 17, 48, 255, 256] {
                let own = record(kind, &vec![3; length]);
                let reasons = [(30, !is_due(place, kind)), (31, !is_allowed(place, length))];
                let told = judge(&[&front[..], &own, &rest].concat());
                let given = (place, kind, length);
                assert_eq!(told, first(&reasons), "{given:02x?}");
            }
        }
    }
}

/// A record missing, one twice, at any place, or two that stand in each other's place. With remarks alone
/// that is no fault, as long as there are at most four.
#[test]
fn records_in_other_orders() {
    for remarks in 0..=4 {
        let records = sample(remarks).records();
        let due = |fine: bool| if fine { 0 } else { 30 };
        for n in 0..records.len() {
            let mut fewer = records.clone();
            fewer.remove(n);
            assert_eq!(judge(&fewer.concat()), due(n >= 4), "{n} missing");
            for m in 0..=records.len() {
                let mut more = records.clone();
                more.insert(m, records[n].clone());
                let fine = n >= 4 && m >= 4 && remarks < 4;
                assert_eq!(judge(&more.concat()), due(fine), "{n} at {m} too");
            }
            for m in 0..n {
                let mut other = records.clone();
                other.swap(n, m);
                assert_eq!(judge(&other.concat()), due(m >= 4), "{n} for {m}");
            }
        }
    }
}

/// What makes a record faulty, or fields.
type Spoil<T> = fn(&mut T);

/// Faults of a head, each with its number: a mark or kind and, at the same record, a length come as 30.
const OF_A_HEAD: [(u32, Spoil<[u8]>); 7] = [
    (30, |head| head[0] = 0x5a),
    (30, |head| head[1] = 0x20),
    (31, |head| head[5] = 1),
    (31, |head| head[2..6].fill(0xff)),
    (30, |head| (head[0], head[5]) = (0xa4, 1)),
    (30, |head| (head[1], head[5]) = (0x0f, 1)),
    (30, |head| head[1..6].fill(0xff)),
];

/// Two records at fault: the first of them decides. So it does of any records, and before a fifth remark.
#[test]
fn the_first_record_at_fault() {
    let mut records = sample(4).records();
    for n in 0..8 {
        for (number, spoil) in OF_A_HEAD {
            let mut other = records.clone();
            spoil(&mut other[n]);
            assert_eq!(judge(&other.concat()), number, "record {n}");
            for m in n + 1..8 {
                for (_, spoil) in OF_A_HEAD {
                    let mut both = other.clone();
                    spoil(&mut both[m]);
                    assert_eq!(judge(&both.concat()), number, "records {n} and {m}");
                }
            }
        }
    }
    records.push(record(0x10, b""));
    let mut random = Random(131);
    for choice in 0..1 << 8 {
        let mut other = records.clone();
        let mut due = 30;
        for n in (0..8).rev().filter(|n| choice >> n & 1 == 1) {
            let (number, spoil) = random.one_of(&OF_A_HEAD);
            spoil(&mut other[n]);
            due = number;
        }
        assert_eq!(judge(&other.concat()), due, "records {choice:08b} of nine");
    }
}

/// Lengths at each place that the file has all bytes for: only the kind decides.
#[test]
fn lengths_that_are_allowed() {
    let records = sample(4).records();
    let near = [0, 1, 7, 8, 9, 15, 16, 17, 32, 254, 255, 256, 257, 512];
    let high = [
        264, 272, 304, 65_544, 65_552, 65_584, 16_777_224, 16_777_232,
    ];
    let long = [-16, -1, 0, 1, 16, 1_048_576].map(|n| (1_048_576 + n) as usize);
    let bytes = vec![0; 16_777_232];
    for n in 0..8 {
        let (front, rest) = (records[..n].concat(), records[n + 1..].concat());
        for length in near.into_iter().chain(high).chain(long) {
            let own = record(records[n][1], &bytes[..length]);
            let told = judge(&[front.as_slice(), &own, &rest].concat());
            let due = if is_allowed(n, length) { 0 } else { 31 };
            assert_eq!(told, due, "record {n} of {length} bytes");
        }
    }
}

/// The right length with something added in its high bytes, which the file has no bytes for.
#[test]
fn lengths_with_high_bytes() {
    let records = sample(4).records();
    for n in 0..8 {
        let right = records[n].len() - 6;
        let more = [512, 32_768, 65_536, 8_388_608, 16_777_216, 1 << 31];
        for length in more.map(|more| right + more) {
            let mut other = records.clone();
            other[n] = headed(records[n][1], length, &records[n][6..]);
            assert_eq!(judge(&other.concat()), 31, "record {n} of {length}");
        }
        let mut other = records.clone();
        other[n][2..6].fill(0xff);
        assert_eq!(judge(&other.concat()), 31, "record {n}");
    }
}

/// The last record of a file says as many bytes as there are, one more, or one fewer.
#[test]
fn lengths_past_the_end() {
    let records = sample(4).records();
    for n in 0..8 {
        let front = records[..n].concat();
        let lengths: &[usize] = match n {
            0 => &[8],
            1 | 3 => &[16],
            2 => &[16, 32, SEALED - 16, SEALED],
            _ => &[1, 2, 254, REMARK],
        };
        for &length in lengths {
            let says = |bytes: usize| headed(records[n][1], length, &vec![5; bytes]);
            let told = |bytes: usize| judge(&[front.as_slice(), &says(bytes)].concat());
            let whole = if n < 3 { 30 } else { 0 };
            assert_eq!(told(length), whole, "record {n} of {length} bytes");
            assert_eq!(told(length - 1), 31, "record {n}, one byte missing");
            assert_eq!(told(0), 31, "record {n}, all bytes missing");
            assert_eq!(told(length + 1), 30, "record {n}, one byte behind it");
        }
    }
}

/// Records that are right, but for one in seventeen or so: most files are read far before they are refused.
fn nearly(random: &mut Random) -> Vec<u8> {
    let mut file = Vec::new();
    for n in 0..random.one_of(&[3, 4, 4, 5, 6, 7, 8, 8, 9]) {
        let own = if n < 4 { n + 1 } else { kind(random) };
        let right = match n {
            0 => 8,
            1 | 3 => 16,
            2 => 16 + 16 * random.below(8),
            _ => random.below(REMARK + 1),
        };
        let (mut named, mut length) = (own, right);
        match random.below(50) {
            0 => named = random.number() as u8,
            1 => length = random.below(300),
            2 => length += 1 << (8 * random.below(4)),
            _ => (),
        }
        file.extend(headed(named, length, &random.bytes(right)));
    }
    match random.below(20) {
        0 => file.truncate(random.below(file.len())),
        1 => file.extend(&random.block()[..random.one_of(&[1, 5, 6, 7, 16])]),
        _ => (),
    }
    file
}

#[test]
fn random_files() {
    let mut random = Random(132);
    let (mut refused, mut accepted) = ([0; 32], [0; 5]);
    for _ in 0..20_000 {
        let file = nearly(&mut random);
        let before = file.clone();
        match read(&file) {
            Ok(ink) => accepted[ink.count] += 1,
            Err(number) => refused[number as usize] += 1,
        }
        judge(&file);
        assert!(file == before, "the file");
    }
    let often = refused[30] > 1_000 && refused[31] > 1_000;
    assert!(often && accepted.iter().all(|&n| n > 500), "{accepted:?}");
}

/// Random bytes, and random bytes behind a part of a file.
#[test]
fn random_bytes() {
    let mut random = Random(133);
    let file = sample(4).records().concat();
    for n in 0..2_000 {
        let bytes = random.bytes(n % 500);
        assert_eq!(judge(&bytes), 30, "{n}");
        let marked = [&[0xa5, 1, 8, 0, 0, 0][..], &bytes].concat();
        let due = if bytes.len() < 8 { 31 } else { 30 };
        assert_eq!(judge(&marked), due, "{n}");
        judge(&[&file[..random.below(file.len())], &bytes].concat());
    }
}

/// Fields of the least and of the most bytes, with every count of remarks.
#[test]
fn fields_at_the_limits() {
    let mut random = Random(134);
    for sealed in [16, 32, SEALED - 16, SEALED] {
        for remarks in 0..=4 {
            for length in [0, 1, REMARK] {
                let own = Owned::new(sealed, &vec![length; remarks], &mut random);
                let before = own.clone();
                let file = own.there_and_back(random.one_of(&[0, 1, 100]));
                assert_eq!(file.len(), 64 + sealed + remarks * (6 + length));
                assert!(own == before, "the fields");
            }
        }
    }
    let longest = Owned::new(SEALED, &[REMARK; 4], &mut random);
    assert_eq!(longest.there_and_back(0).len(), LONGEST);
}

/// Each kind of remarks, once and again, and remarks that are empty or of the most bytes in any order.
#[test]
fn remarks_at_the_limits() {
    let mut random = Random(135);
    for kind in 0x10..=0x1f {
        for remarks in 1..=4 {
            let mut own = Owned::new(16, &vec![3; remarks], &mut random);
            own.kinds.fill(kind);
            own.there_and_back(0);
        }
    }
    for choice in 0..16 {
        let long = |k: usize| if choice >> k & 1 == 1 { REMARK } else { 0 };
        let lengths: [usize; 4] = std::array::from_fn(long);
        for remarks in 0..=4 {
            Owned::new(48, &lengths[..remarks], &mut random).there_and_back(1);
        }
    }
}

#[test]
fn random_fields() {
    let mut random = Random(136);
    for _ in 0..3_000 {
        let own = Owned::any(&mut random);
        let before = own.clone();
        own.there_and_back(random.below(20));
        assert!(own == before, "the fields");
    }
}

/// Remarks past the kinds are not looked at: neither their bytes nor how many they are.
#[test]
fn remarks_past_the_kinds() {
    let mut random = Random(137);
    for remarks in 0..4 {
        let due = sample(remarks).records().concat();
        for length in [0, 1, REMARK, REMARK + 1, 70_000] {
            let mut own = sample(remarks);
            own.remarks[remarks..].fill(random.bytes(length));
            let told = write(&own.fields(), due.len());
            assert!(told.as_ref() == Ok(&due), "{remarks}, {length} bytes");
            let told = write(&own.fields(), due.len() - 1);
            assert_eq!(told, Err(9), "{remarks}, {length} bytes");
        }
    }
}

/// Buffers that are shorter than the file, just as long, and longer.
#[test]
fn buffers_of_other_lengths() {
    let mut random = Random(138);
    for own in [
        sample(0),
        sample(4),
        Owned::new(SEALED, &[255; 4], &mut random),
    ] {
        let (due, fields) = (own.records().concat(), own.fields());
        let n = due.len();
        for room in [0, 1, 6, n / 2, n - 2, n - 1] {
            assert_eq!(write(&fields, room), Err(9), "{room} for {n} bytes");
        }
        for more in [0, 1, 6, 16, 1_000] {
            let told = write(&fields, n + more);
            assert!(told.as_ref() == Ok(&due), "{n} bytes and {more}");
        }
    }
}

/// The number of writing the sample with a change. What is refused is so in an empty buffer too, and as a
/// file it is refused alike.
fn refused(change: impl Fn(&mut Owned)) -> u32 {
    let mut own = sample(4);
    change(&mut own);
    let (before, file) = (own.clone(), own.records().concat());
    let number = |room: usize| write(&own.fields(), room).err().unwrap_or(0);
    let told = number(file.len() + 16);
    assert_eq!(
        number(0),
        if told == 0 { 9 } else { told },
        "an empty buffer"
    );
    assert_eq!(judge(&file), told, "as a file");
    assert!(own == before, "the fields");
    told
}

#[test]
fn fields_of_other_lengths() {
    for n in [0, 1, 7, 8, 9, 16, 264, 65_544, 16_777_224] {
        let due = if n == 8 { 0 } else { 31 };
        assert_eq!(refused(|f| f.number.resize(n, 1)), due, "number, {n}");
    }
    for n in [0, 1, 8, 15, 16, 17, 32, 272, 65_552, 16_777_232] {
        let due = if n == 16 { 0 } else { 31 };
        assert_eq!(refused(|f| f.iv.resize(n, 1)), due, "IV, {n}");
        assert_eq!(refused(|f| f.tag.resize(n, 1)), due, "tag, {n}");
    }
    for n in [16, 32, 4_096, 65_536, 1_048_560, 1_048_576] {
        assert_eq!(refused(|f| f.sealed.resize(n, 1)), 0, "sealed, {n}");
    }
    for n in [0, 1, 8, 15, 17, 24, 31, 33, 40, 255, 65_544] {
        assert_eq!(refused(|f| f.sealed.resize(n, 1)), 31, "sealed, {n}");
    }
    for more in [-8, -1, 1, 8, 16, 1_048_576, 15_728_656] {
        let n = (1_048_576 + more) as usize;
        assert_eq!(refused(|f| f.sealed.resize(n, 1)), 31, "sealed, {n}");
    }
}

#[test]
fn remarks_that_are_refused() {
    for k in 0..4 {
        for n in [0, 1, 254, 255] {
            assert_eq!(refused(|f| f.remarks[k].resize(n, 1)), 0, "{k}, {n}");
        }
        for n in [256, 257, 511, 512, 65_536, 65_791, 16_777_216] {
            assert_eq!(refused(|f| f.remarks[k].resize(n, 1)), 31, "{k}, {n}");
        }
        for kind in 0..=255 {
            let due = if kind >> 4 == 1 { 0 } else { 30 };
            assert_eq!(refused(|f| f.kinds[k] = kind), due, "{k}, {kind:02x}");
        }
    }
    for n in 0..=4 {
        assert_eq!(refused(|f| f.kinds.truncate(n)), 0, "{n} remarks");
    }
    for n in [5, 6, 8, 255, 256, 257, 260, 65_536, 65_540] {
        for kind in [0x10, 0x1f, 0x00, 0x20, 0xff] {
            assert_eq!(refused(|f| f.kinds.resize(n, kind)), 30, "{n} remarks");
        }
    }
}

/// Faults of fields in the order in which they are met.
const OF_FIELDS: [(u32, Spoil<Owned>); 13] = [
    (31, |f| f.number.push(0)),
    (31, |f| f.iv.truncate(15)),
    (31, |f| f.sealed.push(0)),
    (31, |f| f.tag.clear()),
    (30, |f| f.kinds[0] = 0x0f),
    (31, |f| f.remarks[0].resize(256, 0)),
    (30, |f| f.kinds[1] = 0x20),
    (31, |f| f.remarks[1].resize(256, 0)),
    (30, |f| f.kinds[2] = 0x00),
    (31, |f| f.remarks[2].push(0)),
    (30, |f| f.kinds[3] = 0xff),
    (31, |f| f.remarks[3].resize(300, 0)),
    (30, |f| f.kinds.push(0x10)),
];

/// Every choice among them: the first is refused, before a short buffer.
#[test]
fn the_first_fault_of_fields() {
    for choice in 0..1 << OF_FIELDS.len() {
        let made = |k: &usize| choice >> k & 1 == 1;
        let change = |f: &mut Owned| (0..13).filter(made).for_each(|k| OF_FIELDS[k].1(f));
        let due = (0..13).find(made).map_or(0, |k| OF_FIELDS[k].0);
        assert_eq!(refused(change), due, "faults {choice:013b}");
    }
}

/// A pad's number, and what belongs to it.
struct Pad {
    number: Vec<u8>,
    built: Built,
}

/// A pad for each key size, by either schedule.
fn pads(random: &mut Random) -> [Pad; 3] {
    Size::ALL.map(|size| Pad {
        number: random.bytes(8),
        built: books::built(random.schedule(), size, random),
    })
}

impl Pad {
    /// The ink file of a message, with up to two remarks.
    fn ink(&self, message: &[u8], random: &mut Random) -> Vec<u8> {
        let (book, u, n) = (&self.built.book, self.built.message_set(), message.len());
        let room = due(Use::Sealing, n);
        let (told, coded) = code(Use::Sealing, u, message, room);
        assert_eq!(told, Ok((room, None)), "{n} bytes coded");
        let mut fields = Owned::new(16, &[20, 0][..random.below(3)], random);
        fields.number = self.number.clone();
        let (number, sealed) = seal(book, &fields.iv, &coded, room);
        assert_eq!(number, 0, "{n} bytes sealed");
        fields.sealed = sealed;
        let (told, coded) = code(Use::Tag, u, message, due(Use::Tag, n));
        let (_, kind) = told.unwrap();
        fields.tag = tag(book, &coded, kind.unwrap()).to_vec();
        fields.there_and_back(0)
    }
}

/// What is opened from a file by the key of the pad whose number it has, if its tag is valid.
fn taken(pads: &[Pad], file: &[u8]) -> Option<Vec<u8>> {
    let ink = read(file).unwrap();
    let Fields {
        number,
        iv,
        sealed,
        tag,
        ..
    } = ink.fields(file);
    let built = &pads.iter().find(|pad| pad.number == number)?.built;
    let (schedule, key, set) = (built.schedule, &built.key, built.last_set());
    let message = open(schedule, key, set, iv, sealed, sealed.len()).ok()?;
    let valid = check(schedule, key, set, &message, tag) == Ok(true);
    valid.then_some(message)
}

#[test]
fn from_the_pad_to_the_archive() {
    let mut random = Random(139);
    let pads = pads(&mut random);
    for n in [0, 1, 15, 16, 17, 1_000, 9_412, pad::LONGEST] {
        for pad in &pads {
            let message = random.bytes(n);
            let file = pad.ink(&message, &mut random);
            let told = taken(&pads, &file);
            assert!(told == Some(message), "{:?}, {n}", pad.built.size());
        }
    }
}

/// A file with any byte of its first four fields changed is one still, at the same places; but nothing is
/// taken from it.
#[test]
fn changed_bytes_of_fields() {
    let mut random = Random(140);
    let pads = pads(&mut random);
    for pad in &pads {
        let file = pad.ink(b"thirty bytes of ink, or nearly", &mut random);
        let ink = read(&file).unwrap();
        let fields = [
            (ink.number, 8),
            (ink.iv, 16),
            (ink.sealed, 32),
            (ink.tag, 16),
        ];
        for at in fields.into_iter().flat_map(|(at, n)| at..at + n) {
            let mut other = file.clone();
            other[at] ^= 1 << random.below(8);
            assert_eq!(read(&other), Ok(ink), "byte {at}");
            assert_eq!(taken(&pads, &other), None, "byte {at}");
        }
    }
}
