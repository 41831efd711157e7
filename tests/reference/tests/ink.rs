//! Ink files of the reference: an example by hand, files and fields there and back, and what is refused.

use reference::ink::{read, write, Fields};

/// One sealed block and two remarks, the first of them empty.
const FILE: &[u8; 97] = b"\
    \xa5\x01\x08\0\0\0pad no 7\
    \xa5\x02\x10\0\0\0the IV, 16 bytes\
    \xa5\x03\x10\0\0\0one sealed block\
    \xa5\x04\x10\0\0\0the tag 16 bytes\
    \xa5\x1f\x00\0\0\0\
    \xa5\x10\x05\0\0\0hello";

/// What it is written from.
const FIELDS: Fields = Fields {
    number: b"pad no 7",
    iv: b"the IV, 16 bytes",
    sealed: b"one sealed block",
    tag: b"the tag 16 bytes",
    kinds: &[0x1f, 0x10],
    remarks: [b"", b"hello", b"", b""],
};

/// Where its records begin.
const RECORDS: [usize; 6] = [0, 14, 36, 58, 80, 86];

/// The refusal in reading the example with other bytes from a place on.
fn changed(at: usize, bytes: &[u8]) -> Option<u32> {
    let mut file = FILE.to_vec();
    file.splice(at..at + bytes.len(), bytes.iter().copied());
    read(&file).err()
}

/// The refusal in reading the example with more bytes behind it.
fn followed(bytes: &[u8]) -> Option<u32> {
    read(&[&FILE[..], bytes].concat()).err()
}

/// The refusal in writing, which leaves the output as it was.
fn refused(fields: Fields) -> Option<u32> {
    let mut out = vec![0x55; 1_050_000];
    let told = write(&fields, &mut out).err();
    assert!(told.is_none() || out.iter().all(|&x| x == 0x55));
    told
}

/// Writes fields and reads them.
fn there_and_back(fields: Fields) {
    let mut file = vec![0x55; 1_050_000];
    let length = write(&fields, &mut file).unwrap();
    assert!(file[length..].iter().all(|&x| x == 0x55));
    file.truncate(length);
    let ink = read(&file).unwrap();
    let told = ink.fields(&file);
    assert_eq!(told.remarks[..ink.count], fields.remarks[..ink.count]);
    let remarks = fields.remarks;
    assert!(Fields { remarks, ..told } == fields);
}

#[test]
fn the_example() {
    let ink = read(FILE).unwrap();
    let remarks = [0x1f, 0x10, 0, 0, 86, 92, 0, 0, 0, 5, 0, 0];
    assert_eq!(ink.numbers()[..6], [6, 20, 42, 16, 64, 2]);
    assert_eq!(ink.numbers()[6..], remarks);
    assert_eq!(ink.fields(FILE), FIELDS);
    let mut out = [0x55; 99];
    assert_eq!(write(&FIELDS, &mut out), Ok(97));
    assert_eq!(out[..97], FILE[..]);
    assert_eq!(out[97..], [0x55; 2]);
}

#[test]
fn fields_survive() {
    let (long, remark) = (vec![7; 1_048_576], [9; 255]);
    for sealed in [&long[..16], &long[..32], &long[16..], &long] {
        for count in 0..=4 {
            let kinds = &[0x1f, 0x10, 0x1f, 0x15][..count];
            let remarks = [&remark[..], b"", b"two", &remark[..254]];
            there_and_back(Fields {
                sealed,
                kinds,
                remarks,
                ..FIELDS
            });
        }
    }
}

/// Any byte of the example changed to any other: what is read is written the same.
#[test]
fn files_survive() {
    for at in 0..FILE.len() {
        for value in 0..=255 {
            let (mut file, mut out) = (*FILE, [0; 97]);
            file[at] = value;
            if let Ok(ink) = read(&file) {
                let length = write(&ink.fields(&file), &mut out);
                assert_eq!(length, Ok(97), "{at}, {value}");
                assert_eq!(out, file, "{at}, {value}");
            }
        }
    }
}

#[test]
fn files_cut_short() {
    for end in 0..=FILE.len() {
        let begin = RECORDS.into_iter().rfind(|&at| at <= end).unwrap();
        let due = match end {
            80 | 86 | 97 => None,
            _ if end < begin + 6 => Some(30),
            _ => Some(31),
        };
        assert_eq!(read(&FILE[..end]).err(), due, "{end}");
    }
}

#[test]
fn marks_and_kinds() {
    for (n, at) in RECORDS.into_iter().enumerate() {
        for value in 0..=255 {
            let known = match n {
                0..=3 => usize::from(value) == n + 1,
                _ => value >> 4 == 1,
            };
            let due = |right: bool| (!right).then_some(30);
            assert_eq!(changed(at, &[value]), due(value == 0xa5), "{n}, {value}");
            assert_eq!(changed(at + 1, &[value]), due(known), "{n}, {value}");
        }
    }
}

/// A length that is allowed, but not the right one, moves the next record: 30, if there is one.
#[test]
fn lengths_in_a_file() {
    let lengths: [&[u8]; 6] = [
        &[0, 7, 9, 255],
        &[0, 15, 17, 32],
        &[0, 15, 17, 33, 64],
        &[0, 15, 17, 32],
        &[12, 255],
        &[6, 255],
    ];
    for (at, wrong) in RECORDS.into_iter().zip(lengths) {
        for &length in wrong {
            assert_eq!(changed(at + 2, &[length]), Some(31), "{at}, {length}");
        }
        for high in 3..6 {
            assert_eq!(changed(at + high, &[1]), Some(31), "{at}, {high}");
        }
        assert_eq!(changed(at + 2, &[255; 4]), Some(31), "{at}");
    }
    for (at, length) in [(38, 32), (38, 48), (82, 1), (82, 10), (88, 4)] {
        assert_eq!(changed(at, &[length]), Some(30), "{at}, {length}");
    }
    assert_eq!(changed(82, &[11]), None);
}

#[test]
fn the_longest_sealed_blocks() {
    for (n, due) in [
        (1_048_576, None),
        (1_048_577, Some(31)),
        (1_048_592, Some(31)),
    ] {
        let length = (n as u32).to_le_bytes();
        let front = [&FILE[..38], &length, &vec![7; n]].concat();
        assert_eq!(read(&[&front, &FILE[58..]].concat()).err(), due, "{n}");
    }
}

#[test]
fn what_follows_the_remarks() {
    let remark = *b"\xa5\x12\0\0\0\0";
    for end in 1..6 {
        assert_eq!(followed(&remark[..end]), Some(30), "{end}");
    }
    assert_eq!(followed(&remark), None);
    assert_eq!(followed(&remark.repeat(2)), None);
    assert_eq!(followed(&remark.repeat(3)), Some(30));
    assert_eq!(followed(b"\xa5\x12\xff\0\0\0"), Some(31));
    let longest = |n: u8| [&[0xa5, 0x12, n, (n == 0).into(), 0, 0][..], &[1; 256]].concat();
    assert_eq!(followed(&longest(255)[..261]), None);
    assert_eq!(followed(&longest(0)), Some(31));
}

/// At a record 30 comes before 31, and a record before the next.
#[test]
fn the_first_fault() {
    for at in RECORDS {
        assert_eq!(changed(at, b"\0\0\xff\xff\xff\xff"), Some(30), "{at}");
        assert_eq!(changed(at + 1, b"\x20\xff\xff\xff\xff"), Some(30), "{at}");
    }
    assert_eq!(changed(2, b"\x07\0\0\0pad no 7\0"), Some(31));
    assert_eq!(changed(0, b"\0\x01\x08\0\0\0pad no 7\xa5\x02\0"), Some(30));
    let fifth = b"\xa5\x10\0\0\0\0\xa5\x10\0\0\0\0\xa5\x10\xff\xff\0\0";
    assert_eq!(followed(fifth), Some(30));
}

#[test]
fn fields_refused() {
    let bytes = vec![1; 1_048_592];
    let cut = |n: usize| &bytes[..n];
    for n in [0, 7, 9, 15, 17, 24, 256] {
        let (number, iv, tag) = (cut(n), cut(n), cut(n));
        assert_eq!(refused(Fields { number, ..FIELDS }), Some(31), "{n}");
        assert_eq!(refused(Fields { iv, ..FIELDS }), Some(31), "{n}");
        assert_eq!(refused(Fields { tag, ..FIELDS }), Some(31), "{n}");
    }
    for n in [0, 8, 15, 17, 1_048_575, 1_048_577, 1_048_592] {
        let sealed = cut(n);
        assert_eq!(refused(Fields { sealed, ..FIELDS }), Some(31), "{n}");
    }
    for kind in 0..=255 {
        let due = (kind >> 4 != 1).then_some(30);
        let kinds = &[0x10, kind];
        assert_eq!(refused(Fields { kinds, ..FIELDS }), due, "{kind}");
    }
}

#[test]
fn remarks_refused() {
    let long = [1; 256];
    let told = |kinds: &[u8], remarks: [&[u8]; 4]| {
        refused(Fields {
            kinds,
            remarks,
            ..FIELDS
        })
    };
    let last: [&[u8]; 4] = [b"", b"", b"", &long];
    assert_eq!(told(&[0x10; 3], last), None);
    assert_eq!(told(&[0x10; 4], last), Some(31));
    assert_eq!(told(&[0x10; 4], [b"", b"", b"", &long[..255]]), None);
    assert_eq!(told(&[0x10; 5], FIELDS.remarks), Some(30));
    assert_eq!(told(&[0x10; 5], last), Some(31));
    assert_eq!(told(&[0x10, 0x10, 0x10, 0x20], last), Some(30));
    assert_eq!(told(&[0x10, 0x20], [&long, b"", b"", b""]), Some(31));
    assert_eq!(told(&[0x20, 0x10], [b"", &long, b"", b""]), Some(30));
    let both = Fields {
        tag: &long,
        kinds: &[0x20],
        ..FIELDS
    };
    assert_eq!(refused(both), Some(31));
}

#[test]
fn short_outputs() {
    for length in 0..97 {
        let mut out = vec![0x55; length];
        assert_eq!(write(&FIELDS, &mut out), Err(9), "{length}");
        assert!(out.iter().all(|&x| x == 0x55), "{length}");
    }
    let (number, kinds) = (&b"pad no"[..], &[0x20][..]);
    assert_eq!(write(&Fields { number, ..FIELDS }, &mut []), Err(31));
    assert_eq!(write(&Fields { kinds, ..FIELDS }, &mut []), Err(30));
    let kinds = &[0x10; 5];
    assert_eq!(write(&Fields { kinds, ..FIELDS }, &mut []), Err(30));
}
