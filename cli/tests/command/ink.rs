//! `show`: what it prints of good files, and of bad ones the number and the offset of the record at fault.

use crate::support::desk::{Desk, INPUTS};
use crate::support::run_with;
use crate::support::tree::{kept, put};
use shared::ink::{headed, record, Owned};
use shared::Random;

/// A record: where its mark stands, its kind, and its bytes.
type Record<'a> = (usize, u8, &'a [u8]);

/// The records of a file, or the number that refuses it and where the record at fault begins: a plain walk by the
/// words of docs/FORMAT.md.
fn walk(file: &[u8]) -> Result<Vec<Record<'_>>, (u32, usize)> {
    let (mut records, mut at) = (vec![], 0);
    while records.len() < 4 || at < file.len() {
        let (place, rest) = (records.len(), &file[at..]);
        let is_due = |kind: u8| match place {
            0..=3 => usize::from(kind) == place + 1,
            4..=7 => (0x10..=0x1f).contains(&kind),
            _ => false,
        };
        if rest.len() < 6 || rest[0] != 0xa5 || !is_due(rest[1]) {
            return Err((30, at));
        }
        let length = u32::from_le_bytes(rest[2..6].try_into().unwrap()) as usize;
        let is_allowed = match place {
            0 => length == 8,
            1 | 3 => length == 16,
            2 => (16..=1_048_576).contains(&length) && length % 16 == 0,
            _ => length <= 255,
        };
        if !is_allowed || length > rest.len() - 6 {
            return Err((31, at));
        }
        records.push((at, rest[1], &rest[6..6 + length]));
        at += 6 + length;
    }
    Ok(records)
}

fn name(kind: u8) -> String {
    match kind {
        1 => "pad number".into(),
        2 => "IV".into(),
        3 => "sealed".into(),
        4 => "tag".into(),
        _ => format!("remark {kind:02x}"),
    }
}

/// Text without its spaces.
fn squeezed(text: &str) -> String {
    text.split_whitespace().collect()
}

/// The line due of a record, without spaces: offset, length, name, and its first bytes in hex and as text.
fn due((at, kind, bytes): &Record) -> String {
    let front = &bytes[..bytes.len().min(16)];
    let hex: String = front.iter().map(|byte| format!("{byte:02x}")).collect();
    let seen = |&byte: &u8| match byte {
        0x20..=0x7e => char::from(byte),
        _ => '.',
    };
    let text: String = front.iter().map(seen).collect();
    squeezed(&format!(
        "{at} {} {} {hex} {text}",
        bytes.len(),
        name(*kind)
    ))
}

/// What is shown of a file must be what the walk and the reference say of it.
fn shown(file: &[u8]) -> u32 {
    let ran = run_with(&["show", "-"], file);
    let number = reference::ink::read(file).err().unwrap_or(0);
    match walk(file) {
        Ok(records) => {
            assert_eq!(number, 0);
            let text = ran.text();
            let lines: Vec<String> = text.lines().skip(1).map(squeezed).collect();
            let records: Vec<String> = records.iter().map(due).collect();
            assert_eq!(lines, records, "{text}");
        }
        Err((walked, at)) => {
            assert_eq!(walked, number);
            ran.refused_at("show", "the ink file on standard input", number, at);
        }
    }
    number
}

#[test]
fn good_files() {
    let mut random = Random(31);
    let mut some = Owned::new(16, &[9, 0, 255], &mut random);
    some.number = b"00000042".to_vec();
    some.remarks[0] = b"~ a text!".to_vec();
    assert_eq!(shown(&some.records().concat()), 0);
    for _ in 0..20 {
        assert_eq!(shown(&Owned::any(&mut random).records().concat()), 0);
    }
    let longest = Owned::new(1_048_576, &[255; 4], &mut random)
        .records()
        .concat();
    assert_eq!(longest.len(), 1_049_684);
    assert_eq!(shown(&longest), 0);
    assert_eq!(shown(&[&longest[..], &[0xa5]].concat()), 30);
}

/// A file cut short after each of some bytes.
#[test]
fn cut_short() {
    let file = Owned::new(16, &[2, 0], &mut Random(32)).records().concat();
    for end in (0..file.len()).filter(|end| end % 3 != 1) {
        shown(&file[..end]);
    }
}

/// One random damage to the records of a file.
fn damage(records: &mut Vec<Vec<u8>>, random: &mut Random) {
    let n = random.below(records.len());
    match random.below(8) {
        0 => records[n][0] = random.number() as u8,
        1 => records[n][1] = random.one_of(&[0, 1, 2, 3, 4, 5, 0x0f, 0x10, 0x1f, 0x20]),
        2 => records[n][2] = random.one_of(&[0, 8, 15, 16, 17, 255]),
        3 => records[n][3 + random.below(3)] = random.one_of(&[1, 0x10, 0xff]),
        4 => drop(records.remove(n)),
        5 => records.insert(n, record(0x1c, &random.bytes(3))),
        6 => records.push(headed(0x10, random.below(9), &random.bytes(4))),
        _ => {
            let bytes = 1 + random.below(9);
            let left = records[n].len().saturating_sub(bytes);
            records[n].truncate(left);
        }
    }
}

/// Files with one to three damages. All three answers come up many times.
#[test]
fn random_damages() {
    let (mut random, mut seen) = (Random(33), [0; 32]);
    for _ in 0..300 {
        let mut records = Owned::any(&mut random).records();
        for _ in 0..=random.below(3) {
            damage(&mut records, &mut random);
        }
        seen[shown(&records.concat()) as usize] += 1;
    }
    assert!([0, 30, 31].iter().all(|&n| seen[n] > 10), "{seen:?}");
}

/// `open` and `read` tell the same of a bad file as `show`, and write nothing.
#[test]
fn to_each_command() {
    let desk = Desk::new("bad-ink");
    let whole = desk.pad.get("ink");
    let (mut random, path) = (Random(34), desk.at("ink"));
    for _ in 0..25 {
        let mut file = whole.clone();
        let head = random.one_of(&[0, 14, 36, whole.len() - 22]);
        file[head + random.below(6)] ^= 1 << random.below(8);
        put(path.clone(), &file);
        let (number, at) = walk(&file).expect_err("a head is spoilt");
        for input in INPUTS.into_iter().filter(|input| input.is_ink()) {
            let ran = kept(&desk.pad.folder, || desk.run(input.command));
            ran.refused_at(input.command, &desk.called(input), number, at);
        }
    }
}
