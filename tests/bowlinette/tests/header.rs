//! include/bowlinette.h as a C program sees it: ../c/header.c is compiled with it as C99, linked
//! with the static library and run, and must print what the reference says.

use reference::chain::{SET, WORD};
use reference::driver::{self, Session};
use reference::ink::{self, Fields};
use reference::{lea, maker, Schedule, Size};
use shared::books;
use shared::maker::enough;
use std::path::Path;
use std::process::Command;

/// What a command prints; it must succeed.
fn printed(command: &mut Command) -> String {
    let output = command.output().expect("the command starts");
    let said = String::from_utf8_lossy(&output.stderr);
    assert!(output.status.success(), "{command:?}: {said}");
    String::from_utf8(output.stdout).expect("text")
}

fn line(block: Result<lea::Block, u32>) -> String {
    let bytes = block.unwrap();
    let hex: String = bytes.iter().map(|b| format!("{b:02x}")).collect();
    format!("0 {hex}")
}

/// The lines due, in the order of header.c.
fn due() -> Vec<String> {
    let mut lines: Vec<String> = Vec::new();
    for s in Size::ALL {
        let (key, rounds, chain) = (s.key_bytes(), s.rounds(), s.chain_bytes());
        let (book, reading, random) = (s.book_bytes(), s.reading_bytes(), enough(s));
        lines.push(format!("{key} {rounds} {chain} {book} {reading} {random}"));
    }
    lines.push("1 1 1".into());
    lines.extend(due_chains());
    lines.push(line(Ok(*b"in ink\x0a\x0a\x0a\x0a\x0a\x0a\x0a\x0a\x0a\x0a")));
    lines.push(line(Ok(*b"in ink\x80\0\0\0\0\0\0\0\0\0")));
    lines.push("1 1 1 1 1 1".into());
    lines.extend(due_driver());
    lines.push("1 1".into());
    let key: Vec<u8> = (0..32).map(|i| 7 * i).collect();
    for schedule in Schedule::ALL.map(Schedule::number) {
        lines.extend(due_cipher(schedule, &key));
        lines.extend(due_reading(schedule, &key));
        lines.push(line(Ok(*b"in ink\0\0\0\0\0\0\0\0\0\0")));
        lines.push("1 1 1".into());
        lines.push("1 1 1 1 1".into());
    }
    lines.extend(due_ink());
    lines
}

/// Those of a block by the cipher.
fn due_cipher(schedule: u8, key: &[u8]) -> Vec<String> {
    let block: Vec<u8> = (0..16).map(|i| 11 * i).collect();
    let row = lea::round_keys(schedule, key, 3).unwrap();
    let words: String = row.iter().map(|w| format!(" {w:08x}")).collect();
    vec![
        line(lea::encipher(schedule, key, &block)),
        line(lea::decipher(schedule, key, &block)),
        line(lea::first_rounds(schedule, key, 5, &block)),
        format!("1{words}"),
        "1 1 1".into(),
    ]
}

/// So many bytes that are not random.
fn noise(count: usize) -> Vec<u8> {
    (0..count).map(|i| (i % 251 * 77) as u8).collect()
}

/// Those of made chains: a middle coding and masks, and a coding that the given set fixes and a middle coding,
/// each with how many bytes were drawn.
fn due_chains() -> Vec<String> {
    let (size, key) = (Size::Lea192, 24);
    let (noise, mut out) = (noise(enough(size)), vec![0; size.chain_bytes()]);
    let part = |out: &[u8], at: usize| line(Ok(out[at..][..16].try_into().unwrap()));
    let (middles, last) = (SET * (size.rounds() + 2), SET * (size.rounds() + 1));
    let n = maker::make_chain(key, &noise, &mut out).unwrap();
    let chain = [
        part(&out, middles),
        part(&out, middles + 384),
        format!("{n} 1 1"),
    ];
    let set = out[last..][..SET].to_vec();
    let n = maker::make_reading_chain(key, &set, &noise, &mut out).unwrap();
    let reading = [
        part(&set, 3 * WORD),
        part(&out, middles),
        format!("{n} 1 1"),
    ];
    [chain, reading].concat()
}

/// Two blocks.
fn two_blocks() -> Vec<u8> {
    (0..32).map(|i| (13 * i) as u8).collect()
}

/// Those of the driver.
fn due_driver() -> Vec<String> {
    let size = Size::Lea192;
    let mut book = noise(size.book_bytes());
    book[0] = 24;
    let coded = two_blocks();
    let (first, last) = coded.split_at(16);
    let mut sealed = [0; 32];
    let written = driver::seal(&book, first, &coded, &mut sealed);
    let mut session = Session::begin(&book).unwrap();
    session.block_call(&book, first).unwrap();
    vec![
        line(driver::run_round(books::round(&book, 0), first)),
        line(driver::run_rounds(&book, size.rounds(), first)),
        line(written.map(|_| sealed[16..].try_into().unwrap())),
        "1".into(),
        "1 1".into(),
        line(session.last_call(&book, last, 1)),
        "1 1".into(),
    ]
}

/// Those of reading: a block deciphered and folded with the one before.
fn due_reading(schedule: u8, key: &[u8]) -> Vec<String> {
    let sealed = two_blocks();
    let (before, own) = sealed.split_at(16);
    let plain = lea::decipher(schedule, key, own).unwrap();
    let text = std::array::from_fn(|k| plain[k] ^ before[k]);
    vec!["1 1".into(), line(Ok(text)), "1 1".into()]
}

/// Those of an ink file: its bytes, the numbers that tell of it, and refusals.
fn due_ink() -> Vec<String> {
    let bytes = b"sixteen bytes or more of ink, or of anything";
    let fields = Fields {
        number: &bytes[..8],
        iv: &bytes[1..17],
        sealed: &bytes[2..18],
        tag: &bytes[3..19],
        kinds: &[0x1f, 0x10],
        remarks: [&bytes[4..9], b"", b"", b""],
    };
    let mut file = [0; 112];
    let n = ink::write(&fields, &mut file).unwrap();
    let parts = file[..n + 15].chunks_exact(16);
    let mut lines: Vec<String> = parts
        .map(|part| line(Ok(part.try_into().unwrap())))
        .collect();
    let numbers = ink::read(&file[..n]).unwrap().numbers();
    let numbers: String = numbers.iter().map(|number| format!(" {number}")).collect();
    lines.extend([format!("1{numbers}"), "1 1 1".into()]);
    lines
}

#[test]
fn a_c_program_with_the_header() {
    let here = Path::new(env!("CARGO_MANIFEST_DIR"));
    let program = Path::new(env!("CARGO_TARGET_TMPDIR")).join("header");
    let mut cc = Command::new("cc");
    cc.args(["-std=c99", "-Wall", "-Wextra", "-pedantic", "-Werror", "-I"])
        .arg(here.join("../../include"))
        .arg(here.join("../c/header.c"))
        .arg(here.join("../../target/staticlib/libbowlinette.a"))
        .arg("-o")
        .arg(&program);
    printed(&mut cc);
    let lines = printed(&mut Command::new(&program));
    assert_eq!(lines.lines().collect::<Vec<_>>(), due());
}
