//! The proved round program, run on input of every kind beside the reference: what it prints, and
//! how much of its input it reads.

use reference::chain::{self, CODING, MIDDLES, SET, WORD};
use reference::{round, Size};
use shared::{chains, Random};
use std::fs::{self, File};
use std::io::{Read, Seek, SeekFrom, Write};
use std::path::{Path, PathBuf};
use std::process::{self, Command, Stdio};
use std::sync::atomic::{AtomicUsize, Ordering};
use std::thread;
use std::time::Duration;

/// The program, as tools/build leaves it.
fn program() -> Command {
    let path = Path::new(env!("CARGO_MANIFEST_DIR")).join("../../target/bin/round");
    assert!(
        path.is_file(),
        "{} is missing: run `bash tools/build round` at the root of the repository first",
        path.display()
    );
    Command::new(path)
}

/// A file of these bytes that has no name any more, at its start.
fn file_of(bytes: &[u8]) -> File {
    static COUNT: AtomicUsize = AtomicUsize::new(0);
    let number = COUNT.fetch_add(1, Ordering::Relaxed);
    let name = format!("bowlinette-round-{}-{number}", process::id());
    let path: PathBuf = std::env::temp_dir().join(name);
    let mut file = File::options()
        .read(true)
        .write(true)
        .create_new(true)
        .open(&path)
        .unwrap();
    fs::remove_file(&path).unwrap();
    file.write_all(bytes).unwrap();
    file.seek(SeekFrom::Start(0)).unwrap();
    file
}

/// Runs the program on these bytes. It must print what the reference does, read no more than it
/// needs, and end well.
fn run(input: &[u8]) -> String {
    let mut file = file_of(input);
    let done = program().stdin(file.try_clone().unwrap()).output().unwrap();
    assert!(done.status.success() && done.stderr.is_empty());
    let text = String::from_utf8(done.stdout).unwrap();
    assert_eq!(text, round::printed(input));
    let read = file.stream_position().unwrap();
    assert_eq!(read, round::wanted(input) as u64, "how much is read");
    text
}

/// Runs the program on input that it must refuse with this number.
fn refuses(input: &[u8], number: u32) {
    assert_eq!(run(input), format!("refused {number}\n"));
}

/// An input that is not refused: length byte, random key, chain and block.
fn input(size: Size, chain: &[u8], random: &mut Random) -> Vec<u8> {
    let mut all = vec![size.key_bytes() as u8];
    all.extend(random.bytes(size.key_bytes()));
    all.extend(chain);
    all.extend(random.bytes(16));
    all
}

fn valid(size: Size, random: &mut Random) -> Vec<u8> {
    let chain = chains::valid(size, random);
    input(size, &chain, random)
}

/// Where a chain begins in an input.
fn chain_at(size: Size) -> usize {
    1 + size.key_bytes()
}

/// The example of 01's table.
#[test]
fn example() {
    let size = Size::Lea128;
    let mut all = vec![16];
    all.extend((0..16u8).map(|k| 16 * k + 15 - k));
    all.extend((0..32 * (size.rounds() + 2) * CODING).map(|k| (k % CODING) as u8));
    for _ in 0..size.rounds() {
        all.extend((0..MIDDLES * CODING).map(|k| (k % CODING) as u8));
        all.extend([0; MIDDLES]);
    }
    all.extend(0x10..0x20);
    let lines = "1 5190070f8d663d69d4cfede510111213\n24 9fc84e3528c6c6185532c7a704648bfd\n";
    assert_eq!(run(&all), lines);
}

#[test]
fn random_inputs() {
    let mut random = Random(90);
    for size in Size::ALL {
        for _ in 0..16 {
            let text = run(&valid(size, &mut random));
            let (first, last) = text.split_once('\n').unwrap();
            assert!(first.starts_with("1 "));
            assert!(last.starts_with(&format!("{} ", size.rounds())));
        }
    }
}

/// Input that ends at each border of its parts, one byte to each side, and within them.
#[test]
fn cut_short() {
    let mut random = Random(91);
    for size in Size::ALL {
        let all = valid(size, &mut random);
        let (key, chain) = (1 + size.key_bytes(), all.len() - 16);
        let borders = [1, key, chain, all.len()];
        let inside = [key / 2, (key + chain) / 2, chain + 8];
        let around = borders.iter().flat_map(|&at| [at - 1, at, at + 1]);
        for length in around.chain(inside).filter(|&at| at <= all.len()) {
            let cut = &all[..length];
            match length {
                _ if length < key => refuses(cut, 1),
                _ if length < chain => refuses(cut, 2),
                _ if length < all.len() => refuses(cut, 7),
                _ => assert!(run(cut).starts_with("1 ")),
            }
        }
    }
}

/// Every length byte in front of the same bytes: those of another key size take their parts
/// elsewhere, and all others are refused.
#[test]
fn length_bytes() {
    let mut all = valid(Size::Lea256, &mut Random(92));
    for length in 0..=255 {
        all[0] = length;
        match length {
            16 | 24 => refuses(&all, 3),
            32 => assert!(run(&all).starts_with("1 ")),
            _ => refuses(&all, 1),
        }
    }
    for length in [0, 15, 17, 255] {
        refuses(&[length], 1);
    }
}

/// Chains that are not valid, with a whole block, with a part of one and with none; and cut short,
/// when the missing bytes count first.
#[test]
fn chains_that_are_not_valid() {
    let mut random = Random(93);
    for size in Size::ALL {
        let good = chains::valid(size, &mut random);
        let rounds = SET * (size.rounds() + 2);
        let last = rounds + chain::ROUND * (size.rounds() - 1);
        let middle = last + CODING * (MIDDLES - 1);
        let mask = last + CODING * MIDDLES;
        let word = |at: usize| move |c: &mut Vec<u8>| c.swap(at, at + 1);
        let byte = |at: usize, value: u8| move |c: &mut Vec<u8>| c[at] = value;
        let twice = |at: usize| move |c: &mut Vec<u8>| c[at] = c[at + 1];
        refused_chain(size, &good, byte(0, 16), 3, &mut random);
        refused_chain(size, &good, twice(rounds - CODING), 3, &mut random);
        refused_chain(size, &good, twice(middle), 3, &mut random);
        refused_chain(size, &good, word(2 * SET + 3 * WORD), 4, &mut random);
        refused_chain(size, &good, word(rounds - CODING), 4, &mut random);
        refused_chain(size, &good, byte(mask, 2), 5, &mut random);
        refused_chain(size, &good, byte(mask + MIDDLES - 1, 2), 5, &mut random);
    }
}

fn refused_chain(
    size: Size,
    good: &[u8],
    change: impl Fn(&mut Vec<u8>),
    number: u32,
    random: &mut Random,
) {
    let mut chain = good.to_vec();
    change(&mut chain);
    let all = input(size, &chain, random);
    let end = all.len() - 16;
    for length in [all.len(), all.len() - 1, end] {
        refuses(&all[..length], number);
    }
    refuses(&all[..end - 1], 2);
    refuses(&all[..chain_at(size) - 1], 1);
    let mut other = all;
    other[0] = 17;
    refuses(&other, 1);
}

/// Several rules broken at once: the lowest number is given.
#[test]
fn lowest_number() {
    let mut random = Random(94);
    for size in Size::ALL {
        let mut all = valid(size, &mut random);
        let chain = chain_at(size);
        let mask = chain + size.chain_bytes() - MIDDLES;
        all[mask] = 2;
        refuses(&all[..all.len() - 3], 5);
        all.swap(chain + 2 * SET + 3 * WORD, chain + 2 * SET + 3 * WORD + 1);
        refuses(&all[..all.len() - 3], 4);
        all[chain + CODING] = 255;
        refuses(&all[..all.len() - 3], 3);
        refuses(&all[..mask], 2);
    }
}

/// The masks at half byte 0 hide what no round reads: with each of them the other way round, the same is printed.
#[test]
fn masks_of_the_top_carries() {
    let mut random = Random(97);
    for size in Size::ALL {
        let mut all = valid(size, &mut random);
        let text = run(&all);
        assert!(text.starts_with("1 "), "{size:?}: {text}");
        for at in chains::top_masks(size) {
            all[chain_at(size) + at] ^= 1;
        }
        assert_eq!(run(&all), text, "{size:?}");
    }
}

/// Whatever comes after the block is left unread and changes nothing.
#[test]
fn later_bytes() {
    let mut random = Random(95);
    for size in Size::ALL {
        let mut all = valid(size, &mut random);
        let text = run(&all);
        all.push(0);
        assert_eq!(run(&all), text);
        all.extend(random.bytes(100_000));
        assert_eq!(run(&all), text);
    }
}

/// Input that comes through a pipe in pieces: a short read is not the end.
#[test]
fn pieces() {
    let mut random = Random(96);
    for size in Size::ALL {
        let all = valid(size, &mut random);
        for cut in [all.len(), all.len() - 1, chain_at(size) + 700] {
            let all = &all[..cut];
            let mut child = program()
                .stdin(Stdio::piped())
                .stdout(Stdio::piped())
                .spawn()
                .unwrap();
            let mut pipe = child.stdin.take().unwrap();
            for piece in all.chunks(4_999) {
                let (one, rest) = piece.split_at(1);
                for part in [one, rest] {
                    pipe.write_all(part).unwrap();
                    thread::sleep(Duration::from_millis(2));
                }
            }
            drop(pipe);
            let mut text = String::new();
            child
                .stdout
                .take()
                .unwrap()
                .read_to_string(&mut text)
                .unwrap();
            assert!(child.wait().unwrap().success());
            assert_eq!(text, round::printed(all));
        }
    }
}
