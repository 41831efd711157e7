//! The second table: the parts by themselves, single blocks, and the rounds beside Rust of other shapes.

use crate::driver::{self, Shape};
use crate::timing::{shown, Times};
use crate::{stack, LENGTHS};
use reference::{lea, pad, Size};
use shared::schedules::LEA;
use shared::{chains, Random};
use std::hint::black_box as hide;

/// A row: what was called, on how many bytes, both times and their ratio.
pub fn line(name: &str, bytes: usize, times: &Times) -> String {
    let (a, b, ratio) = (shown(times.rattle), shown(times.rust), times.ratio());
    format!("{name:<14} {bytes:>9} {a:>12} {b:>12} {ratio:>8.2}")
}

fn row(name: &str, bytes: usize, times: Times) {
    println!("{}", line(name, bytes, &times));
}

/// The head of rows: what the number in front counts, and what the two times are of.
pub fn heading(bytes: &str, [first, second]: [&str; 2]) {
    println!(
        "{:<14} {bytes:>9} {first:>12} {second:>12} {:>8}",
        "", "ratio"
    );
}

/// A whole schedule: neither version knows which row will be asked for, so both make them all.
pub fn round_keys(schedule: u8, size: Size) -> Times {
    let (key, mut row) = (Random(4).bytes(size.key_bytes()), [0; 6]);
    let (key, mut other) = (key.as_slice(), row);
    let rattle = |row: &mut _| bowlinette::round_keys(hide(schedule), hide(key), hide(0), row);
    let times = Times::of(
        || _ = hide(rattle(hide(&mut row))),
        || other = hide(lea::round_keys(hide(schedule), hide(key), hide(0))).unwrap(),
    );
    assert_eq!(row, other);
    times
}

/// Enciphering and deciphering from key and block, and enciphering in a loop over 4,096 blocks, by LEA's schedule.
fn cipher(size: Size) {
    let mut random = Random(4);
    let (key, text) = (random.bytes(size.key_bytes()), random.bytes(65_536));
    let (key, text, block, mut out) = (key.as_slice(), text.as_slice(), &text[..16], [0; 16]);
    let encipher = Times::of(
        || {
            _ = hide(bowlinette::encipher(
                LEA,
                hide(key),
                hide(block),
                hide(&mut out),
            ))
        },
        || _ = hide(lea::encipher(hide(LEA), hide(key), hide(block))),
    );
    row("encipher", key.len(), encipher);
    let decipher = Times::of(
        || {
            _ = hide(bowlinette::decipher(
                LEA,
                hide(key),
                hide(block),
                hide(&mut out),
            ))
        },
        || _ = hide(lea::decipher(hide(LEA), hide(key), hide(block))),
    );
    row("decipher", key.len(), decipher);
    let mac = Times::of(
        || {
            _ = hide(bowlinette::cbc_mac(
                LEA,
                hide(key),
                hide(text),
                hide(&mut out),
            ))
        },
        || _ = hide(lea::cbc_mac(hide(LEA), hide(key), hide(text))),
    );
    row("CBC-MAC 65536", key.len(), mac);
}

/// Coding a message of n bytes for sealing and for a tag, the check of the set included.
fn codes(n: usize) {
    let mut random = Random(5);
    let (u, message) = (chains::set(&mut random), random.bytes(n));
    let (u, message) = (u.as_slice(), message.as_slice());
    let (mut out, mut other) = (vec![0; n + 16], vec![0; n + 16]);
    let (mut length, mut kind) = (0, 0);
    let sealing = Times::of(
        || {
            _ = hide(bowlinette::code_for_sealing(
                hide(u),
                hide(message),
                &mut out,
                &mut length,
            ))
        },
        || _ = hide(pad::code_for_sealing(hide(u), hide(message), &mut other)),
    );
    assert!(out == other);
    row("code to seal", n, sealing);
    let tag = Times::of(
        || {
            _ = hide(bowlinette::code_for_tag(
                hide(u),
                hide(message),
                &mut out,
                &mut length,
                &mut kind,
            ))
        },
        || _ = hide(pad::code_for_tag(hide(u), hide(message), &mut other)),
    );
    assert!(out == other);
    row("code to tag", n, tag);
}

pub fn print() {
    println!("\nThe parts by themselves");
    heading("key bytes", ["Rattle", "Rust"]);
    Size::ALL.into_iter().for_each(cipher);
    heading("message", ["Rattle", "Rust"]);
    LENGTHS.into_iter().for_each(codes);
    for (shape, name) in [(Shape::Plain, "plain Rust"), (Shape::Alike, "Rust alike")] {
        heading("key bytes", ["Rattle", name]);
        for size in Size::ALL {
            row("rounds", size.key_bytes(), driver::rounds(size, shape));
        }
    }
    let given = LENGTHS.map(|n| (n, driver::Given::new(Size::Lea128, n)));
    heading("message", ["sealing", "its rounds"]);
    for (n, given) in &given {
        row("seal, key 16", *n, driver::seal_beside_rounds(given));
    }
    heading("message", ["Rattle", "plain Rust"]);
    for (n, given) in &given {
        row("seal, key 16", *n, driver::seal(given, Shape::Plain));
        let sealed = driver::Given::sealed(Size::Lea128, *n);
        row("read, key 16", *n, driver::read(&sealed, Shape::Plain));
        row("tag, key 16", *n, driver::tag(given, Shape::Plain));
    }
    println!("Stack, in bytes");
    for (name, bytes) in stack::most() {
        println!("{name:<20}{bytes:>4}");
    }
}
