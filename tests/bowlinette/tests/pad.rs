//! The pad's two codings on both versions: every byte of the buffer, length and kind, each refusal,
//! and what stays as it was.

use reference::chain::{self, CODING, SET};
use reference::pad::{BLOCK, LONGEST};
use shared::chains::set;
use shared::pad::{code, due, Use, USES};
use shared::{Random, FILL};

/// The number of a call.
fn number(uses: Use, u: &[u8], message: &[u8], room: usize) -> u32 {
    code(uses, u, message, room).0.err().unwrap_or(0)
}

/// The coding decoded by its set.
fn decoded(u: &[u8], code: &[u8]) -> Vec<u8> {
    code.chunks_exact(BLOCK)
        .flat_map(|block| chain::decode(u, block.try_into().unwrap()))
        .collect()
}

/// A message, coded: length and kind, and, decoded, first the message and then what 01 says is added.
fn accepted(uses: Use, u: &[u8], message: &[u8], room: usize) {
    let (n, total) = (message.len(), due(uses, message.len()));
    let (told, out) = code(uses, u, message, room);
    let (length, kind) = told.unwrap();
    assert_eq!(length, total, "{n} bytes");
    assert!(out[total..].iter().all(|&x| x == FILL), "past the code");
    let text = decoded(u, &out[..total]);
    assert!(text[..n] == *message, "{n} bytes, decoded");
    let added = &text[n..];
    match uses {
        Use::Sealing => {
            assert!((1..=16).contains(&added.len()));
            assert!(added.iter().all(|&x| usize::from(x) == added.len()));
        }
        Use::Tag => {
            assert_eq!(kind, Some(u8::from(!added.is_empty())), "kind, {n} bytes");
            assert!(added.iter().skip(1).all(|&x| x == 0));
            assert!(added.first().map_or(true, |&x| x == 0x80));
        }
    }
}

#[test]
fn messages_of_every_length() {
    let mut random = Random(60);
    for round in 0..20 {
        let u = set(&mut random);
        for n in (0..=100).chain([255, 256, 257, 9_412]) {
            let message = random.bytes(n);
            for uses in USES {
                accepted(
                    uses,
                    &u,
                    &message,
                    due(uses, n) + [0, 1, 15, 16, 100][round % 5],
                );
            }
        }
    }
}

#[test]
fn the_longest_messages() {
    let mut random = Random(61);
    let u = set(&mut random);
    let message = random.bytes(LONGEST + 1);
    for uses in USES {
        for n in [LONGEST - 15, LONGEST - 14, LONGEST - 1, LONGEST] {
            accepted(uses, &u, &message[..n], due(uses, n));
        }
        for room in [0, LONGEST + 1, LONGEST + 17] {
            assert_eq!(number(uses, &u, &message, room), 8, "{room} bytes");
        }
    }
}

#[test]
fn buffers_of_other_lengths() {
    let mut random = Random(62);
    let u = set(&mut random);
    for n in (0..=50).chain([LONGEST]) {
        let message = random.bytes(n);
        for uses in USES {
            let total = due(uses, n);
            for room in [0, total - BLOCK, total - 2, total - 1] {
                let told = number(uses, &u, &message, room);
                assert_eq!(told, 9, "{uses:?}, {n} bytes into {room}");
            }
            for more in [0, 1, BLOCK, 1000] {
                accepted(uses, &u, &message, total + more);
            }
        }
    }
}

/// Sets that are wrong in one place, first, middle or last: 2 before 3, and both before 8 and 9.
#[test]
fn sets_that_are_none() {
    let mut random = Random(63);
    let u = set(&mut random);
    let long = vec![0; LONGEST + 1];
    let each = |u: &[u8], wrong: u32, what: &str| {
        for uses in USES {
            for (message, room) in [(&b"ink"[..], 16), (b"ink", 0), (&long, 0)] {
                let told = number(uses, u, message, room);
                assert_eq!(told, wrong, "{uses:?}, {what}");
            }
        }
    };
    let mut longer = u.clone();
    longer.push(0);
    for length in [0, 1, 16, 256, SET - 16, SET - 1, SET + 1] {
        each(&longer[..length], 2, "the set's length");
    }
    for k in [0, 1, 15, 16, 30, 31] {
        for at in [0, 7, 15] {
            for value in [16, 17, 255, u[CODING * k + (at + 1) % CODING]] {
                let mut other = u.clone();
                other[CODING * k + at] = value;
                each(&other, 3, "a coding");
                other.pop();
                each(&other, 2, "the set's length and a coding");
            }
        }
    }
}

/// 8 before 9.
#[test]
fn long_before_short() {
    let u = set(&mut Random(64));
    let long = vec![0; LONGEST + 1];
    for uses in USES {
        assert_eq!(number(uses, &u, &long, 0), 8);
        assert_eq!(number(uses, &u, &long[1..], 0), 9);
    }
}

/// The examples of 01's table for the pad, under identity codings.
#[test]
fn table_examples() {
    let u: Vec<u8> = (0..SET).map(|i| (i % CODING) as u8).collect();
    let told = |uses, message: &[u8]| {
        let (told, mut out) = code(uses, &u, message, 64);
        let (length, kind) = told.unwrap();
        out.truncate(length);
        (out, kind)
    };
    let mut ended = vec![0; 16];
    ended[0] = 0x80;
    assert_eq!(told(Use::Sealing, b"").0, [0x10; 16]);
    assert_eq!(told(Use::Tag, b""), (ended, Some(1)));
    assert_eq!(told(Use::Sealing, &[7; 16]).0.len(), 32);
    assert_eq!(told(Use::Tag, &[7; 16]), (vec![7; 16], Some(0)));
    assert_eq!(told(Use::Sealing, &[7; 15]).0.len(), 16);
    let (text, kind) = told(Use::Tag, &[7; 15]);
    assert_eq!((text.len(), text[15], kind), (16, 0x80, Some(1)));
}
