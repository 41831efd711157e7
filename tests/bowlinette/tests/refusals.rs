//! Keys and blocks of every length near the right ones, and of lengths that only differ from them
//! above the low bits, by both schedules and by numbers of none: which number comes back, and which bytes
//! change.

use shared::lent::written;
use shared::version::{Version, PROVED, REFERENCE};
use shared::{first, Random};
use std::fmt::Debug;

/// 0 to 40, and the right lengths with 256 or 65,536 added.
fn lengths() -> impl Iterator<Item = usize> + Clone {
    (0..=40).chain([272, 280, 288, 65_552, 65_560, 65_568])
}

/// The number due: 34 for the schedule, before 1 for the key, before 7 for the block.
fn due(schedule: u8, key: usize, block: usize) -> u32 {
    let wrong = key != 16 && key != 24 && key != 32;
    first(&[(34, schedule > 1), (1, wrong), (7, block != 16)])
}

/// The call must return this number, and write if that is 0.
fn guarded<T: Copy + PartialEq + Debug, const N: usize>(
    fill: T,
    number: u32,
    call: impl Fn(&mut [T; N]) -> u32,
) {
    let told = written(fill, call);
    assert_eq!(told.err().unwrap_or(0), number);
    assert_ne!(told, Ok([fill; N]), "nothing is written");
}

/// The numbers of the schedules, and two of none.
const SCHEDULES: [u8; 4] = [0, 1, 2, 255];

/// Runs a check for each pair of lengths on a key and a block, which must stay as they are.
fn on_pairs(check: impl Fn(u8, &[u8], &[u8], u32)) {
    let mut random = Random(5);
    for k in lengths() {
        for b in lengths() {
            let (key, block) = (random.bytes(k), random.bytes(b));
            let before = (key.clone(), block.clone());
            for schedule in SCHEDULES {
                check(schedule, &key, &block, due(schedule, k, b));
            }
            assert_eq!((key, block), before, "key of {k}, block of {b}");
        }
    }
}

#[test]
fn encipher() {
    on_pairs(|schedule, key, block, number| {
        guarded(0xa5, number, |out| {
            bowlinette::encipher(schedule, key, block, out)
        });
    });
}

#[test]
fn decipher() {
    on_pairs(|schedule, key, block, number| {
        guarded(0xa5, number, |out| {
            bowlinette::decipher(schedule, key, block, out)
        });
    });
}

#[test]
fn first_rounds() {
    on_pairs(|schedule, key, block, number| {
        for count in [0, 1, 24, usize::MAX] {
            guarded(0xa5, number, |out| {
                bowlinette::first_rounds(schedule, key, count, block, out)
            });
        }
    });
}

#[test]
fn round_keys() {
    let mut random = Random(6);
    for k in lengths() {
        let key = random.bytes(k);
        let before = key.clone();
        for schedule in SCHEDULES {
            for number in [0, 1, 31, usize::MAX] {
                guarded(0xa5a5_a5a5, due(schedule, k, 16), |row| {
                    bowlinette::round_keys(schedule, &key, number, row)
                });
            }
        }
        assert_eq!(key, before, "key of {k}");
    }
}

/// Both versions refuse alike, every operation of theirs.
#[test]
fn both_versions_alike() {
    let number = |r: Result<(), u32>| r.err().unwrap_or(0);
    let told = |v: &Version, schedule: u8, key: &[u8], block: &[u8]| {
        [
            number((v.encipher)(schedule, key, block).map(drop)),
            number((v.decipher)(schedule, key, block).map(drop)),
            number((v.first_rounds)(schedule, key, 3, block).map(drop)),
            number((v.round_keys)(schedule, key, 3).map(drop)),
        ]
    };
    on_pairs(|schedule, key, block, number| {
        let want = [number, number, number, due(schedule, key.len(), 16)];
        for v in [&PROVED, &REFERENCE] {
            let given = (schedule, key.len(), block.len());
            assert_eq!(told(v, schedule, key, block), want, "{}, {given:?}", v.name);
        }
    });
}
