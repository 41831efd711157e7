//! The schedules of the reference: every row and example of the documents' lists, and what is refused of a
//! schedule's number before anything else.

use reference::schedule::{expand, EMPTY};
use reference::{archive, book, lea, reading, Schedule};
use shared::lists;

/// The rows after the last are not written.
#[test]
fn rows() {
    for list in lists::all() {
        let (mut rows, mut due) = (EMPTY, EMPTY);
        due[..list.rows.len()].copy_from_slice(&list.rows);
        let told = expand(list.schedule, &list.key, &mut rows);
        assert_eq!(told, Ok(list.size), "{}", list.schedule);
        assert_eq!(rows, due, "{}, {:?}", list.schedule, list.size);
    }
}

#[test]
fn examples() {
    for list in lists::all() {
        let (schedule, key) = (list.schedule, &list.key);
        let given = (schedule, list.size);
        assert_eq!(
            lea::encipher(schedule, key, &list.plain),
            Ok(list.cipher),
            "{given:?}"
        );
        assert_eq!(
            lea::decipher(schedule, key, &list.cipher),
            Ok(list.plain),
            "{given:?}"
        );
    }
}

#[test]
fn numbers() {
    assert_eq!(Schedule::ALL.map(Schedule::number), [0, 1]);
    for schedule in Schedule::ALL {
        assert_eq!(Schedule::numbered(schedule.number()), Ok(schedule));
    }
}

/// What every operation with a key tells of a schedule's number and a key, nothing else being right.
fn told(schedule: u8, key: &[u8]) -> [Option<u32>; 10] {
    let none = &mut [];
    [
        lea::encipher(schedule, key, &[]).err(),
        lea::decipher(schedule, key, &[]).err(),
        lea::first_rounds(schedule, key, 1, &[]).err(),
        lea::round_keys(schedule, key, 1).err(),
        lea::cbc_mac(schedule, key, &[]).err(),
        book::build(schedule, key, &[], none).err(),
        book::build_round(schedule, key, &[], 1, none).err(),
        reading::build(schedule, key, &[], none).err(),
        archive::open(schedule, key, &[], &[], &[], none).err(),
        archive::check(schedule, key, &[], &[], &[]).err(),
    ]
}

/// 34 for each number but two, whatever the key; by those two, 1 for a key of no size.
#[test]
fn refusals() {
    for (schedule, length) in (0..=255).flat_map(|n| [0, 15, 16, 24, 32, 33].map(|k| (n, k))) {
        let numbers = told(schedule, &vec![7; length]);
        let given = (schedule, length);
        match (schedule, length) {
            (0 | 1, 16 | 24 | 32) => assert!(!numbers.contains(&Some(34)), "{given:?}"),
            (0 | 1, _) => assert_eq!(numbers, [Some(1); 10], "{given:?}"),
            _ => assert_eq!(numbers, [Some(34); 10], "{given:?}"),
        }
    }
}
