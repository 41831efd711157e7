//! A disk that is full, by a limit on the length of files and, where the test may, on a small disk; and a system
//! that lets no thread be started.

use crate::support::desk::{Desk, WRITING};
use crate::support::pads::{pallet, Pad};
use crate::support::system::{with_short_files, with_small_disk, without_threads};
use crate::support::tree::{by_mode, fresh, kept, names, put};
use crate::support::{command, finish, run, Ran, FULL, LARGE};
use reference::Size;
use shared::Random;
use std::fs;
use std::thread;

/// A desk with a message of 100,000 bytes, sealed.
fn desk_with_long_message(name: &str) -> Desk {
    let desk = Desk::new(name);
    put(desk.at("message"), &Random(21).bytes(100_000));
    fs::remove_file(desk.at("ink")).unwrap();
    desk.pad.seal(&desk.at("message"), &desk.at("ink")).silent();
    desk
}

/// What was written breaks off in the middle, or at once: nothing of it is left.
#[test]
fn files_of_limited_length() {
    let desk = desk_with_long_message("limit");
    let what = format!("the output {}", desk.at("out"));
    for name in WRITING {
        for limit in [0, 50_000, 99_999] {
            let ran = kept(&desk.pad.folder, || {
                finish(with_short_files(&mut desk.command(name), limit))
            });
            ran.hindered(name, &what, LARGE);
        }
    }
}

/// A pallet whose books are too long for the disk: no pad, and no folder of pads in the making.
#[test]
fn a_pallet_of_limited_length() {
    let dir = fresh("pallet-limit");
    let mut pallet = pallet((Size::Lea128, 0), 1, 3, &dir);
    let ran = finish(with_short_files(&mut pallet, 300_000));
    pallet_failed(&ran, LARGE);
    assert_eq!(names(&dir), [""; 0]);
}

/// The last line is the failure's; lines of progress may stand before it.
fn pallet_failed(ran: &Ran, error: &str) {
    let last = ran.err.lines().last().unwrap_or_default();
    let named = last.starts_with("bowlinette pallet: the pad ") && last.ends_with(error);
    assert!(named && ran.status == Some(3), "{ran:?}");
    assert!(ran.out.is_empty(), "{ran:?}");
}

/// Runs a check in a folder that is a small disk of its own; says so where there can be none.
fn on_a_small_disk(name: &str, bytes: usize, check: impl FnOnce(&str) + Send) {
    let dir = fresh(name);
    thread::scope(|scope| {
        scope.spawn(move || match with_small_disk(&dir, bytes) {
            Ok(()) => check(&dir),
            Err(error) => eprintln!("{name}: no small disk here ({error}), so it is not tested"),
        });
    });
}

/// A disk with room for half of what is written.
#[test]
fn files_on_a_small_disk() {
    let desk = desk_with_long_message("small-disk-desk");
    on_a_small_disk("small-disk", 65_536, |dir| {
        let out = format!("{dir}/out");
        for name in WRITING {
            let args = desk.args_with(name, &desk.operand(name), &out);
            run(&args).hindered(name, &format!("the output {out}"), FULL);
            assert_eq!(names(dir), [""; 0], "{name}");
        }
    });
}

/// A disk with room for some pads: whole ones stay, and nothing else.
#[test]
fn a_pallet_on_a_small_disk() {
    on_a_small_disk("small-pallet", 5_000_000, |dir| {
        let way = (Size::Lea128, 1);
        let ran = finish(&mut pallet(way, 1, 40, dir));
        pallet_failed(&ran, FULL);
        let pads = names(dir);
        assert!((2..=5).contains(&pads.len()), "{pads:?}");
        for name in &pads {
            Pad::new(dir, name.parse().expect("a number")).is_whole(way);
        }
    });
}

/// A full disk and then room: what could not be written is written the next time.
#[test]
fn room_again() {
    let desk = desk_with_long_message("room-again");
    for name in WRITING {
        let args = desk.args(name);
        assert_eq!(
            finish(with_short_files(&mut command(&args), 10)).status,
            Some(3)
        );
        assert_eq!(run(&args).status, Some(0), "{name}");
        fs::remove_file(desk.at("out")).unwrap();
    }
}

/// Where no thread can be started, a command does without, or says that the system said no.
#[test]
fn no_more_threads() {
    let dir = fresh("no-threads");
    by_mode(&dir, 0o777);
    let at = |name: &str| format!("{dir}/{name}");
    if without_threads(&mut command(&["--version"]))
        .output()
        .is_err()
    {
        return eprintln!("no_more_threads: nobody else cannot run the program here");
    }
    let mut one = pallet((Size::Lea128, 0), 1, 1, &at("pallet"));
    assert_eq!(finish(without_threads(&mut one)).status, Some(0));
    let pad = Pad::new(&at("pallet"), 1);
    let (message, ink) = (put(at("message"), b"by one alone"), at("ink"));
    let (paper, driver) = (pad.at("pad"), pad.at("driver"));
    let seal = [
        "seal", "--pad", &paper, "--driver", &driver, &message, "-o", &ink,
    ];
    let mut four = pallet((Size::Lea128, 0), 2, 4, &at("pallet"));
    for command in [&mut command(&seal), four.args(["--jobs", "4"])] {
        let ran = finish(without_threads(command));
        assert!([Some(0), Some(3)].contains(&ran.status), "{ran:?}");
        assert!(ran.err.lines().count() <= 4, "{ran:?}");
    }
}
