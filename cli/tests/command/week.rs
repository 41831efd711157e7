//! A pad's week by commands: made, sealed with, shown, read on the screen, opened and checked in the archive.

use crate::support::pads::{on_each_way, one_pad, pads, Pad, Way, WORDS};
use crate::support::tree::{fresh, get, kept, mode, put, tree};
use crate::support::{run, run_with};
use reference::Size;
use shared::Random;

const MESSAGE: &[u8] = b"The same as last week, and two pounds of coffee.\n\0\xff";

fn name((size, schedule): Way) -> String {
    format!("{}-{}", size.key_bytes(), WORDS[usize::from(schedule)])
}

/// By files, on each way.
#[test]
fn a_week() {
    on_each_way(|way| {
        let dir = fresh(&format!("week-{}", name(way)));
        let pad = pads(way, 1, &format!("{dir}/pallet")).remove(0);
        pad.is_whole(way);
        let at = |name: &str| format!("{dir}/{name}");
        let (ink, read, opened) = (at("week.ink"), at("read"), at("opened"));
        let message = put(at("message"), MESSAGE);
        let remarks = ["1f:Monday", "10:", "1f:with a : in it"];
        pad.seal_with(&remarks, &message, &ink).silent();
        let shown = run(&["show", &ink]).text();
        assert!(shown.contains("Monday"), "{shown}");
        let ran = pad.read(&ink, &read);
        assert_eq!((ran.status, &ran.out[..]), (Some(0), &b""[..]), "{ran:?}");
        let begin = "bowlinette read: nothing was verified: ";
        assert!(ran.line().starts_with(begin), "{ran:?}");
        is_valid(&pad.open(&ink, &opened).text());
        for out in [&read, &opened] {
            assert_eq!((mode(out), &get(out)[..]), (0o600, MESSAGE), "{out}");
        }
    });
}

/// The first word of a line that tells of a tag.
fn is_valid(line: &str) {
    let words = line.split(|c: char| !c.is_alphabetic());
    assert_eq!(words.take(1).collect::<Vec<_>>(), ["Valid"], "{line}");
    assert_eq!(line.matches('\n').count(), 1, "{line}");
}

/// By streams, on each way: what goes in and comes out is the same, and nothing else is on standard output.
#[test]
fn a_week_by_streams() {
    on_each_way(|way| {
        let dir = fresh(&format!("streams-{}", name(way)));
        let pad = pads(way, 1, &format!("{dir}/pallet")).remove(0);
        let [paper, driver, archive, screen] = ["pad", "driver", "archive", "screen"];
        let (paper, driver) = (pad.at(paper), pad.at(driver));
        let (archive, screen) = (pad.at(archive), pad.at(screen));
        kept(&dir, || {
            let seal = ["seal", "--pad", &paper, "--driver", &driver, "-", "-o", "-"];
            let ink = run_with(&seal, MESSAGE).done();
            let shown = run_with(&["show", "-"], &ink).text();
            assert_eq!(shown.lines().count(), 5, "{shown}");
            let ran = run_with(&["open", "--archive", &archive, "-", "-o", "-"], &ink);
            assert_eq!((ran.status, &ran.out[..]), (Some(0), MESSAGE), "{ran:?}");
            is_valid(&ran.err);
            let ran = run_with(&["read", "--screen", &screen, "-", "-o", "-"], &ink);
            assert_eq!((ran.status, &ran.out[..]), (Some(0), MESSAGE), "{ran:?}");
            assert!(ran.line().contains("nothing was verified"), "{ran:?}");
        });
    });
}

/// Messages of lengths around those of blocks, of a day's work, and the longest.
#[test]
fn every_length() {
    let dir = fresh("lengths");
    let pad = one_pad(&format!("{dir}/pallet"));
    let mut random = Random(11);
    for length in [0, 1, 15, 16, 17, 9_412, 1_048_575] {
        let at = |name: &str| format!("{dir}/{length}.{name}");
        let (ink, opened, read) = (at("ink"), at("opened"), at("read"));
        let message = put(at("message"), &random.bytes(length));
        pad.seal(&message, &ink).silent();
        assert_eq!(get(&ink).len(), 64 + length / 16 * 16 + 16, "{length}");
        is_valid(&pad.open(&ink, &opened).text());
        assert_eq!(pad.read(&ink, &read).status, Some(0), "{length}");
        assert!(get(&opened) == get(&message), "{length} bytes opened");
        assert!(get(&read) == get(&message), "{length} bytes read");
    }
}

/// One byte more than the longest message is refused, from a file and from standard input.
#[test]
fn one_byte_too_many() {
    let dir = fresh("too-long");
    let pad = one_pad(&format!("{dir}/pallet"));
    let bytes = vec![7; 1_048_576];
    let (message, ink) = (put(format!("{dir}/message"), &bytes), format!("{dir}/ink"));
    let (paper, driver) = (pad.at("pad"), pad.at("driver"));
    kept(&dir, || {
        let what = format!("the message {message}");
        pad.seal(&message, &ink).refused("seal", &what, 8);
        let seal = [
            "seal", "--pad", &paper, "--driver", &driver, "-", "-o", &ink,
        ];
        let what = "the message on standard input";
        run_with(&seal, &bytes).refused("seal", what, 8);
    });
}

/// The same message sealed twice: another IV, other sealed blocks, and the same pad number.
#[test]
fn sealed_twice() {
    let dir = fresh("twice");
    let pad = one_pad(&format!("{dir}/pallet"));
    let message = put(format!("{dir}/message"), MESSAGE);
    let [one, other] = ["one", "other"].map(|name| {
        let ink = format!("{dir}/{name}");
        pad.seal(&message, &ink).silent();
        get(&ink)
    });
    assert_eq!(one[..20], other[..20], "the pad number, and the IV's head");
    assert_ne!(one[20..36], other[20..36], "the IV");
    assert_ne!(one[42..58], other[42..58], "the first sealed block");
    assert_eq!(one[one.len() - 16..], other[other.len() - 16..], "the tag");
}

/// Opened by a pad's archive: Invalid, and nothing is written.
fn is_invalid(pad: &Pad, dir: &str, ink: &str) {
    let ran = kept(dir, || pad.open(ink, &format!("{dir}/opened")));
    assert_eq!((ran.status, &ran.err[..]), (Some(1), ""), "{ran:?}");
    let line = String::from_utf8(ran.out).unwrap();
    assert!(line.starts_with("Invalid"), "{line}");
    assert_eq!(line.matches('\n').count(), 1, "{line}");
}

/// A bit of each record turned over: the tag speaks of IV, sealed blocks and itself, and of nothing else.
#[test]
fn bits_turned_over() {
    let dir = fresh("bits");
    let pad = one_pad(&format!("{dir}/pallet"));
    let message = put(format!("{dir}/message"), MESSAGE);
    let ink = format!("{dir}/ink");
    pad.seal_with(&["1f:Monday"], &message, &ink).silent();
    let (whole, end) = (get(&ink), get(&ink).len() - 12);
    let other = |at: usize, bit: u8| {
        let mut file = whole.clone();
        file[at] ^= bit;
        put(format!("{dir}/other"), &file)
    };
    let sealed = [42, 57, 58, end - 6 - 16 - 1];
    for at in [20, 35, end - 16, end - 1].into_iter().chain(sealed) {
        for bit in [0x01, 0x80] {
            is_invalid(&pad, &dir, &other(at, bit));
        }
    }
    for at in [6, 13, end + 6, whole.len() - 1] {
        let opened = format!("{dir}/opened-{at}");
        is_valid(&pad.open(&other(at, 1), &opened).text());
        assert_eq!(get(&opened), MESSAGE);
    }
}

/// What is Invalid is told with `-` as output too, and alike whether padding is found or not.
#[test]
fn invalid_is_told_alike() {
    let dir = fresh("alike");
    let pad = one_pad(&format!("{dir}/pallet"));
    let message = put(format!("{dir}/message"), MESSAGE);
    let ink = format!("{dir}/ink");
    pad.seal(&message, &ink).silent();
    let whole = get(&ink);
    let archive = pad.at("archive");
    let mut told: Vec<String> = vec![];
    // The last byte of padding is reached through the block before; a wrong tag leaves the padding right.
    for at in [whole.len() - 1, 42 + 48 - 1, 42 + 63] {
        let mut file = whole.clone();
        file[at] ^= 0x10;
        let ran = run_with(&["open", "--archive", &archive, "-", "-o", "-"], &file);
        assert_eq!((ran.status, &ran.out[..]), (Some(1), &b""[..]), "{ran:?}");
        told.push(ran.err);
    }
    assert!(told[0].starts_with("Invalid"), "{told:?}");
    assert!(told.iter().all(|line| *line == told[0]), "{told:?}");
}

/// Opened with another pad's archive, or by the other schedule; and read on another pad's screen.
#[test]
fn another_pad_and_another_schedule() {
    let dir = fresh("another");
    let both = pads((Size::Lea192, 0), 2, &format!("{dir}/pallet"));
    let message = put(format!("{dir}/message"), MESSAGE);
    let ink = format!("{dir}/ink");
    both[0].seal(&message, &ink).silent();
    is_invalid(&both[1], &dir, &ink);
    let read = format!("{dir}/read");
    let ran = both[1].read(&ink, &read);
    match ran.status {
        Some(0) => assert_ne!(get(&read), MESSAGE),
        _ => {
            ran.refused("read", &format!("the ink file {ink}"), 11);
            assert!(!tree(&dir).contains_key("read"));
        }
    }
    put(both[0].at("archive/schedule"), b"wf-lea\n");
    is_invalid(&both[0], &dir, &ink);
    put(both[0].at("archive/schedule"), b"lea");
    is_valid(&both[0].open(&ink, &format!("{dir}/opened")).text());
    assert_eq!(get(&format!("{dir}/opened")), MESSAGE);
}
