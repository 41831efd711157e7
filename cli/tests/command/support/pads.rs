//! Pads made by the program, and what is done with one.

use super::tree::{get, mode, names};
use super::{command, run, Ran};
use reference::{Schedule, Size};
use std::process::Command;

/// The words for the schedules, in the order of their numbers.
pub const WORDS: [&str; 2] = ["lea", "wf-lea"];

/// A key size and the number of a schedule.
pub type Way = (Size, u8);

/// Runs a check on each key size with each schedule.
pub fn on_each_way(mut check: impl FnMut(Way)) {
    for size in Size::ALL {
        for schedule in Schedule::ALL.map(Schedule::number) {
            check((size, schedule));
        }
    }
}

/// `pallet` for so many pads from a first number on.
pub fn pallet((size, schedule): Way, first: usize, count: usize, dir: &str) -> Command {
    let numbers = [count, size.key_bytes(), first].map(|n| n.to_string());
    let [count, size, first] = &numbers;
    let (pallet, word) = ("pallet", WORDS[usize::from(schedule)]);
    let way = ["--key-size", size, "--schedule", word];
    command(&[&[pallet, "--count", count, "--first", first, dir], &way[..]].concat())
}

/// So many pads, made in a folder from number 1 on.
pub fn pads(way: Way, count: usize, dir: &str) -> Vec<Pad> {
    let ran = super::finish(&mut pallet(way, 1, count, dir));
    assert_eq!((ran.status, &ran.out[..]), (Some(0), &b""[..]), "{ran:?}");
    (1..=count).map(|number| Pad::new(dir, number)).collect()
}

/// One pad for 16-byte keys and LEA's schedule.
pub fn one_pad(dir: &str) -> Pad {
    pads((Size::Lea128, 0), 1, dir).remove(0)
}

/// A pad's folder.
#[derive(Clone, Debug)]
pub struct Pad {
    pub folder: String,
}

impl Pad {
    pub fn new(dir: &str, number: usize) -> Pad {
        let folder = format!("{dir}/{number:08}");
        Pad { folder }
    }

    /// The path of what is in it.
    pub fn at(&self, name: &str) -> String {
        format!("{}/{name}", self.folder)
    }

    /// The bytes of a file in it.
    pub fn get(&self, name: &str) -> Vec<u8> {
        get(&self.at(name))
    }

    pub fn seal(&self, message: &str, out: &str) -> Ran {
        self.seal_with(&[], message, out)
    }

    /// Sealing with remarks.
    pub fn seal_with(&self, remarks: &[&str], message: &str, out: &str) -> Ran {
        let (pad, driver) = (self.at("pad"), self.at("driver"));
        let args = ["seal", "--pad", &pad, "--driver", &driver, message, "-o"];
        let remarks = remarks.iter().flat_map(|remark| ["--remark", remark]);
        let args: Vec<&str> = args.into_iter().chain([out]).chain(remarks).collect();
        run(&args)
    }

    pub fn open(&self, ink: &str, out: &str) -> Ran {
        run(&["open", "--archive", &self.at("archive"), ink, "-o", out])
    }

    pub fn read(&self, ink: &str, out: &str) -> Ran {
        run(&["read", "--screen", &self.at("screen"), ink, "-o", out])
    }

    /// Its key size.
    pub fn size(&self) -> Size {
        Size::of_key(self.get("archive/key").len()).expect("a key")
    }

    /// The files that it must have, each with its length. The schedule's word is not counted.
    fn due(&self) -> [(&'static str, Option<usize>); 8] {
        let size = self.size();
        [
            ("pad/number", Some(8)),
            ("pad/message-set", Some(512)),
            ("driver/book", Some(size.book_bytes())),
            ("screen/reading-book", Some(size.reading_bytes())),
            ("screen/message-set", Some(512)),
            ("archive/schedule", None),
            ("archive/key", Some(size.key_bytes())),
            ("archive/last-set", Some(512)),
        ]
    }

    /// It must be whole: its files and nothing besides, their lengths and modes, its number and its schedule.
    pub fn is_whole(&self, (size, schedule): Way) {
        assert_eq!(self.size(), size, "{self:?}");
        let folders = ["archive", "driver", "pad", "screen"];
        assert_eq!(names(&self.folder), folders, "{self:?}");
        assert_eq!(mode(&self.folder), 0o700, "{self:?}");
        let mut files = vec![];
        for folder in folders {
            assert_eq!(mode(&self.at(folder)), 0o700, "{self:?}, {folder}");
            let inner = names(&self.at(folder)).into_iter();
            files.extend(inner.map(|name| format!("{folder}/{name}")));
        }
        files.sort();
        let mut due = self.due();
        due.sort_unstable();
        assert_eq!(files, due.map(|(name, _)| name), "{self:?}");
        for (name, length) in due {
            let bytes = self.get(name);
            assert_eq!(mode(&self.at(name)), 0o600, "{self:?}, {name}");
            assert_eq!(bytes.len(), length.unwrap_or(bytes.len()), "{name}");
        }
        let word = format!("{}\n", WORDS[usize::from(schedule)]);
        assert_eq!(self.get("archive/schedule"), word.as_bytes());
        let number = self.folder.rsplit('/').next().unwrap();
        assert_eq!(self.get("pad/number"), number.as_bytes());
    }

    /// It must seal a message, open it and read it; files are put into a folder.
    pub fn serves(&self, folder: &str) {
        let number = self.folder.rsplit('/').next().unwrap();
        let at = |name: &str| format!("{folder}/{number}.{name}");
        let (ink, opened, seen) = (at("ink"), at("opened"), at("read"));
        let message = super::tree::put(at("message"), b"Is this pad of any use?");
        self.seal(&message, &ink).silent();
        assert!(self.open(&ink, &opened).text().starts_with("Valid"));
        assert_eq!(self.read(&ink, &seen).status, Some(0));
        assert_eq!(get(&opened), get(&message), "{self:?}");
        assert_eq!(get(&seen), get(&message), "{self:?}");
    }
}
