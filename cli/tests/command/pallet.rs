//! Pallets: what is in their folders, numbers that are there already, and pallets that are stopped or killed.

use crate::support::pads::{on_each_way, pads, pallet, Pad, Way};
use crate::support::system::{bound, heeding_signals, signal, terminal};
use crate::support::system::{INTERRUPT, TERMINATE};
use crate::support::tree::{by_mode, fresh, kept, mode, names, put, tree};
use crate::support::{by_shell, command, ended, finish, run, wait_until};
use crate::support::{Ran, DENIED, MISSING, THERE};
use reference::Size;
use std::io::Read;
use std::process::Child;
use std::{fs, io, thread};

const WAY: Way = (Size::Lea128, 0);

/// Far more pads than are waited for.
const MANY: usize = 5_000;

/// A pallet under way, which is killed where a test fails, or it would go on for thousands of pads.
struct UnderWay(Option<Child>);

impl UnderWay {
    fn id(&self) -> u32 {
        self.0.as_ref().expect("it is under way").id()
    }

    fn kill(&mut self) {
        if let Some(mut child) = self.0.take() {
            child.kill().unwrap();
            child.wait().unwrap();
        }
    }

    /// What it ends with after a signal.
    fn stopped_by(mut self, stop: i32) -> Ran {
        signal(self.id(), stop);
        ended(self.0.take().expect("it is under way"))
    }
}

impl Drop for UnderWay {
    fn drop(&mut self) {
        self.kill();
    }
}

/// The pads in a folder, and the other names.
fn found(dir: &str) -> (Vec<Pad>, Vec<String>) {
    let is_number = |name: &String| name.len() == 8 && name.parse::<u32>().is_ok();
    let (numbers, others) = names(dir).into_iter().partition(is_number);
    let pad = |name: String| Pad::new(dir, name.parse().unwrap());
    let numbers: Vec<String> = numbers;
    (numbers.into_iter().map(pad).collect(), others)
}

/// Pads in any number of jobs: whole, and their numbers are due. What else is in the folder stays.
#[test]
fn whole_pads() {
    on_each_way(|way| {
        for (jobs, first) in [("1", 1), ("2", 41), ("5", 99_999_997)] {
            let dir = fresh("whole-pads");
            put(format!("{dir}/notes"), b"stay");
            let ran = finish(pallet(way, first, 3, &dir).args(["--jobs", jobs]));
            assert_eq!((ran.status, &ran.out[..]), (Some(0), &b""[..]), "{ran:?}");
            tells(&ran);
            let (pads, others) = found(&dir);
            let due: Vec<String> = (first..first + 3)
                .map(|n| format!("{dir}/{n:08}"))
                .collect();
            let folders: Vec<&str> = pads.iter().map(|pad| &pad.folder[..]).collect();
            assert_eq!(
                (folders, others),
                (due.iter().map(|f| &f[..]).collect(), vec!["notes".into()])
            );
            pads.iter().for_each(|pad| pad.is_whole(way));
        }
    });
}

/// The last line tells of three pads and their books, and of time.
fn tells(ran: &Ran) {
    let last = ran.err.lines().last().unwrap_or_default();
    let words = ["3 of 3 pads", "6 books", " s: ", "books/s"];
    assert!(words.iter().all(|word| last.contains(word)), "{ran:?}");
}

/// The folder is made where its parent is there, and modes do not depend on the umask. LEA's schedule and the
/// number 1 come without being asked for.
#[test]
fn modes_and_defaults() {
    for umask in ["umask 0;", "umask 077;"] {
        let dir = format!("{}/pallet", fresh("modes"));
        let args = ["pallet", "--count", "2", "--key-size=24", &dir];
        let mut shell = by_shell(umask, "", &args);
        assert_eq!(finish(&mut shell).status, Some(0), "{umask}");
        assert_eq!(mode(&dir), 0o700, "{umask}");
        assert_eq!(names(&dir), ["00000001", "00000002"]);
        found(&dir)
            .0
            .iter()
            .for_each(|pad| pad.is_whole((Size::Lea192, 0)));
    }
}

/// What is one station's alone.
const SECRETS: [&str; 4] = [
    "archive/key",
    "archive/last-set",
    "pad/message-set",
    "screen/message-set",
];

/// What leaves the works.
const SHIPPED: [&str; 5] = [
    "pad/number",
    "pad/message-set",
    "driver/book",
    "screen/reading-book",
    "screen/message-set",
];

/// What leaves the works has neither the key nor a set of another station in it.
fn keeps_its_secrets(pad: &Pad) {
    for file in SHIPPED {
        let bytes = pad.get(file);
        for secret in SECRETS.into_iter().filter(|secret| *secret != file) {
            let front = &pad.get(secret)[..16];
            let held = bytes.windows(16).any(|part| part == front);
            assert!(!held, "{file} holds what {secret} begins with");
        }
    }
}

/// No two pads share a key, a set or a book, and no key is all zeros.
#[test]
fn nothing_is_shared() {
    let dir = fresh("shared");
    on_each_way(|way| {
        let here = format!("{dir}/{}-{}", way.0.key_bytes(), way.1);
        let mut seen: Vec<Vec<u8>> = vec![];
        for pad in pads(way, 4, &here) {
            keeps_its_secrets(&pad);
            let books = ["driver/book", "screen/reading-book"];
            seen.extend(SECRETS.iter().chain(&books).map(|file| pad.get(file)));
            assert!(pad.get("archive/key").iter().any(|&x| x != 0));
        }
        let count = seen.len();
        seen.sort();
        seen.dedup();
        assert_eq!(seen.len(), count, "two files are the same");
    });
}

/// A number that is there already, as a folder or as a file, first or last: nothing is made.
#[test]
fn numbers_that_are_there() {
    let dir = fresh("numbers");
    pads(WAY, 1, &dir);
    put(format!("{dir}/00000007"), b"");
    for (first, count, there) in [(1, 1, 1), (1, 3, 1), (5, 3, 7), (7, 2, 7), (6, 4, 7)] {
        let ran = kept(&dir, || finish(&mut pallet(WAY, first, count, &dir)));
        let what = format!("the pad {dir}/{there:08}");
        ran.hindered("pallet", &what, THERE);
    }
}

/// Folders that are none, or cannot be made or written to.
#[test]
fn no_such_folder() {
    let dir = fresh("no-folder");
    let file = put(format!("{dir}/file"), b"");
    for (name, error) in [
        ("none/pallet", MISSING),
        ("file", "os error "),
        ("file/pallet", "Not a directory (os error 20)"),
    ] {
        let at = format!("{dir}/{name}");
        let ran = kept(&dir, || finish(&mut pallet(WAY, 1, 1, &at)));
        ran.hindered_by(&["bowlinette pallet: ", &at, error]);
    }
    if bound(&mut command(&["--version"])).output().is_err() {
        return eprintln!("no_such_folder: nobody cannot run the program here");
    }
    let at = format!("{dir}/pallet");
    by_mode(&dir, 0o555);
    let ran = [&dir, &at].map(|path| finish(bound(&mut pallet(WAY, 1, 1, path))));
    by_mode(&dir, 0o755);
    for (ran, path) in ran.iter().zip([&dir, &at]) {
        ran.hindered_by(&["bowlinette pallet: ", path, DENIED]);
    }
    assert_eq!(names(&dir), ["file"], "{file}");
}

/// A pallet of many pads from a number on, which has made some of them.
fn under_way(first: usize, some: usize, dir: &str) -> UnderWay {
    let mut pallet = pallet(WAY, first, MANY, dir);
    let mut child = heeding_signals(&mut pallet).spawn().unwrap();
    // What it tells of its progress is read to the end, or it would wait for a reader.
    let mut err = child.stderr.take().unwrap();
    thread::spawn(move || io::copy(&mut err, &mut io::sink()));
    let at_work = UnderWay(Some(child));
    let begin = Pad::new(dir, first).folder;
    wait_until("some pads", || {
        let made = found(dir).0.into_iter();
        made.filter(|pad| pad.folder >= begin).count() >= some
    });
    at_work
}

/// Every pad there must be whole, and the first and the last of use.
fn all_whole(dir: &str) {
    let (pads, _) = found(dir);
    assert!(!pads.is_empty() && pads.len() < MANY, "{} pads", pads.len());
    pads.iter().for_each(|pad| pad.is_whole(WAY));
    let files = fresh(&format!("{}-files", dir.rsplit('/').next().unwrap()));
    for pad in [&pads[0], &pads[pads.len() - 1]] {
        let _ = fs::remove_dir_all(&files);
        fs::create_dir(&files).unwrap();
        pad.serves(&files);
    }
}

/// One folder is there besides the pads: where a process had or has pads in the making.
fn is_staging_of(id: u32, others: &[String]) {
    let begin = format!(".pallet-{id}-");
    let one = others.len() == 1 && others[0].starts_with(&begin);
    assert!(one, "{others:?} is not that of {id}");
}

/// Killed at once, in the middle of a pad: only whole pads have a number, and the next pallet clears away what
/// was in the making.
#[test]
fn killed() {
    let dir = fresh("killed");
    for (round, some) in [1, 2, 4, 7].into_iter().enumerate() {
        let first = 10_000 * round + 1;
        let mut child = under_way(first, some, &dir);
        let id = child.id();
        child.kill();
        is_staging_of(id, &found(&dir).1);
    }
    all_whole(&dir);
    let before = found(&dir).0.len();
    let ran = finish(&mut pallet(WAY, 50_000, 2, &dir));
    assert_eq!(ran.status, Some(0), "{ran:?}");
    let (pads, others) = found(&dir);
    assert_eq!((pads.len(), others.len()), (before + 2, 0), "{others:?}");
    all_whole(&dir);
}

/// Stopped by a signal: status 3, whole pads stay, and nothing else.
#[test]
fn stopped() {
    for stop in [INTERRUPT, TERMINATE] {
        let dir = fresh(&format!("stopped-{stop}"));
        let ran = under_way(1, 3, &dir).stopped_by(stop);
        assert_eq!(ran.status, Some(3), "{ran:?}");
        assert_eq!(found(&dir).1, [""; 0]);
        all_whole(&dir);
    }
}

/// Another pallet into the same folder leaves one alone that is at work, and both go through.
#[test]
fn two_at_once() {
    let dir = fresh("at-once-pallets");
    let child = under_way(1, 1, &dir);
    let ran = finish(&mut pallet(WAY, 50_000, 3, &dir));
    assert_eq!(ran.status, Some(0), "{ran:?}");
    let (pads, others) = found(&dir);
    is_staging_of(child.id(), &others);
    wait_until("it goes on", || found(&dir).0.len() > pads.len());
    assert_eq!(child.stopped_by(INTERRUPT).status, Some(3));
    assert_eq!(found(&dir).1, [""; 0]);
    all_whole(&dir);
    let both = [60_001, 70_001].map(|first| pallet(WAY, first, 6, &dir).spawn().unwrap());
    for ran in both.map(ended) {
        assert_eq!(ran.status, Some(0), "{ran:?}");
    }
    let numbers = |from: usize| (from..from + 6).map(|n| Pad::new(&dir, n));
    for pad in numbers(60_001).chain(numbers(70_001)) {
        pad.is_whole(WAY);
    }
    assert_eq!(found(&dir).1, [""; 0]);
}

/// Many that begin at the same time find each other's folders made, not yet locked, and gone: all go through.
#[test]
fn many_begin_at_once() {
    for round in 0..20 {
        let dir = fresh("begin-at-once");
        let start = |number| pallet(WAY, number, 1, &dir).spawn().unwrap();
        let all: Vec<Child> = (1..=8).map(start).collect();
        for ran in all.into_iter().map(ended) {
            assert_eq!(ran.status, Some(0), "round {round}: {ran:?}");
        }
        let (pads, others) = found(&dir);
        assert_eq!((pads.len(), others.len()), (8, 0), "round {round}");
    }
}

/// Two at once with the same numbers: each number is one whole pad, and one of the two finds some there.
#[test]
fn two_at_once_with_the_same_numbers() {
    let dir = fresh("same-numbers");
    let both = [(); 2].map(|()| pallet(WAY, 1, 4, &dir).spawn().unwrap());
    let ran = both.map(ended);
    let done = ran.iter().filter(|ran| ran.status == Some(0)).count();
    assert!(done <= 1, "{ran:?}");
    for ran in ran.iter().filter(|ran| ran.status != Some(0)) {
        let last = ran.err.lines().last().unwrap_or_default();
        assert!(ran.status == Some(3) && last.ends_with(THERE), "{ran:?}");
    }
    let (pads, others) = found(&dir);
    assert_eq!(others, [""; 0]);
    assert!(!pads.is_empty());
    pads.iter().for_each(|pad| pad.is_whole(WAY));
}

/// On a terminal there is a bar, from the beginning, which the last line takes the place of.
#[test]
fn a_bar_on_a_terminal() {
    let dir = fresh("bar");
    let (mut person, programs) = match terminal() {
        Ok(ends) => ends,
        Err(error) => return eprintln!("no terminal here ({error}), so the bar is not looked at"),
    };
    let mut child = pallet(WAY, 1, 3, &dir).stderr(programs).spawn().unwrap();
    // One read may bring a part of it alone. Where no program is left, a terminal tells an error.
    let mut shown = Vec::new();
    let _ = person.read_to_end(&mut shown);
    assert_eq!(child.wait().unwrap().code(), Some(0));
    let shown = String::from_utf8_lossy(&shown);
    let bar = format!("\r[{}] 0 of 3 pads", " ".repeat(40));
    assert!(shown.starts_with(&bar), "{shown:?}");
    let last = shown
        .rsplit('\r')
        .find(|line| line.len() > 1)
        .unwrap_or_default();
    let whole = last.starts_with("\x1b[K3 of 3 pads, 6 books in ") && last.contains("books/s");
    assert!(whole, "{shown:?}");
}

/// Signals that whoever called it had ignored stay ignored, as by `nohup`.
#[test]
fn ignored_signals() {
    let dir = format!("{}/pallet", fresh("ignored"));
    let args = ["pallet", "--count=200", "--key-size=16", &dir];
    let child = by_shell("trap '' INT;", "", &args).spawn().unwrap();
    wait_until("a pad", || fs::metadata(format!("{dir}/00000001")).is_ok());
    signal(child.id(), INTERRUPT);
    assert_eq!(ended(child).status, Some(0));
    assert_eq!(names(&dir).len(), 200);
}

/// What a user keeps in hidden folders of other names stays.
#[test]
fn other_hidden_folders_stay() {
    let dir = fresh("hidden");
    for name in [".kept", ".pallet-notes", ".pallet-1", ".pallet-1-2-3"] {
        fs::create_dir(format!("{dir}/{name}")).unwrap();
        put(format!("{dir}/{name}/note"), b"stay");
    }
    let before = tree(&dir);
    pads(WAY, 1, &dir);
    let after = tree(&dir);
    assert!(before
        .iter()
        .all(|(path, entry)| after.get(path) == Some(entry)));
    run(&["show", &format!("{dir}/.kept/note")]).refused_at(
        "show",
        &format!("the ink file {dir}/.kept/note"),
        30,
        0,
    );
}
