//! The command `bowlinette` beside the library's own calls: a pallet beside building, sealing and opening of the
//! longest message beside the calls that they are made of.

use crate::timing::shown;
use bowlinette::Session;
use reference::Size;
use shared::maker::enough;
use shared::schedules::LEA;
use shared::Random;
use std::fs::{self, File};
use std::hint::black_box as hide;
use std::io::Read;
use std::path::{Path, PathBuf};
use std::process::{Command, Stdio};
use std::time::Instant;

const PADS: usize = 300;
const RUNS: usize = 20;
const LONGEST: usize = 1_048_575;
const PAD: &str = "00000001";

/// The fastest of some runs, in nanoseconds, each after a preparation that does not count.
fn fastest(mut prepare: impl FnMut(), mut run: impl FnMut()) -> f64 {
    let mut best = f64::INFINITY;
    for _ in 0..RUNS {
        prepare();
        let start = Instant::now();
        run();
        best = best.min(start.elapsed().as_nanos() as f64);
    }
    best
}

/// Where the command is, and a folder to work in.
struct Bench {
    command: PathBuf,
    folder: PathBuf,
}

impl Bench {
    fn run(&self, arguments: &[&str]) {
        let mut command = Command::new(&self.command);
        command.args(arguments).current_dir(&self.folder);
        let status = command
            .stdout(Stdio::null())
            .stderr(Stdio::null())
            .status()
            .expect("the command runs");
        assert!(status.success(), "{arguments:?}: {status}");
    }

    fn remove(&self, name: &str) {
        let path = self.folder.join(name);
        let _ = fs::remove_dir_all(&path).or_else(|_| fs::remove_file(&path));
    }

    fn pallet(&self, size: Size, count: usize) {
        let (count, key) = (count.to_string(), size.key_bytes().to_string());
        self.run(&["pallet", "--count", &count, "--key-size", &key, "pads"]);
    }

    fn read(&self, name: &str) -> Vec<u8> {
        fs::read(self.folder.join("pads").join(PAD).join(name)).expect("a pad's file")
    }
}

/// The library's calls for one pad.
fn build(size: Size, random: &[u8], room: &mut Room) {
    let (key, mut drawn) = (&random[..size.key_bytes()], 0);
    let last = 512 * (size.rounds() + 1);
    hide(bowlinette::make_chain(
        key.len(),
        hide(random),
        &mut room.chain,
        &mut drawn,
    ));
    let set = &room.chain[last..][..512];
    hide(bowlinette::make_reading_chain(
        key.len(),
        set,
        hide(random),
        &mut room.reading_chain,
        &mut drawn,
    ));
    hide(bowlinette::build(LEA, key, &room.chain, &mut room.book));
    hide(bowlinette::build_reading(
        LEA,
        key,
        &room.reading_chain,
        &mut room.reading_book,
    ));
}

/// What is made for one pad.
struct Room {
    chain: Vec<u8>,
    reading_chain: Vec<u8>,
    book: Vec<u8>,
    reading_book: Vec<u8>,
}

impl Room {
    fn new(size: Size) -> Room {
        Room {
            chain: vec![0; size.chain_bytes()],
            reading_chain: vec![0; size.chain_bytes()],
            book: vec![0; size.book_bytes()],
            reading_book: vec![0; size.reading_bytes()],
        }
    }

    /// A pad's files, written as plainly as can be.
    fn write(&self, folder: &Path) {
        for station in ["pad", "driver", "screen", "archive"] {
            fs::create_dir_all(folder.join(station)).expect("a folder");
        }
        let files: [(&str, &[u8]); 8] = [
            ("pad/number", &self.chain[..8]),
            ("pad/message-set", &self.chain[..512]),
            ("driver/book", &self.book),
            ("screen/reading-book", &self.reading_book),
            ("screen/message-set", &self.chain[..512]),
            ("archive/schedule", b"lea\n"),
            ("archive/key", &self.chain[..16]),
            ("archive/last-set", &self.chain[..512]),
        ];
        for (name, bytes) in files {
            fs::write(folder.join(name), bytes).expect("a file");
        }
    }
}

/// A pad of a pallet on all cores, beside what it is made of on one: building, the generator, and writing.
fn pallet(bench: &Bench, size: Size, cores: usize) {
    let mut random = Random(1).bytes(enough(size));
    let mut room = Room::new(size);
    let each = PADS as f64;
    let built = fastest(
        || (),
        || (0..PADS).for_each(|_| build(size, &random, &mut room)),
    ) / each;
    let mut generator = File::open("/dev/urandom").expect("a generator");
    let mut draw = || {
        for _ in 0..2 * PADS {
            generator.read_exact(&mut random).expect("random bytes");
        }
    };
    let drawn = fastest(|| (), &mut draw) / each;
    let plain = bench.folder.join("plain");
    let write = || (0..PADS).for_each(|k| room.write(&plain.join(k.to_string())));
    let written = fastest(|| bench.remove("plain"), write) / each;
    bench.remove("plain");
    let made = fastest(|| bench.remove("pads"), || bench.pallet(size, PADS)) / each;
    let (all, share) = (built + drawn + written, made * cores as f64);
    println!(
        "pallet, key of {}: building {}, generator {}, writing {}; a pad {}, times {cores} cores {:.2} of building, {:.2} of all three",
        size.key_bytes(),
        shown(built),
        shown(drawn),
        shown(written),
        shown(made),
        share / built,
        share / all,
    );
}

/// The library's calls of sealing: coded twice, sealed, tagged, written as an ink file.
fn seal(set: &[u8], book: &[u8], message: &[u8], room: &mut [Vec<u8>; 3]) {
    let [coded, sealed, file] = room;
    let (mut n, mut kind, iv, mut tag) = (0, 0, [7; 16], [0; 16]);
    hide(bowlinette::code_for_sealing(set, message, coded, &mut n));
    hide(bowlinette::seal(book, &iv, coded, sealed, &mut n));
    hide(bowlinette::code_for_tag(
        set, message, coded, &mut n, &mut kind,
    ));
    let mut session = Session::of([0; 16], 0, 0);
    hide(session.begin(book));
    let (front, last) = coded[..n as usize].split_at(n as usize - 16);
    for block in front.chunks_exact(16) {
        hide(session.block_call(book, block));
    }
    hide(session.last_call(book, last, kind, &mut tag));
    let fields = [&message[..8], &iv, sealed, &tag];
    hide(bowlinette::write_ink(fields, &[], [&[]; 4], file, &mut n));
}

/// The library's calls of opening: the ink file read, opened, and its tag checked.
fn open(key: &[u8], set: &[u8], file: &[u8], room: &mut [u8]) -> u32 {
    let (mut numbers, mut n) = ([0; 18], 0);
    hide(bowlinette::read_ink(file, &mut numbers));
    let part = |at: u64, length: u64| &file[at as usize..][..length as usize];
    let (iv, sealed) = (part(numbers[1], 16), part(numbers[2], numbers[3]));
    hide(bowlinette::open(LEA, key, set, iv, sealed, room, &mut n));
    let (message, tag) = (&room[..n as usize], part(numbers[4], 16));
    bowlinette::is_valid(LEA, key, set, message, tag)
}

/// A command beside the calls, whole, and without what it takes to start one that does nothing.
fn beside(name: &str, size: Size, [command, start, calls]: [f64; 3]) {
    println!(
        "{name} of {LONGEST} bytes, key of {}: the calls {}, the command {}: {:.2}, without its start {:.2}",
        size.key_bytes(),
        shown(calls),
        shown(command),
        command / calls,
        (command - start) / calls,
    );
}

/// The longest message sealed and opened.
fn longest(bench: &Bench, size: Size, start: f64) {
    let message = Random(2).bytes(LONGEST);
    fs::write(bench.folder.join("message"), &message).expect("a message");
    bench.remove("pads");
    bench.pallet(size, 1);
    let (set, book) = (bench.read("pad/message-set"), bench.read("driver/book"));
    let mut room = [1 << 20, 1 << 20, (1 << 20) + 64].map(|n| vec![0; n]);
    let calls = fastest(|| (), || seal(&set, &book, &message, &mut room));
    let (pad, driver) = (&format!("pads/{PAD}/pad"), &format!("pads/{PAD}/driver"));
    let arguments = [
        "seal", "--pad", pad, "--driver", driver, "message", "-o", "ink",
    ];
    let command = fastest(|| bench.remove("ink"), || bench.run(&arguments));
    beside("seal", size, [command, start, calls]);

    let (key, set) = (bench.read("archive/key"), bench.read("archive/last-set"));
    let file = fs::read(bench.folder.join("ink")).expect("an ink file");
    let mut valid = 0;
    let calls = fastest(|| (), || valid = open(&key, &set, &file, &mut room[0]));
    assert_eq!(valid, 1);
    let archive = &format!("pads/{PAD}/archive");
    let arguments = ["open", "--archive", archive, "ink", "-o", "opened"];
    let command = fastest(|| bench.remove("opened"), || bench.run(&arguments));
    beside("open", size, [command, start, calls]);
}

/// All of it, by the command at a path, in a folder.
pub fn print(command: &str, folder: &str) {
    let folder = Path::new(folder).join(format!("bowlinette-bench-{}", std::process::id()));
    fs::create_dir_all(&folder).expect("a folder to work in");
    let command = fs::canonicalize(command).expect("the command");
    let bench = Bench { command, folder };
    let cores = std::thread::available_parallelism().map_or(1, |cores| cores.get());
    let start = fastest(|| (), || bench.run(&["--version"]));
    println!("a command that does nothing: {}", shown(start));
    for size in Size::ALL {
        pallet(&bench, size, cores);
        longest(&bench, size, start);
    }
    fs::remove_dir_all(&bench.folder).expect("the folder goes");
}
