//! What is left in memory as the program ends: no key, set, book or message. The program is stopped when it is about
//! to end, and all memory that it may write to is searched.

use crate::support::command;
use crate::support::desk::Desk;
use crate::support::pads::{Pad, Way, WORDS};
use crate::support::system::pipe;
use crate::support::trace::{found, traced};
use crate::support::tree::{fresh, put};
use reference::Size;
use shared::Random;
use std::fs::{self, File};
use std::io::Write;
use std::process::Command;
use std::thread;
use std::time::Duration;

/// Windows of so many bytes of a secret, one behind the other; a shorter one is a window itself.
fn windows(secret: &[u8], length: usize) -> Vec<&[u8]> {
    match secret.len() <= length {
        true => vec![secret],
        false => secret.chunks_exact(length).collect(),
    }
}

/// A secret by its name, and how long a part of it is looked for.
type Secret = (String, Vec<u8>, usize);

/// What a pad's files have that is secret: 16 bytes of a key, two codings of a set, and of a book what is in its
/// tables.
fn secrets(pad: &Pad) -> Vec<Secret> {
    let parts = [
        ("archive/key", 16),
        ("archive/last-set", 32),
        ("pad/message-set", 32),
        ("screen/message-set", 32),
        ("driver/book", 64),
        ("screen/reading-book", 64),
    ];
    let secret = |(name, length): (&str, usize)| (pad.at(name), pad.get(name), length);
    parts.map(secret).into()
}

/// Runs the program, and searches its memory: none of the secrets may be there.
fn leaves_nothing(args: &[String], status: i32, secrets: impl FnOnce() -> Vec<Secret>) {
    searched(&mut command(args), args, status, secrets);
}

/// The same with a standard input. The last argument must be found, where the system has put it, and the status be
/// the one given. Where tracing is not allowed, that is said and all is well.
fn searched(
    program: &mut Command,
    args: &[String],
    status: i32,
    secrets: impl FnOnce() -> Vec<Secret>,
) {
    let (ran, memory) = match traced(program) {
        Ok(traced) => traced,
        Err(error) => return eprintln!("no tracing here ({error}), so memory is not searched"),
    };
    assert_eq!(ran.status, Some(status), "{args:?}: {ran:?}");
    let last = args.last().unwrap().as_bytes();
    assert_eq!(found(&memory, &[last]).len(), 1, "the search finds nothing");
    let secrets = secrets();
    let parts = |(name, secret, length): &'_ Secret| -> Vec<(String, Vec<u8>)> {
        let each = windows(secret, *length).into_iter();
        each.map(|part| (name.clone(), part.to_vec())).collect()
    };
    let parts: Vec<(String, Vec<u8>)> = secrets.iter().flat_map(parts).collect();
    let needles: Vec<&[u8]> = parts.iter().map(|(_, part)| &part[..]).collect();
    let left: Vec<&str> = found(&memory, &needles)
        .into_iter()
        .map(|n| &parts[n].0[..])
        .collect();
    assert!(
        left.is_empty(),
        "{args:?}: {} parts of {:?}",
        left.len(),
        left.first()
    );
}

/// A desk with a message of some thousand bytes, sealed.
fn desk(name: &str) -> Desk {
    let desk = Desk::new(name);
    put(desk.at("message"), &Random(51).bytes(5_000));
    fs::remove_file(desk.at("ink")).unwrap();
    desk.pad.seal(&desk.at("message"), &desk.at("ink")).silent();
    desk
}

/// The secrets of a desk.
fn of_desk(desk: &Desk) -> Vec<Secret> {
    let mut all = secrets(&desk.pad);
    all.push(("the message".into(), desk.pad.get("message"), 32));
    all
}

/// Each command that is done.
#[test]
fn when_done() {
    let desk = desk("wiped");
    for command in ["seal", "open", "read", "show", "check-chain"] {
        leaves_nothing(&desk.args(command), 0, || of_desk(&desk));
        let _ = fs::remove_file(desk.at("out"));
    }
    for command in ["seal", "open", "read"] {
        let mut args = desk.args_with(command, &desk.operand(command), "-");
        // The last argument is looked for.
        let operand = args.iter().position(|arg| *arg == desk.operand(command));
        let operand = args.remove(operand.unwrap());
        args.push(operand);
        leaves_nothing(&args, 0, || of_desk(&desk));
    }
}

/// By standard input, a message, an ink file and a chain.
#[test]
fn from_standard_input() {
    let desk = desk("wiped-input");
    for name in ["seal", "open", "read", "check-chain"] {
        let mut args = desk.args_with(name, "-", &desk.at("out"));
        if name == "check-chain" {
            args = ["check-chain", "-", "--key-size=16"]
                .map(String::from)
                .into();
        }
        let secrets = || {
            let mut all = of_desk(&desk);
            all.push(("the chain".into(), desk.pad.get("chain"), 48));
            all
        };
        let input = File::open(desk.operand(name)).unwrap();
        searched(command(&args).stdin(input), &args, 0, secrets);
        let _ = fs::remove_file(desk.at("out"));
    }
}

/// A secret on standard input that comes by a pipe in two parts, the second of them short.
fn in_two_parts(args: &[String], secret: &[u8], second: usize) {
    let ends = pipe();
    let (first, rest) = secret.split_at(secret.len() - second);
    thread::scope(|scope| {
        let write = ends.1;
        scope.spawn(move || {
            let mut write = write;
            write.write_all(first)?;
            thread::sleep(Duration::from_millis(200));
            write.write_all(rest)
        });
        let what = || vec![("what came in parts".into(), secret.to_vec(), 32)];
        searched(command(args).stdin(ends.0), args, 0, what);
    });
}

/// What comes in parts is wiped wherever it went through.
#[test]
fn in_parts() {
    let desk = desk("wiped-parts");
    let message = Random(52).bytes(1_048_570);
    let args = desk.args_with("seal", "-", &desk.at("out"));
    in_two_parts(&args, &message, 7_000);
    let args = ["check-chain", "-", "--key-size=16"].map(String::from);
    in_two_parts(&args, &desk.pad.get("chain"), 300);
}

/// A chain that was checked, good or not.
#[test]
fn chains() {
    let desk = desk("wiped-chain");
    for (at, status) in [(None, 0), (Some(23_103), 2)] {
        let mut chain = desk.pad.get("chain");
        if let Some(at) = at {
            chain[at] = 9;
        }
        put(desk.at("chain"), &chain);
        let secret = || vec![("the chain".into(), chain.clone(), 48)];
        leaves_nothing(&desk.args("check-chain"), status, secret);
    }
}

/// Invalid: neither the key nor what was opened may stay.
#[test]
fn when_invalid() {
    let desk = desk("wiped-invalid");
    let mut file = desk.pad.get("ink");
    *file.last_mut().unwrap() ^= 1;
    put(desk.at("ink"), &file);
    leaves_nothing(&desk.args("open"), 1, || of_desk(&desk));
}

/// Refused inputs, and an output that is there already.
#[test]
fn when_it_fails() {
    let desk = desk("wiped-failed");
    put(desk.at("out"), b"");
    for command in ["seal", "open", "read"] {
        leaves_nothing(&desk.args(command), 3, || of_desk(&desk));
    }
    fs::remove_file(desk.at("out")).unwrap();
    let long = [&desk.pad.get("message")[..], &vec![1; 1_048_576]].concat();
    put(desk.at("message"), &long);
    let short = || {
        let mut all = secrets(&desk.pad);
        all.push(("the message".into(), long[..5_000].to_vec(), 32));
        all
    };
    leaves_nothing(&desk.args("seal"), 2, short);
    let mut ink = desk.pad.get("ink");
    ink[58] ^= 1;
    put(desk.at("ink"), &ink[..ink.len() - 1]);
    for command in ["open", "read"] {
        leaves_nothing(&desk.args(command), 2, || secrets(&desk.pad));
    }
}

/// The works: nothing of any pad stays, by one job or by two.
#[test]
fn pallets() {
    let ways: [Way; 3] = [(Size::Lea128, 0), (Size::Lea192, 1), (Size::Lea256, 0)];
    for (size, schedule) in ways {
        for jobs in ["1", "2"] {
            let dir = format!("{}/pallet", fresh("wiped-pallet"));
            let (size, word) = (size.key_bytes().to_string(), WORDS[usize::from(schedule)]);
            let words = [
                "pallet",
                "--count",
                "4",
                "--key-size",
                &size,
                "--schedule",
                word,
                "--jobs",
                jobs,
                &dir,
            ];
            let pads = || (1..=4).map(|number| Pad::new(&dir, number));
            leaves_nothing(&words.map(String::from), 0, || {
                pads().flat_map(|pad| secrets(&pad)).collect()
            });
        }
    }
}
