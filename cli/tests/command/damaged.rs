//! Inputs that are missing, empty, unreadable, endless, of a wrong length or spoilt: the status, the line, and that
//! nothing is left behind.

use crate::support::desk::{refused, Desk, Input, INPUTS, WRITING};
use crate::support::system::{bound, is_root, named_pipe, with_memory};
use crate::support::tree::{by_mode, kept, put};
use crate::support::{command, finish, run, run_with, Ran};
use crate::support::{DENIED, FOLDER, MISSING};
use reference::Size;
use shared::{chains, Random};
use std::fs::{self, File};
use std::io::{Seek, Write};
use std::os::unix::fs::symlink;
use std::thread;

/// What each command says where an input is set aside and something is put in its place; the rest must stay.
fn spoilt(
    name: &str,
    inputs: impl Fn(&Input) -> bool,
    put: impl Fn(&str),
    judge: impl Fn(&Ran, Input, &str),
) {
    let desk = Desk::new(name);
    for input in INPUTS.into_iter().filter(inputs) {
        let ran = desk.without(input.file, |path| {
            put(path);
            kept(&desk.pad.folder, || {
                finish(with_memory(&mut desk.command(input.command), 1 << 32))
            })
        });
        judge(&ran, input, &desk.called(input));
    }
}

/// The desk is as good as it should be: every command goes through, and writes what is due.
#[test]
fn good_inputs() {
    let desk = Desk::new("good");
    for command in ["seal", "show", "open", "read", "check-chain"] {
        let ran = desk.run(command);
        assert_eq!(ran.status, Some(0), "{command}: {ran:?}");
        let printed = matches!(command, "show" | "open" | "check-chain");
        assert_eq!(!ran.out.is_empty(), printed, "{command}: {ran:?}");
        let wrote = fs::remove_file(desk.at("out")).is_ok();
        assert_eq!(wrote, WRITING.contains(&command), "{command}");
    }
}

#[test]
fn missing() {
    let judge = |ran: &Ran, input: Input, what: &str| ran.hindered(input.command, what, MISSING);
    spoilt("missing", |_| true, |_| {}, judge);
}

/// A name with a line's end in it does not make two lines of one.
#[test]
fn names_on_one_line() {
    for args in [
        &["show", "no\nsuch\rfile"][..],
        &["show", "one\n", "two\n"],
        &["show", "--no\nsuch=option"],
        &["explain", "4\n2"],
        &["no\nsuch\ncommand"],
    ] {
        let ran = run(args);
        assert!([Some(3), Some(64)].contains(&ran.status), "{ran:?}");
        assert!(!ran.line().contains('\r'), "{ran:?}");
    }
}

#[test]
fn a_folder_in_place_of_a_file() {
    let judge = |ran: &Ran, input: Input, what: &str| ran.hindered(input.command, what, FOLDER);
    let put = |path: &str| fs::create_dir(path).unwrap();
    spoilt("folder", |_| true, put, judge);
}

/// An empty message is a message.
#[test]
fn empty() {
    let judge = |ran: &Ran, input: Input, what: &str| refused(ran, input, what, input.number, 0);
    let put = |path: &str| fs::write(path, b"").unwrap();
    spoilt("empty", |input| input.file != "message", put, judge);
}

/// Zeros without end, by a link to where the system has them.
#[test]
fn endless() {
    let judge = |ran: &Ran, input: Input, what: &str| refused(ran, input, what, input.number, 0);
    let put = |path: &str| symlink("/dev/zero", path).unwrap();
    spoilt("endless", |_| true, put, judge);
}

/// Zeros without end on standard input.
#[test]
fn endless_standard_input() {
    let desk = Desk::new("endless-input");
    for input in INPUTS.into_iter().filter(|input| input.is_operand()) {
        let args = desk.args_with(input.command, "-", &desk.at("out"));
        let ran = kept(&desk.pad.folder, || {
            let zeros = File::open("/dev/zero").unwrap();
            finish(with_memory(command(&args).stdin(zeros), 1 << 32))
        });
        let what = format!("{} on standard input", input.called);
        refused(&ran, input, &what, input.number, 0);
    }
}

/// Of a standard input that is too long no more is read than the longest right one has, and one byte.
#[test]
fn no_further_than_needed() {
    let desk = Desk::new("further");
    let long = put(desk.at("long"), &vec![0; 1_200_000]);
    for input in INPUTS.into_iter().filter(|input| input.is_operand()) {
        let longest = match input.command {
            "seal" => 1_048_575,
            "check-chain" => 30_464,
            _ => 1_049_684,
        };
        let args = desk.args_with(input.command, "-", &desk.at("out"));
        let mut file = File::open(&long).unwrap();
        let ran = finish(command(&args).stdin(file.try_clone().unwrap()));
        assert_eq!(ran.status, Some(2), "{ran:?}");
        let read = file.stream_position().unwrap();
        assert!(read <= longest + 1, "{}: {read} bytes", input.command);
    }
}

/// One byte fewer, and one more.
#[test]
fn wrong_lengths() {
    let desk = Desk::new("wrong-lengths");
    for input in INPUTS.into_iter().filter(|input| !input.is_ink()) {
        if input.file == "message" {
            continue;
        }
        let bytes = fs::read(desk.at(input.file)).unwrap();
        let longer = [&bytes[..], b"?"].concat();
        // The schedule's newline may be missing, its last letter may not.
        let fewer = bytes.len() - 1 - usize::from(input.number == 34);
        for other in [&bytes[..fewer], &longer] {
            let ran = desk.without(input.file, |path| {
                put(path.into(), other);
                kept(&desk.pad.folder, || desk.run(input.command))
            });
            ran.refused(input.command, &desk.called(input), input.number);
        }
    }
}

/// A good ink file with zeros without end behind it: the record at fault is the one after the last.
#[test]
fn an_endless_ink_file() {
    let desk = Desk::new("endless-ink");
    let ink = desk.pad.get("ink");
    for input in INPUTS.into_iter().filter(|input| input.is_ink()) {
        let more = [&ink[..], &vec![0; 3_000_000]].concat();
        let args = desk.args_with(input.command, "-", &desk.at("out"));
        let ran = kept(&desk.pad.folder, || run_with(&args, &more));
        ran.refused_at(
            input.command,
            "the ink file on standard input",
            30,
            ink.len(),
        );
    }
}

/// Files that the program may not read. Permissions do not bind root, so it is run as nobody.
#[test]
fn unreadable() {
    let desk = Desk::new("unreadable");
    let folder = &desk.pad.folder;
    let reached = bound(&mut command(&["--version"])).output();
    if reached.map_or(true, |output| !output.status.success()) {
        return eprintln!("unreadable: nobody cannot run the program here, so this is not tested");
    }
    open_to_all(folder);
    for input in INPUTS {
        let path = desk.at(input.file);
        by_mode(&path, 0o000);
        let ran = kept_as(folder, || finish(bound(&mut desk.command(input.command))));
        by_mode(&path, 0o644);
        ran.hindered(input.command, &desk.called(input), DENIED);
    }
}

/// Lets everyone read a folder and all that is in it.
fn open_to_all(path: &str) {
    let folder = fs::metadata(path).unwrap().is_dir();
    let mode = if folder { 0o777 } else { 0o644 };
    by_mode(path, mode);
    for entry in fs::read_dir(path).into_iter().flatten() {
        open_to_all(entry.unwrap().path().to_str().unwrap());
    }
}

/// As `kept`, where the test itself can read what the program may not.
fn kept_as(folder: &str, call: impl FnOnce() -> Ran) -> Ran {
    match is_root() {
        true => kept(folder, call),
        false => call(),
    }
}

/// A good file by a named pipe is as good as any.
#[test]
fn named_pipes() {
    let desk = Desk::new("pipes");
    for input in INPUTS {
        let bytes = desk.pad.get(input.file);
        let ran = desk.without(input.file, |path| {
            named_pipe(path.into());
            let written = path.to_string();
            let writer = thread::spawn(move || {
                let mut pipe = File::create(written).unwrap();
                pipe.write_all(&bytes).unwrap();
            });
            let ran = desk.run(input.command);
            assert_eq!(ran.status, Some(0), "{input:?}: {ran:?}");
            writer.join().unwrap();
            ran
        });
        let wrote = fs::remove_file(desk.at("out")).is_ok();
        assert_eq!(wrote, WRITING.contains(&input.command), "{ran:?}");
    }
}

/// What is refused of contents: each with the file, the place of a byte, what it becomes, and the number.
const CONTENTS: [(&str, &str, usize, u8, u32); 4] = [
    ("seal", "pad/message-set", 511, 16, 3),
    ("seal", "driver/book", 0, 24, 33),
    ("open", "archive/last-set", 0, 255, 3),
    ("read", "screen/message-set", 300, 77, 3),
];

#[test]
fn spoilt_contents() {
    let desk = Desk::new("contents");
    for (name, file, at, byte, number) in CONTENTS {
        let fits = |input: &Input| (input.command, input.file) == (name, file);
        let input = INPUTS.into_iter().find(fits).unwrap();
        let mut bytes = desk.pad.get(file);
        bytes[at] = byte;
        let ran = desk.without(file, |path| {
            put(path.into(), &bytes);
            kept(&desk.pad.folder, || desk.run(name))
        });
        ran.refused(name, &desk.called(input), number);
    }
}

/// Only the two words are a schedule, with a newline or without.
#[test]
fn words_for_schedules() {
    let desk = Desk::new("words");
    let what = format!("the schedule {}", desk.at("archive/schedule"));
    for word in [
        "le",
        "LEA\n",
        "lea \n",
        "lea\r\n",
        "wf-le\n",
        "wf lea\n",
        "0\n",
        "\n",
        "lea\nwf-lea\n",
    ] {
        put(desk.at("archive/schedule"), word.as_bytes());
        let ran = kept(&desk.pad.folder, || desk.run("open"));
        ran.refused("open", &what, 34);
    }
    put(desk.at("archive/schedule"), b"wf-lea");
    assert_eq!(desk.run("open").status, Some(1));
}

/// Chains of both kinds: good ones, one for another key, and one fault of each number.
#[test]
fn chains_of_both_kinds() {
    let desk = Desk::new("chains");
    chains::on_each(|kind, size| {
        let key = size.key_bytes().to_string();
        let mut args = vec!["check-chain", "--key-size", &key];
        if kind == chains::Kind::Reading {
            args.push("--reading");
        }
        let path = desk.at("chain");
        args.push(&path);
        let chain = kind.random(size, &mut Random(13));
        put(path.clone(), &chain);
        let line = run(&args).text();
        assert_eq!(line.matches('\n').count(), 1, "{line}");
        let rounds = 512 * (size.rounds() + 2);
        // The first word that the rule fixes stands in set 1.
        let word = 1024 + 128 * kind.rule().1;
        let faults = [(0, 99, 3), (rounds + 384, 2, 5), (chain.len() - 1, 255, 5)];
        for (at, byte, number) in faults {
            let mut other = chain.clone();
            other[at] = byte;
            put(path.clone(), &other);
            run(&args).refused("check-chain", &format!("the chain {path}"), number);
        }
        let mut other = chain.clone();
        other.swap(word, word + 1);
        put(path.clone(), &other);
        run(&args).refused("check-chain", &format!("the chain {path}"), 4);
        let shorter = Size::ALL.into_iter().find(|s| *s != size).unwrap();
        put(path.clone(), &kind.random(shorter, &mut Random(14)));
        run(&args).refused("check-chain", &format!("the chain {path}"), 2);
    });
}
