//! One folder with all that every command is given, so that a test can spoil one thing of it.

use super::pads::{pads, Pad};
use super::tree::{fresh, put};
use super::{command, header, run, Ran};
use reference::Size;
use shared::{chains, Random};
use std::fs;
use std::process::Command;

/// An input of a command: its path on the desk, what the program calls it, and the number that refuses it where it
/// has a wrong length.
#[derive(Clone, Copy, Debug)]
pub struct Input {
    pub command: &'static str,
    pub file: &'static str,
    pub called: &'static str,
    pub number: u32,
}

const fn input(
    command: &'static str,
    file: &'static str,
    called: &'static str,
    number: u32,
) -> Input {
    Input {
        command,
        file,
        called,
        number,
    }
}

/// All inputs of all commands.
pub const INPUTS: [Input; 13] = [
    input("seal", "pad/number", "the pad number", 31),
    input("seal", "pad/message-set", "the message set", 2),
    input("seal", "driver/book", "the book", 6),
    input("seal", "message", "the message", 8),
    input("show", "ink", "the ink file", 30),
    input("open", "archive/schedule", "the schedule", 34),
    input("open", "archive/key", "the key", 1),
    input("open", "archive/last-set", "the last set", 2),
    input("open", "ink", "the ink file", 30),
    input("read", "screen/reading-book", "the reading book", 6),
    input("read", "screen/message-set", "the message set", 2),
    input("read", "ink", "the ink file", 30),
    input("check-chain", "chain", "the chain", 2),
];

impl Input {
    /// Whether it is an ink file, of which the record at fault is told.
    pub fn is_ink(self) -> bool {
        self.file == "ink"
    }

    /// Whether `-` may stand for it.
    pub fn is_operand(self) -> bool {
        !self.file.contains('/')
    }
}

/// The commands that write a file.
pub const WRITING: [&str; 3] = ["seal", "open", "read"];

/// What is sealed on the desk.
pub const MESSAGE: &[u8] =
    b"What is said here is said in ink, and forty-nine bytes are more than three blocks.";

/// The desk: a pad's folder with a message, an ink file and a chain in it.
pub struct Desk {
    pub pad: Pad,
}

impl Desk {
    /// A desk in a fresh folder by this name.
    pub fn new(name: &str) -> Desk {
        let pad = pads((Size::Lea128, 0), 1, &fresh(name)).remove(0);
        let message = put(pad.at("message"), MESSAGE);
        let chain = chains::valid(Size::Lea128, &mut Random(12));
        put(pad.at("chain"), &chain);
        pad.seal(&message, &pad.at("ink")).silent();
        Desk { pad }
    }

    pub fn at(&self, name: &str) -> String {
        self.pad.at(name)
    }

    /// What the program calls an input in its lines.
    pub fn called(&self, input: Input) -> String {
        format!("{} {}", input.called, self.at(input.file))
    }

    /// The arguments of a command with another operand and another output.
    pub fn args_with(&self, command: &str, operand: &str, out: &str) -> Vec<String> {
        let folder = |option: &str, name: &str| vec![option.to_string(), self.at(name)];
        let mut args = match command {
            "seal" => [folder("--pad", "pad"), folder("--driver", "driver")].concat(),
            "open" => folder("--archive", "archive"),
            "read" => folder("--screen", "screen"),
            "check-chain" => vec!["--key-size".into(), "16".into()],
            _ => vec![],
        };
        args.insert(0, command.into());
        args.push(operand.into());
        if WRITING.contains(&command) {
            args.extend(["-o".into(), out.into()]);
        }
        args
    }

    /// What a command is given of the desk.
    pub fn operand(&self, command: &str) -> String {
        self.at(match command {
            "seal" => "message",
            "check-chain" => "chain",
            _ => "ink",
        })
    }

    /// The arguments of a command whose output is `out` on the desk.
    pub fn args(&self, command: &str) -> Vec<String> {
        self.args_with(command, &self.operand(command), &self.at("out"))
    }

    pub fn command(&self, name: &str) -> Command {
        command(&self.args(name))
    }

    pub fn run(&self, name: &str) -> Ran {
        run(&self.args(name))
    }

    /// What a call gives while a file is set aside, and something else may stand in its place.
    pub fn without<T>(&self, file: &str, call: impl FnOnce(&str) -> T) -> T {
        let (path, aside) = (self.at(file), self.at("aside"));
        fs::rename(&path, &aside).expect("it is there");
        let given = call(&path);
        if fs::symlink_metadata(&path).map_or(false, |meta| meta.is_dir()) {
            fs::remove_dir(&path).expect("the folder goes");
        }
        fs::rename(&aside, &path).expect("it is back");
        given
    }
}

/// Refused as an input is: for an ink file with the record at an offset.
pub fn refused(ran: &Ran, input: Input, what: &str, number: u32, offset: usize) {
    assert!(header::refusals().iter().any(|(n, _)| *n == number));
    match input.is_ink() {
        true => ran.refused_at(input.command, what, number, offset),
        false => ran.refused(input.command, what, number),
    }
}
