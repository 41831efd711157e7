//! The subcommands, and how one is called.

use std::ffi::OsString;

use crate::args::{Args, Opt};
use crate::failure::{Failure, DONE};
use crate::{check_chain, explain, open, pallet, read, seal, show, streams, system};

/// A subcommand: its name, what it takes, and what it does.
pub struct Command {
    pub name: &'static str,
    pub options: &'static [Opt],
    /// Its operands, and how many of them must be given.
    pub operands: &'static [&'static str],
    pub needed: usize,
    pub help: &'static str,
    pub run: fn(&Args) -> Result<u8, Failure>,
}

const COMMANDS: [Command; 7] = [
    pallet::COMMAND,
    seal::COMMAND,
    show::COMMAND,
    open::COMMAND,
    read::COMMAND,
    check_chain::COMMAND,
    explain::COMMAND,
];

const HELP: &str = "\
usage: bowlinette COMMAND ..

  pallet       the works: keys, books and sets for so many pads, in a folder for each
  seal         pad and driver: a file sealed and tagged, as one ink file
  show         anyone: the records of an ink file
  read         the review screen: an ink file read by tables; nothing is verified
  open         the archive: an ink file opened and checked, Valid or Invalid
  check-chain  the works: whether a chain of codings is one
  explain      what a refusal means, and what to do

bowlinette COMMAND --help tells more. For a file, - is standard input or output.
Exit status: 0 done or Valid, 1 Invalid, 2 refused input, 3 the system said no, 64 wrong usage.

Example, one pad, its pad number being 00000001, and one file from the counter to the archive:
  bowlinette pallet --count 1 --key-size 16 pads
  bowlinette seal --pad pads/00000001/pad --driver pads/00000001/driver strokes -o strokes.ink
  bowlinette open --archive pads/00000001/archive strokes.ink -o opened
";

const VERSION: &str = concat!(
    "bowlinette ",
    env!("CARGO_PKG_VERSION_MAJOR"),
    ".",
    env!("CARGO_PKG_VERSION_MINOR"),
    "\n"
);

/// Runs the command with its arguments: the exit status.
pub fn run(arguments: &[OsString]) -> u8 {
    system::begin();
    let (name, answer) = called(arguments);
    answer.unwrap_or_else(|failure| {
        let name = name.map_or(String::new(), |name| format!(" {name}"));
        let hint = match failure {
            Failure::Usage(_) => format!(" (bowlinette{name} --help)"),
            _ => String::new(),
        };
        streams::tell(&format!("bowlinette{name}: {failure}{hint}\n"));
        failure.status()
    })
}

/// The subcommand that was named, if there is one, and its answer.
fn called(arguments: &[OsString]) -> (Option<&'static str>, Result<u8, Failure>) {
    let (first, rest) = match arguments.split_first() {
        Some((first, rest)) => (first, rest),
        None => return (None, Err(Failure::Usage("a command is missing".into()))),
    };
    if first == "--help" || first == "-h" {
        return (None, streams::print(HELP).map(|()| DONE));
    }
    if first == "--version" {
        return (None, streams::print(VERSION).map(|()| DONE));
    }
    match COMMANDS.iter().find(|command| first == command.name) {
        Some(command) => (Some(command.name), command.answer(rest)),
        None => {
            let text = format!("there is no command {}", first.to_string_lossy());
            (None, Err(Failure::Usage(text)))
        }
    }
}

impl Command {
    fn answer(&self, arguments: &[OsString]) -> Result<u8, Failure> {
        match Args::parse(arguments, self.options)? {
            None => streams::print(self.help).map(|()| DONE),
            Some(args) => {
                args.operands(self.operands, self.needed)?;
                (self.run)(&args)
            }
        }
    }
}
