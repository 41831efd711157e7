//! Pad and driver: a message coded, sealed and tagged, and written as one ink file.

use std::ffi::{OsStr, OsString};
use std::os::unix::ffi::OsStrExt;
use std::thread;

use crate::args::{Args, Opt};
use crate::command::Command;
use crate::failure::{Failure, Named, DONE};
use crate::files::{Output, Source, ANYONE};
use crate::ink::{self, Remark};
use crate::refusals::answer;
use crate::secret::Secret;
use crate::sizes::{BLOCK, CODE_MAX, INK_MAX, LARGEST, MESSAGE_MAX, SET};
use crate::system::Generator;
use crate::works::fill;

pub const COMMAND: Command = Command {
    name: "seal",
    options: &[
        Opt::valued("--pad"),
        Opt::valued("--driver"),
        Opt::repeated("--remark"),
        Opt::valued("-o"),
    ],
    operands: &["IN"],
    needed: 1,
    help: HELP,
    run,
};

const HELP: &str = "\
usage: bowlinette seal --pad DIR --driver DIR [--remark KIND:TEXT].. IN -o OUT.ink

Pad and driver: codes a message of up to 1,048,575 bytes by the pad's message set, seals it by the driver's book
from a fresh IV of the system's generator, makes its tag, and writes one ink file with the pad's number. No key is
needed. Pad number and remarks stand in the file for everyone to read, and are under no tag.

  --pad DIR           the pad's folder: number, message-set
  --driver DIR        the driver's folder: book
  --remark KIND:TEXT  a remark of up to 255 bytes, its kind in hex, 10 to 1f; up to four of them
  -o OUT.ink          the ink file, which must not be there yet; - is standard output
  IN                  the message; - is standard input

Example:
  bowlinette seal --pad pads/00000001/pad --driver pads/00000001/driver --remark '10:counter 3' strokes -o strokes.ink
";

fn run(args: &Args) -> Result<u8, Failure> {
    let (pad, driver) = (args.needed("--pad")?, args.needed("--driver")?);
    let given = args
        .all("--remark")
        .map(remark)
        .collect::<Result<Vec<_>, _>>()?;
    let remarks: Vec<Remark> = given
        .iter()
        .map(|(kind, text)| (*kind, text.as_bytes()))
        .collect();
    let output = Output::new(args.needed("-o")?, ANYONE)?;

    let number = Source::within("the pad number", pad, "number");
    let bytes = number.read(8)?;
    check_fields(&number.named, &bytes, &remarks, args)?;
    let counter = Counter {
        set: Source::within("the message set", pad, "message-set"),
        book: Source::within("the book", driver, "book"),
        message: Source::new("the message", args.operand(0).unwrap_or_default()),
    };
    let (iv, sealed, tag) = counter.sealed()?;
    let mut file = Secret::zeros(INK_MAX - CODE_MAX + sealed.len());
    let length = ink::write(&bytes, [&iv, &sealed, &tag], &remarks, &mut file)
        .map_err(|refused| number.named.refused(refused))?;
    output.write(&file[..length], || Ok(()))?;
    Ok(DONE)
}

/// A remark in its parts: two hex digits, a colon, and the text.
fn remark(given: &OsStr) -> Result<(u8, OsString), Failure> {
    let wrong = || {
        Failure::Usage(format!(
            "--remark {} is not KIND:TEXT with a KIND of two hex digits",
            given.to_string_lossy()
        ))
    };
    let bytes = given.as_bytes();
    if bytes.len() < 3 || bytes[2] != b':' || !bytes[..2].iter().all(u8::is_ascii_hexdigit) {
        return Err(wrong());
    }
    let kind = std::str::from_utf8(&bytes[..2])
        .ok()
        .and_then(|digits| u8::from_str_radix(digits, 16).ok());
    Ok((
        kind.ok_or_else(wrong)?,
        OsStr::from_bytes(&bytes[3..]).to_owned(),
    ))
}

/// Has the library judge pad number and remarks, before any work and with one more each time, so that it is known which
/// is refused.
fn check_fields(
    number: &Named,
    bytes: &[u8],
    remarks: &[Remark],
    args: &Args,
) -> Result<(), Failure> {
    let zeros = [0; BLOCK];
    let judged = |count: usize| ink::write(bytes, [&zeros; 3], &remarks[..count], &mut [0; 2048]);
    judged(0).map_err(|refused| number.refused(refused))?;
    for (count, given) in (1..).zip(args.all("--remark")) {
        judged(count).map_err(|refused| Named::new("the remark", given).refused(refused))?;
    }
    Ok(())
}

/// What the counter has.
struct Counter {
    set: Source,
    book: Source,
    message: Source,
}

type Sealed = ([u8; BLOCK], Secret, [u8; BLOCK]);

impl Counter {
    /// IV, sealed blocks and tag of the message. The tag is made in a second thread: it takes as long as the sealing.
    fn sealed(&self) -> Result<Sealed, Failure> {
        let set = self.set.read(SET)?;
        let book = self.book.read(LARGEST.book())?;
        let message = self.message.read(MESSAGE_MAX)?;
        let mut iv = [0; BLOCK];
        fill(&mut Generator, &mut iv)?;
        thread::scope(|scope| {
            let tagged = || tag(&set, &book, &message);
            let beside = thread::Builder::new().spawn_scoped(scope, tagged);
            let sealed = seal(&set, &book, &iv, &message);
            let tag = match beside {
                Ok(thread) => thread.join().expect("the tag's thread ends"),
                Err(_) => tagged(),
            };
            match sealed.and_then(|sealed| Ok((iv, sealed, tag?))) {
                Ok(sealed) => Ok(sealed),
                Err(refused) => Err(self.blamed(refused).refused(refused)),
            }
        })
    }

    /// Whose refusal it is.
    fn blamed(&self, refused: u32) -> &Named {
        match refused {
            2 | 3 => &self.set.named,
            6 | 33 => &self.book.named,
            _ => &self.message.named,
        }
    }
}

/// The message coded and sealed.
fn seal(set: &[u8], book: &[u8], iv: &[u8], message: &[u8]) -> Result<Secret, u32> {
    let (mut coded, mut length) = (Secret::zeros(message.len() + BLOCK), 0);
    answer(|| libbowlinette::code_for_sealing(set, message, &mut coded, &mut length))?;
    coded.shorten(length as usize);
    let mut sealed = Secret::zeros(coded.len());
    answer(|| libbowlinette::seal(book, iv, &coded, &mut sealed, &mut length))?;
    Ok(sealed)
}

/// The message's tag: coded, and taken through a session.
fn tag(set: &[u8], book: &[u8], message: &[u8]) -> Result<[u8; BLOCK], u32> {
    let (mut coded, mut length, mut kind) = (Secret::zeros(message.len() + BLOCK), 0, 0);
    answer(|| libbowlinette::code_for_tag(set, message, &mut coded, &mut length, &mut kind))?;
    coded.shorten(length as usize);
    let mut session = libbowlinette::Session::of([0; BLOCK], 0, 0);
    let mut tag = [0; BLOCK];
    answer(|| session.begin(book))?;
    let (front, last) = coded.split_at(coded.len() - BLOCK);
    answer(|| {
        let calls = front
            .chunks_exact(BLOCK)
            .map(|block| session.block_call(book, block));
        calls.fold(0, u32::max)
    })?;
    answer(|| session.last_call(book, last, kind, &mut tag))?;
    Ok(tag)
}
