//! The archive: an ink file opened and its tag checked.

use std::ffi::OsStr;

use crate::args::{Args, Opt};
use crate::coding::decode;
use crate::command::Command;
use crate::failure::{Failure, Named, DONE, INVALID};
use crate::files::{Output, Source, OWNER};
use crate::ink::Ink;
use crate::refusals::{answer, NO_PADDING};
use crate::secret::{guarded, Secret};
use crate::sizes::{schedule_number, BLOCK, LARGEST, SET};
use crate::streams;

pub const COMMAND: Command = Command {
    name: "open",
    options: &[Opt::valued("--archive"), Opt::valued("-o")],
    operands: &["FILE.ink"],
    needed: 1,
    help: HELP,
    run,
};

const HELP: &str = "\
usage: bowlinette open --archive DIR FILE.ink -o OUT

The archive: opens an ink file by the key, checks its tag, and says Valid or Invalid, with exit status 0 or 1. The
message is written only where it is Valid. The tag is of the message alone: pad number and remarks are under none.

  --archive DIR  the archive's folder of the pad: schedule, key, last-set
  -o OUT         the message, which must not be there yet; - is standard output, and the verdict then goes to
                 standard error
  FILE.ink       the ink file; - is standard input

Example:
  bowlinette open --archive pads/00000001/archive strokes.ink -o strokes
";

fn run(args: &Args) -> Result<u8, Failure> {
    let folder = args.needed("--archive")?;
    let output = Output::new(args.needed("-o")?, OWNER)?;
    let archive = Archive::read(folder)?;
    let ink = Ink::read(args.operand(0).unwrap_or_default())?;
    let number =
        String::from_utf8_lossy(ink.number()).replace(|c: char| !c.is_ascii_graphic(), "?");
    let say = |verdict: String| match output.piped {
        true => {
            streams::tell(&verdict);
            Ok(())
        }
        false => streams::print(&verdict),
    };
    match archive.opened(&ink)? {
        Some(message) => {
            let verdict = format!("Valid: length {}, pad number {number}\n", message.len());
            output.write(&message, || say(verdict))?;
            Ok(DONE)
        }
        None => {
            say(format!(
                "Invalid: nothing was written, pad number {number}\n"
            ))?;
            Ok(INVALID)
        }
    }
}

/// What the archive has for a pad.
struct Archive {
    schedule: Source,
    key: Source,
    set: Source,
    number: u8,
    key_bytes: Secret,
    set_bytes: Secret,
}

impl Archive {
    fn read(folder: &OsStr) -> Result<Archive, Failure> {
        let schedule = Source::within("the schedule", folder, "schedule");
        let key = Source::within("the key", folder, "key");
        let set = Source::within("the last set", folder, "last-set");
        let number = schedule_number(&schedule.read(8)?);
        let (key_bytes, set_bytes) = (key.read(LARGEST.key)?, set.read(SET)?);
        Ok(Archive {
            schedule,
            key,
            set,
            number,
            key_bytes,
            set_bytes,
        })
    }

    /// The message where the tag is Valid. That there is no padding is the same answer as an Invalid tag, so that who
    /// sends altered files learns nothing from the difference; and little from the time that it takes, as another
    /// file is opened then, which the library does not leave at the padding.
    fn opened(&self, ink: &Ink) -> Result<Option<Secret>, Failure> {
        let mut message = Secret::zeros(ink.sealed().len());
        let opened = match self.open(ink.iv(), ink.sealed(), &mut message) {
            Err(NO_PADDING) => {
                let other = self.with_padding(ink);
                let (iv, sealed) = other.split_at(BLOCK);
                self.open(iv, sealed, &mut message).map(|()| false)
            }
            opened => opened.map(|()| true),
        };
        let opened = opened.map_err(|refused| self.blamed(refused, ink).refused(refused))?;
        let (schedule, key, set) = (self.number, &self.key_bytes, &self.set_bytes);
        let valid = guarded(|| libbowlinette::is_valid(schedule, key, set, &message, ink.tag()));
        Ok((opened && valid == 1).then_some(message))
    }

    /// Opens sealed blocks into a buffer, which is shortened to the message.
    fn open(&self, iv: &[u8], sealed: &[u8], message: &mut Secret) -> Result<(), u32> {
        let (schedule, key, set, mut length) = (self.number, &self.key_bytes, &self.set_bytes, 0);
        answer(|| libbowlinette::open(schedule, key, set, iv, sealed, message, &mut length))?;
        message.shorten(length as usize);
        Ok(())
    }

    /// IV and sealed blocks of a file that opens to padding: the same but for the block before the last, which is what
    /// the last one deciphers to, xored with 16 times 16.
    fn with_padding(&self, ink: &Ink) -> Secret {
        let (schedule, key, set) = (self.number, &self.key_bytes, &self.set_bytes);
        let length = ink.sealed().len();
        let mut file = Secret::zeros(BLOCK + length);
        file[..BLOCK].copy_from_slice(ink.iv());
        file[BLOCK..].copy_from_slice(ink.sealed());
        let (front, last) = file.split_at_mut(length);
        let mut room = Secret::zeros(3 * BLOCK);
        let (plain, coded) = room.split_at_mut(BLOCK);
        let plain: &mut [u8; BLOCK] = plain.try_into().expect("a block");
        decode(set, last);
        guarded(|| {
            libbowlinette::decipher(schedule, key, last, plain);
            plain.iter_mut().for_each(|byte| *byte ^= BLOCK as u8);
            libbowlinette::code_for_sealing(set, plain, coded, &mut 0)
        });
        front[length - BLOCK..].copy_from_slice(&coded[..BLOCK]);
        file[length..].copy_from_slice(&ink.sealed()[length - BLOCK..]);
        file
    }

    /// Whose refusal it is.
    fn blamed<'a>(&'a self, refused: u32, ink: &'a Ink) -> &'a Named {
        match refused {
            34 => &self.schedule.named,
            1 => &self.key.named,
            2 | 3 => &self.set.named,
            _ => &ink.source.named,
        }
    }
}
