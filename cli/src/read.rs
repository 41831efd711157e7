//! The review screen: an ink file read by tables, without a key.

use crate::args::{Args, Opt};
use crate::coding::decode;
use crate::command::Command;
use crate::failure::{Failure, DONE};
use crate::files::{Output, Source, OWNER};
use crate::ink::Ink;
use crate::refusals::{answer, NO_PADDING};
use crate::secret::Secret;
use crate::sizes::{BLOCK, LARGEST, SET};
use crate::streams;

pub const COMMAND: Command = Command {
    name: "read",
    options: &[Opt::valued("--screen"), Opt::valued("-o")],
    operands: &["FILE.ink"],
    needed: 1,
    help: HELP,
    run,
};

const HELP: &str = "\
usage: bowlinette read --screen DIR FILE.ink -o OUT

The review screen: reads an ink file by the reading book, without a key, and takes the padding off. Nothing is
verified: what is read may have been altered or be from anyone. Only the archive says Valid. A refusal 11 (no
padding) is not for whoever sent the file: by many of them a message can be read.

  --screen DIR  the screen's folder of the pad: reading-book, message-set
  -o OUT        what was read, which must not be there yet; - is standard output
  FILE.ink      the ink file; - is standard input

Example:
  bowlinette read --screen pads/00000001/screen strokes.ink -o shown
";

const WARNING: &str = "bowlinette read: nothing was verified: only the archive can say whether this is what was sealed\n";

fn run(args: &Args) -> Result<u8, Failure> {
    let folder = args.needed("--screen")?;
    let output = Output::new(args.needed("-o")?, OWNER)?;
    let set = Source::within("the message set", folder, "message-set");
    let book = Source::within("the reading book", folder, "reading-book");
    let (set_bytes, book_bytes) = (set.read(SET)?, book.read(LARGEST.reading())?);
    let ink = Ink::read(args.operand(0).unwrap_or_default())?;
    answer(|| libbowlinette::check_set(&set_bytes))
        .map_err(|refused| set.named.refused(refused))?;
    let (mut text, mut length) = (Secret::zeros(ink.sealed().len()), 0);
    answer(|| libbowlinette::read(&book_bytes, ink.iv(), ink.sealed(), &mut text, &mut length))
        .map_err(|refused| book.named.refused(refused))?;
    decode(&set_bytes, &mut text);
    let padding = padding(&text).ok_or_else(|| ink.source.named.refused(NO_PADDING))?;
    output.write(&text[..text.len() - padding], || Ok(()))?;
    streams::tell(WARNING);
    Ok(DONE)
}

/// How many bytes of padding a text ends with, each of them their number, if it does.
fn padding(text: &[u8]) -> Option<usize> {
    let last = *text.last()?;
    let count = usize::from(last);
    let whole =
        (1..=BLOCK).contains(&count) && text[text.len() - count..].iter().all(|&byte| byte == last);
    whole.then_some(count)
}
