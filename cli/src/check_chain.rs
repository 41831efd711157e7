//! The works: whether a chain is one.

use crate::args::{Args, Opt};
use crate::command::Command;
use crate::failure::{Failure, DONE};
use crate::files::Source;
use crate::refusals::answer;
use crate::sizes::{Size, LARGEST};
use crate::streams;

pub const COMMAND: Command = Command {
    name: "check-chain",
    options: &[Opt::flag("--reading"), Opt::valued("--key-size")],
    operands: &["CHAIN"],
    needed: 1,
    help: HELP,
    run,
};

const HELP: &str = "\
usage: bowlinette check-chain [--reading] --key-size 16|24|32 CHAIN

The works: whether a file is a chain of codings from which the book of a key can be built; a chain is checked
before a book is built in any case. For chains from elsewhere: `bowlinette pallet` makes its own and keeps none.

  --reading     a reading chain, for a reading book
  --key-size S  bytes of the key
  CHAIN         the chain; - is standard input

Example:
  bowlinette check-chain --key-size 16 chain
";

fn run(args: &Args) -> Result<u8, Failure> {
    let (size, reading) = (Size::told(args)?, args.flag("--reading"));
    let source = Source::new("the chain", args.operand(0).unwrap_or_default());
    let chain = source.read(LARGEST.chain())?;
    let check = if reading {
        libbowlinette::check_reading_chain
    } else {
        libbowlinette::check_chain
    };
    answer(|| check(size.key, &chain)).map_err(|refused| source.named.refused(refused))?;
    let kind = if reading { "reading chain" } else { "chain" };
    streams::print(&format!("a valid {kind} for keys of {} bytes\n", size.key))?;
    Ok(DONE)
}
