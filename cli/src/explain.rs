//! What a refusal means, and what to do.

use crate::args::{self, Args};
use crate::command::Command;
use crate::failure::{Failure, DONE};
use crate::refusals::REFUSALS;
use crate::streams;

pub const COMMAND: Command = Command {
    name: "explain",
    options: &[],
    operands: &["N"],
    needed: 0,
    help: HELP,
    run,
};

const HELP: &str = "\
usage: bowlinette explain [N]

What the refusal of number N means, and what to do; without N, all of them in a line each.

Example:
  bowlinette explain 31
";

fn run(args: &Args) -> Result<u8, Failure> {
    let text = match args.operand(0) {
        None => REFUSALS
            .map(|refusal| format!("{} {}\n", refusal.number, refusal.sentence))
            .concat(),
        Some(given) => explained(&given.to_string_lossy())?,
    };
    streams::print(&text)?;
    Ok(DONE)
}

fn explained(given: &str) -> Result<String, Failure> {
    let number = args::number(given);
    let known = REFUSALS
        .iter()
        .find(|refusal| number == Some(refusal.number.into()));
    match known {
        Some(refusal) => Ok(format!("{}\n{}\n", refusal.sentence, refusal.remedy)),
        None => Err(Failure::Usage(format!("there is no refusal {given}"))),
    }
}
