//! Anyone: the records of an ink file.

use std::fmt::Write;

use crate::args::Args;
use crate::command::Command;
use crate::failure::{Failure, DONE};
use crate::ink::{Ink, Record};
use crate::streams;

pub const COMMAND: Command = Command {
    name: "show",
    options: &[],
    operands: &["FILE.ink"],
    needed: 1,
    help: HELP,
    run,
};

const HELP: &str = "\
usage: bowlinette show FILE.ink

Shows the records of an ink file: the offset at which each begins, the length of its own bytes, and the first 16
of them, in hex and as text. Of a file that is refused it tells where the record at fault begins. No key is needed,
and nothing is verified: anyone can write an ink file.

Example:
  bowlinette show strokes.ink
";

/// So many bytes of a record are shown.
const FIRST: usize = 16;

fn run(args: &Args) -> Result<u8, Failure> {
    let ink = Ink::read(args.operand(0).unwrap_or_default())?;
    let mut text = format!(
        "{:>8}{:>9}  {:<12}{:<50}text\n",
        "offset", "length", "record", "first bytes"
    );
    for record in ink.records() {
        text.push_str(&line(&record));
    }
    streams::print(&text)?;
    Ok(DONE)
}

fn line(record: &Record) -> String {
    let first = &record.bytes[..record.bytes.len().min(FIRST)];
    let mut hex = String::new();
    for byte in first {
        let _ = write!(hex, "{byte:02x} ");
    }
    let printable = |&byte: &u8| {
        if (b' '..=b'~').contains(&byte) {
            char::from(byte)
        } else {
            '.'
        }
    };
    let text: String = first.iter().map(printable).collect();
    let whole = format!(
        "{:>8}{:>9}  {:<12}{hex:<50}{text}",
        record.offset,
        record.bytes.len(),
        name(record.kind)
    );
    format!("{}\n", whole.trim_end())
}

fn name(kind: u8) -> String {
    match kind {
        1 => "pad number".into(),
        2 => "IV".into(),
        3 => "sealed".into(),
        4 => "tag".into(),
        _ => format!("remark {kind:02x}"),
    }
}
