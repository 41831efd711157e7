//! The command `bowlinette`; what it does is in the library beside it.

use std::process::ExitCode;

/// Runs before the Rust runtime, which opens the null device in place of a standard stream that is closed.
#[used]
#[link_section = ".init_array"]
static AT_START: extern "C" fn() = cli::streams::note_closed;

fn main() -> ExitCode {
    let arguments: Vec<_> = std::env::args_os().skip(1).collect();
    ExitCode::from(cli::run(&arguments))
}
