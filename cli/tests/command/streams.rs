//! Standard streams that are closed, full or broken.

use crate::support::desk::{Desk, INPUTS, MESSAGE, WRITING};
use crate::support::system::{broken_pipe, heeding_signals, pipe, signal, TERMINATE};
use crate::support::tree::{get, kept, names};
use crate::support::{by_shell, command, ended, finish, wait_until};
use crate::support::{Ran, CLOSED, COMMANDS, FULL, PIPE};
use std::fs::OpenOptions;
use std::io::{Read, Write};

/// All that prints to standard output: the arguments of each.
fn printing(desk: &Desk) -> Vec<Vec<String>> {
    let mut all = vec![];
    for command in WRITING {
        all.push(desk.args_with(command, &desk.operand(command), "-"));
    }
    all.extend(["show", "check-chain"].map(|command| desk.args(command)));
    let words = |text: &str| text.split(' ').map(String::from).collect::<Vec<_>>();
    all.extend(["explain", "explain 30", "--help", "--version"].map(words));
    all.extend(COMMANDS.map(|command| vec![command.into(), "--help".into()]));
    all
}

/// Each of them run on a standard output that takes nothing: status 3, one line, and nothing is left behind.
fn unprinted(name: &str, error: &str, run: impl Fn(&[String]) -> Ran) {
    let desk = Desk::new(name);
    for args in printing(&desk) {
        let ran = kept(&desk.pad.folder, || run(&args));
        // `open` tells that the tag is Valid on standard error then, and `read` that nothing was verified.
        let last = ran.err.lines().last().unwrap_or_default();
        let named = last.starts_with("bowlinette") && last.contains("standard output");
        assert!(named && last.contains(error), "{args:?}: {ran:?}");
        assert_eq!(ran.status, Some(3), "{args:?}: {ran:?}");
        if !["open", "read"].contains(&&args[0][..]) {
            ran.line();
        }
    }
}

#[test]
fn a_full_standard_output() {
    unprinted("stdout-full", FULL, |args| {
        let full = OpenOptions::new().write(true).open("/dev/full").unwrap();
        finish(command(args).stdout(full))
    });
}

#[test]
fn a_broken_pipe() {
    unprinted("stdout-broken", PIPE, |args| {
        finish(command(args).stdout(broken_pipe()))
    });
}

#[test]
fn a_closed_standard_output() {
    unprinted("stdout-closed", CLOSED, |args| {
        finish(&mut by_shell("", ">&-", args))
    });
}

/// `open` says Valid on standard output: where it cannot, the status is 3, and nothing is left.
#[test]
fn valid_cannot_be_told() {
    let desk = Desk::new("valid-untold");
    for (streams, error) in [(">&-", CLOSED), (">/dev/full", FULL)] {
        let ran = kept(&desk.pad.folder, || {
            finish(&mut by_shell("", streams, &desk.args("open")))
        });
        ran.hindered_by(&["bowlinette open: ", "standard output", error]);
    }
}

/// What a pipe holds that nobody reads.
const PIPE_ROOM: usize = 65_536;

/// A signal while the output has its hidden name: status 3, and neither name is there. The verdict, which comes
/// before the output appears, waits for a pipe that is full.
#[test]
fn stopped_before_it_appears() {
    let desk = Desk::new("stopped-output");
    let before = names(&desk.pad.folder);
    let (mut read, mut write) = pipe();
    write.write_all(&[0; PIPE_ROOM]).unwrap();
    let mut open = desk.command("open");
    let child = heeding_signals(open.stdout(write)).spawn().unwrap();
    wait_until("a hidden name", || names(&desk.pad.folder) != before);
    signal(child.id(), TERMINATE);
    read.read_exact(&mut [0; PIPE_ROOM]).unwrap();
    let ran = ended(child);
    let what = format!("the output {}", desk.at("out"));
    ran.hindered("open", &what, "stopped by a signal");
    assert_eq!(names(&desk.pad.folder), before);
}

/// What prints nothing to standard output does not need one; nor is standard error needed to be done.
#[test]
fn streams_that_are_not_needed() {
    let desk = Desk::new("not-needed");
    for (command, streams) in [
        ("seal", "<&- >&-"),
        ("read", "<&- >&-"),
        ("seal", "<&- >&- 2>&-"),
        ("open", "<&- 2>&-"),
    ] {
        let ran = finish(&mut by_shell("", streams, &desk.args(command)));
        assert_eq!(ran.status, Some(0), "{command} {streams}: {ran:?}");
        let wrote = get(&desk.at("out"));
        std::fs::remove_file(desk.at("out")).unwrap();
        match command {
            "seal" => assert!(reference::ink::read(&wrote).is_ok(), "{streams}"),
            _ => assert_eq!(wrote, MESSAGE, "{command} {streams}"),
        }
    }
    let dir = desk.at("pallet");
    let args = ["pallet", "--count=1", "--key-size=16", &dir];
    let ran = finish(&mut by_shell("", "<&- >&- 2>&-", &args));
    assert_eq!(ran.status, Some(0), "{ran:?}");
    assert_eq!(names(&dir), ["00000001"]);
}

/// Standard input that is closed, where `-` asks for it.
#[test]
fn a_closed_standard_input() {
    let desk = Desk::new("stdin-closed");
    for input in INPUTS.into_iter().filter(|input| input.is_operand()) {
        let args = desk.args_with(input.command, "-", &desk.at("out"));
        let ran = kept(&desk.pad.folder, || finish(&mut by_shell("", "<&-", &args)));
        let what = format!("{} on standard input", input.called);
        ran.hindered(input.command, &what, CLOSED);
    }
}
