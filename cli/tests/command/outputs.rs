//! Outputs that are there already or cannot be made.

use crate::support::desk::{Desk, MESSAGE, WRITING};
use crate::support::system::bound;
use crate::support::tree::{by_mode, get, kept, mode, names, put};
use crate::support::{by_shell, command, ended, finish, run};
use crate::support::{DENIED, MISSING, THERE};
use std::fs;
use std::os::unix::fs::symlink;

/// A file, a folder, and links to a file and to nothing are never overwritten.
#[test]
fn there_already() {
    let desk = Desk::new("there");
    put(desk.at("file"), b"do not lose me");
    fs::create_dir(desk.at("folder")).unwrap();
    symlink("file", desk.at("link")).unwrap();
    symlink("nothing", desk.at("loose")).unwrap();
    for command in WRITING {
        for name in ["file", "folder", "link", "loose"] {
            let out = desk.at(name);
            let args = desk.args_with(command, &desk.operand(command), &out);
            let ran = kept(&desk.pad.folder, || run(&args));
            ran.hindered(command, &format!("the output {out}"), THERE);
        }
    }
}

/// In a folder that is not there, below a file, and where the program may not write.
#[test]
fn nowhere_to_put_it() {
    let desk = Desk::new("nowhere");
    put(desk.at("file"), b"");
    for command in WRITING {
        for (name, error) in [
            ("none/out", MISSING),
            ("file/out", "Not a directory (os error 20)"),
        ] {
            let out = desk.at(name);
            let args = desk.args_with(command, &desk.operand(command), &out);
            let ran = kept(&desk.pad.folder, || run(&args));
            ran.hindered(command, &format!("the output {out}"), error);
        }
    }
}

/// A folder that is not the program's to write to; its inputs come by a stream, or may be read.
#[test]
fn a_folder_of_others() {
    let desk = Desk::new("others");
    let ink = desk.pad.get("ink");
    let reached = bound(&mut command(&["--version"])).output();
    if reached.map_or(true, |output| !output.status.success()) {
        return eprintln!("others: nobody cannot run the program here, so this is not tested");
    }
    for folder in ["", "pad", "driver"] {
        by_mode(&desk.at(folder), 0o555);
        for name in names(&desk.at(folder)) {
            let path = format!("{}/{name}", desk.at(folder));
            if fs::metadata(&path).unwrap().is_file() {
                by_mode(&path, 0o444);
            }
        }
    }
    let ran = finish(bound(&mut desk.command("seal")));
    let what = format!("the output {}", desk.at("out"));
    for folder in ["", "pad", "driver"] {
        by_mode(&desk.at(folder), 0o755);
    }
    ran.hindered("seal", &what, DENIED);
    assert!(!names(&desk.pad.folder).contains(&"out".into()));
    assert_eq!(desk.pad.get("ink"), ink);
}

/// Several at once with one output: one of them makes it, the others find it there.
#[test]
fn several_at_once() {
    let desk = Desk::new("at-once");
    for command in WRITING {
        let out = desk.at("out");
        let before = names(&desk.pad.folder);
        let children: Vec<_> = (0..6)
            .map(|_| desk.command(command).spawn().unwrap())
            .collect();
        let ran: Vec<_> = children.into_iter().map(ended).collect();
        let made = ran.iter().filter(|ran| ran.status == Some(0)).count();
        assert_eq!(made, 1, "{command}: {ran:?}");
        for ran in ran.iter().filter(|ran| ran.status != Some(0)) {
            assert!(ran.line().ends_with(THERE), "{command}: {ran:?}");
            assert_eq!(ran.status, Some(3), "{command}: {ran:?}");
        }
        if command != "seal" {
            assert_eq!(get(&out), MESSAGE, "{command}");
        }
        fs::remove_file(&out).unwrap();
        assert_eq!(names(&desk.pad.folder), before, "{command}");
    }
}

/// A message that is opened or read is its owner's alone, whatever the umask is; and outputs may be named without
/// a folder.
#[test]
fn for_the_owner_alone() {
    let desk = Desk::new("owner");
    for command in ["open", "read"] {
        let args = desk.args_with(command, &desk.operand(command), "plain");
        let mut shell = by_shell("umask 0;", "", &args);
        let ran = finish(shell.current_dir(&desk.pad.folder));
        assert_eq!(ran.status, Some(0), "{ran:?}");
        let out = desk.at("plain");
        assert_eq!((mode(&out), &get(&out)[..]), (0o600, MESSAGE));
        fs::remove_file(out).unwrap();
    }
}
