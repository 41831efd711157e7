//! Help, version and explanations, and what is wrong usage.

use crate::support::desk::Desk;
use crate::support::header::{refusals, sentence, version};
use crate::support::tree::{fresh, kept, names, put};
use crate::support::{command, finish, run, COMMANDS};
use std::fs;

#[test]
fn the_version() {
    let line = run(&["--version"]).text();
    assert_eq!(
        line.trim_end().rsplit(' ').next(),
        Some(version()),
        "{line}"
    );
    assert_eq!(line.matches('\n').count(), 1, "{line}");
}

/// Help names every command; a command's help has its usage line and an example.
#[test]
fn help() {
    let all = run(&["--help"]).text();
    for command in COMMANDS {
        let mut words = all.lines().map(|line| line.split_whitespace().next());
        assert!(words.any(|word| word == Some(command)), "{command}: {all}");
        let own = run(&[command, "--help"]).text();
        let lines = own.lines().map(str::trim);
        let named = lines.filter(|line| line.contains(&format!("bowlinette {command}")));
        assert!(named.count() >= 2, "usage and example: {own}");
        assert!(own.to_lowercase().contains("example"), "{own}");
    }
    assert!(all.to_lowercase().contains("example"), "{all}");
}

/// The options that a command has are in its help.
#[test]
fn options_in_help() {
    for (command, options) in [
        ("pallet", "--count --key-size --schedule --first --jobs"),
        ("seal", "--pad --driver --remark -o"),
        ("open", "--archive -o"),
        ("read", "--screen -o"),
        ("check-chain", "--reading --key-size"),
    ] {
        let own = run(&[command, "--help"]).text();
        for option in options.split(' ') {
            assert!(own.contains(option), "{command} {option}: {own}");
        }
    }
}

/// Every refusal of the header is explained by its sentence and some more words.
#[test]
fn every_refusal_explained() {
    let mut all = refusals();
    for (number, sentence) in &all {
        let text = run(&["explain", &number.to_string()]).text();
        assert!(text.contains(sentence), "{number}: {text}");
        let more = text.replace(sentence, "");
        assert!(more.split_whitespace().count() >= 4, "{number}: {text}");
    }
    let line = |(number, sentence): (u32, String)| format!("{number} {sentence}");
    all.sort();
    let due: Vec<String> = all.into_iter().map(line).collect();
    let text = run(&["explain"]).text();
    let lines: Vec<&str> = text.lines().collect();
    assert_eq!(lines, due, "in the order of their numbers");
}

/// What is no refusal's number is not explained.
#[test]
fn nothing_to_explain() {
    assert!(refusals().iter().all(|(n, _)| ![0, 12, 99].contains(n)));
    for word in ["0", "12", "99", "x", "", "-1", "1.", "4294967297", "30 "] {
        run(&["explain", "--", word]).misused(Some("explain"));
    }
    for word in ["12", "99", "x"] {
        run(&["explain", word]).misused(Some("explain"));
    }
    run(&["explain", "1", "2"]).misused(Some("explain"));
}

/// No command, and none that is known.
#[test]
fn no_such_command() {
    for args in [
        &[][..],
        &["unseal"],
        &["--nonsense"],
        &["-x"],
        &[""],
        &["Seal"],
    ] {
        run::<&str>(args).misused(None);
    }
}

/// Each wrong line for each command, with what is right around it.
#[test]
fn wrong_lines() {
    let desk = Desk::new("wrong-lines");
    for command in ["seal", "show", "open", "read", "check-chain"] {
        let right = desk.args(command);
        let misused = |args: &[String]| {
            let ran = kept(&desk.pad.folder, || run(args));
            ran.misused(Some(command));
        };
        for more in [
            &["--nonsense"][..],
            &["--nonsense=x"],
            &["-x"],
            &["one-too-many"],
        ] {
            let more: Vec<String> = more.iter().map(|word| word.to_string()).collect();
            misused(&[&right[..], &more].concat());
        }
        misused(&right[..1]);
        let operand = right.iter().position(|arg| *arg == desk.operand(command));
        misused(&without(&right, operand.unwrap(), 1));
        for (at, option) in right
            .iter()
            .enumerate()
            .filter(|(_, arg)| arg.starts_with('-'))
        {
            misused(&without(&right, at, 2));
            misused(&[&right[..], &right[at..at + 2]].concat());
            let alone = [&without(&right, at, 2), std::slice::from_ref(option)].concat();
            misused(&alone);
            misused(&[&alone[..], &[String::new()]].concat());
        }
    }
}

/// Arguments without so many from a place on.
fn without(args: &[String], at: usize, count: usize) -> Vec<String> {
    [&args[..at], &args[at + count..]].concat()
}

/// Options of a pallet that are wrong usage.
const WRONG_PALLETS: [&str; 29] = [
    "--key-size 16",
    "--count 1",
    "--count 0 --key-size 16",
    "--count -1 --key-size 16",
    "--count x --key-size 16",
    "--count 1.5 --key-size 16",
    "--count= --key-size 16",
    "--count 99999999999999999999999 --key-size 16",
    "--count 1 --key-size 17",
    "--count 1 --key-size 0",
    "--count 1 --key-size 128",
    "--count 1 --key-size x",
    "--count 1 --key-size 16 --schedule x",
    "--count 1 --key-size 16 --schedule 0",
    "--count 1 --key-size 16 --schedule LEA",
    "--count 1 --key-size 16 --jobs 0",
    "--count 1 --key-size 16 --jobs x",
    "--count 1 --key-size 16 --jobs 257",
    "--count 1 --key-size 16 --first x",
    "--count 1 --key-size 16 --first 100000000",
    "--count 1 --key-size 16 --first 000000001",
    "--count 2 --key-size 16 --first 99999999",
    "--count 100000000 --key-size 16",
    "--count 99999999 --key-size 16 --first 2",
    "--count 18446744073709551615 --key-size 16 --first 2",
    "--count 1 --count 1 --key-size 16",
    "--count 1 --key-size 16 --key-size 16",
    "--count 1 --key-size 16 --remark 1f:x",
    "--count 1 --key-size 16 one-too-many",
];

/// The folder is not made.
#[test]
fn wrong_pallets() {
    let dir = fresh("wrong-pallets");
    let pallet = format!("{dir}/pallet");
    for line in WRONG_PALLETS {
        let words = ["pallet", &pallet].into_iter().chain(line.split(' '));
        let args: Vec<&str> = words.collect();
        run(&args).misused(Some("pallet"));
        assert_eq!(names(&dir), [""; 0], "{line}");
    }
    run(&["pallet", "--count=1", "--key-size=16"]).misused(Some("pallet"));
}

#[test]
fn wrong_key_sizes_of_chains() {
    for size in ["17", "0", "", "x", "256", "16 "] {
        let ran = run(&["check-chain", "--key-size", size, "no-such-chain"]);
        ran.misused(Some("check-chain"));
    }
}

/// The same line of `seal` in several forms, run on the desk. The message is called `-m`.
const FORMS: [&str; 3] = [
    "seal -o out --pad=pad --remark=1f:a=b --driver driver -- -m",
    "seal --pad pad ./-m --remark 1f:a=b -o out --driver=driver",
    "seal --pad=pad -o out --driver=driver --remark=1f:a=b -- ./-m",
];

/// Options stand anywhere, in either form, and `--` ends them: behind it a name may begin with a dash.
#[test]
fn forms_of_options() {
    let desk = Desk::new("forms");
    put(desk.at("-m"), b"a message");
    let inside = |line: &str| {
        let args: Vec<&str> = line.split(' ').collect();
        finish(command(&args).current_dir(&desk.pad.folder))
    };
    for line in FORMS {
        inside(line).silent();
        assert!(inside("show out").text().contains("a=b"), "{line}");
        let opened = inside("open out -o plain --archive archive").text();
        assert!(opened.starts_with("Valid"), "{line}: {opened}");
        assert_eq!(desk.pad.get("plain"), b"a message", "{line}");
        for name in ["out", "plain"] {
            fs::remove_file(desk.at(name)).unwrap();
        }
    }
}

/// The sentences that are looked for are the header's, and no two are the same.
#[test]
fn sentences_differ() {
    for (number, own) in refusals() {
        assert!(own.ends_with('.') && own.len() > 15, "{number}: {own}");
        assert_eq!(sentence(number), own);
    }
}
