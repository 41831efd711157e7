//! Remarks: what stands in the file, and what is refused.

use crate::support::desk::Desk;
use crate::support::tree::{get, kept};
use crate::support::{run, Ran};
use std::ffi::{OsStr, OsString};
use std::fs;
use std::os::unix::ffi::OsStrExt;

/// Sealing on a desk with remarks.
fn sealed(desk: &Desk, remarks: &[OsString]) -> Ran {
    let mut args: Vec<OsString> = desk.args("seal").into_iter().map(OsString::from).collect();
    for remark in remarks {
        args.push("--remark".into());
        args.push(remark.clone());
    }
    run(&args)
}

/// A remark of a kind with so many bytes, none of them zero.
fn remark(kind: &str, length: usize) -> OsString {
    let bytes: Vec<u8> = (0..length).map(|k| (k % 255 + 1) as u8).collect();
    OsStr::from_bytes(&[kind.as_bytes(), b":", &bytes].concat()).into()
}

/// None to four remarks of any bytes, in the order in which they are given, a kind more than once too.
#[test]
fn any_bytes() {
    let desk = Desk::new("remarks");
    let all = [
        remark("1f", 255),
        remark("10", 0),
        remark("18", 9),
        remark("10", 254),
    ];
    for count in 0..=4 {
        sealed(&desk, &all[..count]).silent();
        let file = get(&desk.at("out"));
        fs::remove_file(desk.at("out")).unwrap();
        let ink = reference::ink::read(&file).unwrap();
        let fields = ink.fields(&file);
        assert_eq!(fields.kinds, &[0x1f, 0x10, 0x18, 0x10][..count]);
        for (given, stands) in all[..count].iter().zip(fields.remarks) {
            assert_eq!(&given.as_bytes()[3..], stands);
        }
        assert_eq!(fields.number, b"00000001");
    }
}

/// A kind of none, a remark that is too long, and a fifth one are refused, and nothing is written.
#[test]
fn refused() {
    let desk = Desk::new("refused-remarks");
    let long = format!("1f:{}", "x".repeat(256));
    let cases = [
        ("0f:x", 30),
        ("20:x", 30),
        ("04:", 30),
        ("ff:x", 30),
        (&long, 31),
    ];
    for (text, number) in cases {
        let ran = kept(&desk.pad.folder, || sealed(&desk, &[text.into()]));
        ran.refused("seal", &format!("the remark {text}"), number);
    }
    let five = ["10:a", "11:b", "12:c", "13:d", "14:e"].map(OsString::from);
    let ran = kept(&desk.pad.folder, || sealed(&desk, &five));
    ran.refused("seal", "the remark 14:e", 30);
}

/// What is no kind and text is wrong usage.
#[test]
fn misused() {
    let desk = Desk::new("misused-remarks");
    for text in [
        "", "1f", "1fx", ":x", "f:x", "1g:x", "01f:x", "+f:x", "0x1f:x", " 1f:x",
    ] {
        let ran = kept(&desk.pad.folder, || sealed(&desk, &[text.into()]));
        ran.misused(Some("seal"));
    }
}
