//! Reading and writing ink files of four remarks.

use crate::parts::{heading, line};
use crate::timing::Times;
use crate::LENGTHS;
use reference::ink;
use shared::ink::{proved, Owned, REMARK};
use shared::Random;
use std::hint::black_box as hide;

/// Fields, and their file.
pub struct Given {
    pub fields: Owned,
    pub file: Vec<u8>,
}

impl Given {
    /// The sealed blocks of a message of n bytes, and the longest remarks.
    pub fn new(n: usize) -> Given {
        let fields = Owned::new(n / 16 * 16 + 16, &[REMARK; 4], &mut Random(7));
        let file = fields.records().concat();
        Given { fields, file }
    }
}

fn read(g: &Given) -> Times {
    let (mut numbers, mut other) = ([0; 18], None);
    let times = Times::of(
        || _ = hide(bowlinette::read_ink(hide(&g.file), &mut numbers)),
        || other = hide(ink::read(hide(&g.file))).ok(),
    );
    assert_eq!(Some(numbers), other.map(|ink| ink.numbers()));
    times
}

fn write(g: &Given) -> Times {
    let (fields, n) = (g.fields.fields(), g.file.len());
    let (mut out, mut other, mut length) = (vec![0; n], vec![0; n], 0);
    let times = Times::of(
        || _ = hide(proved(hide(&fields), &mut out, &mut length)),
        || _ = hide(ink::write(hide(&fields), &mut other)),
    );
    assert!(out == g.file && other == g.file && length == n as u64);
    times
}

/// A row for reading and one for writing, with how many bytes are written in a second, for each length.
pub fn print() {
    heading("sealed", ["Rattle", "Rust"]);
    for given in LENGTHS.map(Given::new) {
        let sealed = given.fields.sealed.len();
        println!("{}", line("read_ink", sealed, &read(&given)));
        let times = write(&given);
        let rate = |nanoseconds: f64| given.file.len() as f64 / nanoseconds;
        let (a, b) = (rate(times.rattle), rate(times.rust));
        let row = line("write_ink", sealed, &times);
        println!("{row}   {a:.2} GB/s, Rust {b:.2} GB/s");
    }
}
