//! Times the proved library and a Rust version of it in one process and prints how they compare: what the
//! product does in one table and, with the word `all`, the parts by themselves in a second. Where an earlier
//! library is linked too (bench/run), a row of the first table is beside that one. With the word `commands` it
//! times the command `bowlinette` beside the library's calls, and nothing else.

mod archive;
mod before;
mod book;
mod commands;
mod driver;
mod ink;
mod maker;
mod packed;
mod packed_reading;
mod parts;
mod stack;
mod timing;

use driver::Shape;
use reference::Size;
use shared::chains::Kind;
use timing::{shown, Times};

/// The messages' lengths: a signature, and the longest.
const LENGTHS: [usize; 2] = [9_412, 1_048_575];

/// A row of the first table: a time and a ratio for each key size. The times are handed back.
fn row(name: &str, bytes: &str, times: impl Fn(Size) -> Times) -> [Times; 3] {
    let times = Size::ALL.map(times);
    let cell = |times: &Times| format!("{:>12}{:>7.2}", shown(times.rattle), times.ratio());
    let cells: String = times.iter().map(cell).collect();
    println!("{name:<14}{bytes:>8}{cells}");
    times
}

/// How long the proved library takes for one row beside another, for each key size.
fn beside(name: &str, first: &[Times; 3], second: &[Times; 3]) -> String {
    let ratios = first.iter().zip(second).map(|(a, b)| a.rattle / b.rattle);
    let cells: String = ratios.map(|ratio| format!("{ratio:>19.2}")).collect();
    format!("{name:<22}{cells}")
}

/// The first table, and below it reading beside its counterparts, and ink files.
fn product() {
    let key = |size: Size| format!("{:>19}", format!("key of {}", size.key_bytes()));
    println!("{:<14}{:>8}{}", "", "message", Size::ALL.map(key).concat());
    for (schedule, name) in [(0, "LEA"), (1, "WF-LEA")] {
        row("round_keys", name, |size| parts::round_keys(schedule, size));
    }
    row("make_chain", "", |size| maker::make(Kind::Sealing, size));
    row("make_reading", "", |size| maker::make(Kind::Reading, size));
    row("check_chain", "", book::check_chain);
    before::print();
    let build = row("build", "", book::build);
    let build_reading = row("build_reading", "", book::build_reading);
    let mut ratios = vec![beside("build_reading : build", &build_reading, &build)];
    for n in LENGTHS {
        let bytes = n.to_string();
        let coded = |size| driver::Given::new(size, n);
        let sealed = |size| driver::Given::sealed(size, n);
        let seal = row("seal", &bytes, |size| {
            driver::seal(&coded(size), Shape::Alike)
        });
        let read = row("read", &bytes, |size| {
            driver::read(&sealed(size), Shape::Alike)
        });
        ratios.push(beside(&format!("read : seal {n:>10}"), &read, &seal));
        row("tag", &bytes, |size| {
            driver::tag(&coded(size), Shape::Alike)
        });
        row("open", &bytes, |size| {
            archive::open(&archive::Given::new(size, n))
        });
        row("check", &bytes, |size| {
            archive::check(&archive::Given::new(size, n))
        });
    }
    println!("The proved library by itself, in this run");
    println!("{}", ratios.join("\n"));
    println!("Ink files of four remarks");
    ink::print();
    let (name, bytes) = stack::most()[0];
    println!("The largest call, {name}, uses {bytes} bytes of stack");
}

fn main() {
    let words: Vec<String> = std::env::args().skip(1).collect();
    if let [word, command, folder] = words.as_slice() {
        if word == "commands" {
            return commands::print(command, folder);
        }
    }
    let load = std::fs::read_to_string("/proc/loadavg").unwrap_or_default();
    let load = load.split(' ').next().unwrap_or_default();
    println!(
        "Time of the proved library, and its ratio to the Rust version's (load average {load})"
    );
    product();
    if words.first().map(String::as_str) == Some("all") {
        parts::print();
    }
}
