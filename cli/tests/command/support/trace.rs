//! What is in the memory of the program as it ends: it is run under ptrace, and stopped when it is about to go.

use super::system::{is_yes, told};
use super::Ran;
use std::collections::{BTreeSet, HashMap};
use std::fs::{self, File};
use std::io::{self, Read};
use std::os::raw::{c_int, c_long, c_void};
use std::os::unix::fs::FileExt;
use std::os::unix::process::CommandExt;
use std::process::{Child, Command};
use std::ptr::null_mut;

extern "C" {
    fn ptrace(request: c_int, id: c_int, at: *mut c_void, data: *mut c_void) -> c_long;
    fn waitpid(id: c_int, status: *mut c_int, options: c_int) -> c_int;
}

/// The requests of ptrace.
const TRACE_ME: c_int = 0;
const CONTINUE: c_int = 7;
const SET_OPTIONS: c_int = 0x4200;

/// Stop where it ends, and end where the test ends.
const STOP_AT_EXIT: usize = 0x40 | 0x0010_0000;
/// The state that tells of it: stopped by a trap, for the event of an exit.
const AT_EXIT: c_int = 5 | 6 << 8;
const TRAP: c_int = 5;

/// Asks for something of a process that is traced.
fn asked(request: c_int, id: c_int, data: usize) -> io::Result<()> {
    let answer = unsafe { ptrace(request, id, null_mut(), data as *mut c_void) };
    told(c_int::from(answer != 0))
}

/// The state in which a process is next.
fn next_state(id: c_int) -> io::Result<c_int> {
    let mut status = 0;
    is_yes(unsafe { waitpid(id, &mut status, 0) } == id)?;
    Ok(status)
}

/// A command started with its parent as its tracer.
fn started(command: &mut Command) -> io::Result<Child> {
    let traced = || told(c_int::from(asked(TRACE_ME, 0, 0).is_err()));
    unsafe { command.pre_exec(traced) }.spawn()
}

/// Lets a process that has stopped go on until it is about to end. A signal that stops it is passed on.
fn go_to_exit(id: c_int) -> io::Result<()> {
    let mut passed = 0;
    loop {
        asked(CONTINUE, id, passed)?;
        let state = next_state(id)?;
        is_yes(state & 0xff == 0x7f)?;
        match state >> 8 {
            AT_EXIT => return Ok(()),
            TRAP => passed = 0,
            signal => passed = (signal & 0xff) as usize,
        }
    }
}

/// All memory of a process that it may write to, mapping by mapping.
fn memory(id: c_int) -> io::Result<Vec<Vec<u8>>> {
    let maps = fs::read_to_string(format!("/proc/{id}/maps"))?;
    let file = File::open(format!("/proc/{id}/mem"))?;
    let mut all = vec![];
    for line in maps.lines() {
        let mut words = line.split(' ');
        let (range, rights) = (words.next().unwrap(), words.next().unwrap());
        let ends = range
            .split('-')
            .map(|end| u64::from_str_radix(end, 16).unwrap());
        let ends: Vec<u64> = ends.collect();
        if rights.starts_with("rw") {
            let mut bytes = vec![0; (ends[1] - ends[0]) as usize];
            file.read_exact_at(&mut bytes, ends[0])?;
            all.push(bytes);
        }
    }
    Ok(all)
}

/// What a run of the program printed, its status, and its memory as it ended; or why it could not be traced.
pub fn traced(command: &mut Command) -> io::Result<(Ran, Vec<Vec<u8>>)> {
    let mut child = started(command)?;
    let id = child.id() as c_int;
    next_state(id)?;
    asked(SET_OPTIONS, id, STOP_AT_EXIT)?;
    go_to_exit(id)?;
    let memory = memory(id)?;
    asked(CONTINUE, id, 0)?;
    let state = next_state(id)?;
    let (mut out, mut err) = (vec![], String::new());
    child.stdout.take().unwrap().read_to_end(&mut out)?;
    child.stderr.take().unwrap().read_to_string(&mut err)?;
    let status = (state & 0x7f == 0).then_some(state >> 8 & 0xff);
    Ok((Ran { status, out, err }, memory))
}

/// The first eight bytes as a number.
fn front(bytes: &[u8]) -> u64 {
    u64::from_le_bytes(bytes[..8].try_into().unwrap())
}

/// Which of several needles, each of at least eight bytes, are in a memory.
pub fn found(memory: &[Vec<u8>], needles: &[&[u8]]) -> BTreeSet<usize> {
    // Few fronts share a place with that of a needle, and only those are compared.
    let place = |front: u64| (front.wrapping_mul(0x9e37_79b9_7f4a_7c15) >> 44) as usize;
    let mut places = vec![false; 1 << 20];
    let mut fronts: HashMap<u64, Vec<usize>> = HashMap::new();
    for (n, needle) in needles.iter().enumerate() {
        places[place(front(needle))] = true;
        fronts.entry(front(needle)).or_default().push(n);
    }
    let mut found = BTreeSet::new();
    for bytes in memory {
        for at in 0..bytes.len().saturating_sub(7) {
            let here = &bytes[at..];
            if places[place(front(here))] {
                let alike = fronts.get(&front(here)).into_iter().flatten();
                found.extend(alike.filter(|n| here.starts_with(needles[**n])));
            }
        }
    }
    found
}
