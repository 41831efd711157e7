//! How much stack each operation uses.

use crate::{ink, maker, LENGTHS};
use bowlinette::Session;
use reference::book::ROUND;
use reference::chain::SET;
use reference::Size;
use shared::archive::sealed_text;
use shared::books::{self, Built};
use shared::chains::Kind;
use shared::ink::proved;
use shared::schedules::EACH;
use shared::Random;
use std::arch::asm;
use std::ptr::{read_volatile, write_volatile};
use std::thread::{scope, Builder};

/// The stack of the thread that makes a call, in bytes, and how much of it is filled beforehand, in
/// words of eight.
const STACK: usize = 4 << 20;
const FILLED: usize = (2 << 20) / 8;
const FILL: u64 = 0xa5a5_a5a5_a5a5_a5a5;

/// How many bytes below its caller's a call writes to, by the words that are not as they were filled.
#[inline(never)]
fn depth(call: &mut dyn FnMut() -> u32) -> usize {
    let top: usize;
    // Sound: it reads a register.
    unsafe { asm!("mov {}, rsp", out(reg) top, options(nomem, nostack)) };
    let low = (top - 8 * FILLED) as *mut u64;
    // Sound: all of the thread's stack is mapped, and below this function's part nothing is in use.
    unsafe {
        (0..FILLED).for_each(|k| write_volatile(low.add(k), FILL));
        assert_eq!(call(), 0, "refused");
        let same = |k: &usize| read_volatile(low.add(*k)) == FILL;
        8 * (FILLED - (0..FILLED).take_while(same).count())
    }
}

/// The same in a thread with stack enough; the call must be answered.
fn used(mut call: impl FnMut() -> u32 + Send) -> usize {
    scope(|scope| {
        let thread = Builder::new().stack_size(STACK);
        let thread = thread.spawn_scoped(scope, || depth(&mut call));
        thread.unwrap().join().unwrap()
    })
}

/// What the operations are given: a book with its key and chain, what reads the files that it seals, and
/// the longest message, coded and sealed.
struct Given {
    built: Built,
    reading: Built,
    message: Vec<u8>,
    coded: Vec<u8>,
    sealed: Vec<u8>,
    block: [u8; 16],
}

impl Given {
    fn new((schedule, size): (u8, Size)) -> Given {
        let mut random = Random(6);
        let built = books::built(schedule, size, &mut random);
        let reading = built.reading(&mut random);
        let (message, block) = (random.bytes(LENGTHS[1]), random.block());
        let coded = [message.as_slice(), &[1]].concat();
        let sealed = sealed_text(schedule, &built.key, built.last_set(), &block, &coded);
        Given {
            built,
            reading,
            message,
            coded,
            sealed,
            block,
        }
    }
}

/// The operations on a key, a chain and a block.
fn of_keys(g: &Given) -> Vec<(&'static str, usize)> {
    let (schedule, key) = (g.built.schedule, &g.built.key);
    let (chain, block) = (&g.built.chain, &g.block);
    let (mut out, mut row) = ([0; 16], [0; 6]);
    let (mut book, mut tables) = (g.built.book.clone(), vec![0; ROUND]);
    let encipher = || bowlinette::encipher(schedule, key, block, &mut out);
    let round_keys = || bowlinette::round_keys(schedule, key, 0, &mut row);
    let build = || bowlinette::build(schedule, key, chain, &mut book);
    let build_round = || bowlinette::build_round(schedule, key, chain, 0, &mut tables);
    let (reading, mut reading_book) = (&g.reading.chain, g.reading.book.clone());
    let build_reading = || bowlinette::build_reading(schedule, key, reading, &mut reading_book);
    vec![
        ("encipher", used(encipher)),
        (
            "decipher",
            used(|| bowlinette::decipher(schedule, key, block, &mut out)),
        ),
        (
            "first_rounds",
            used(|| bowlinette::first_rounds(schedule, key, 99, block, &mut out)),
        ),
        ("round_keys", used(round_keys)),
        ("check_set", used(|| bowlinette::check_set(&chain[..SET]))),
        (
            "check_chain",
            used(|| bowlinette::check_chain(key.len(), chain)),
        ),
        (
            "check_reading_chain",
            used(|| bowlinette::check_reading_chain(key.len(), reading)),
        ),
        ("build", used(build)),
        ("build_round", used(build_round)),
        ("build_reading", used(build_reading)),
    ]
}

/// The operations that make a chain.
fn of_makers(size: Size) -> Vec<(&'static str, usize)> {
    let given = maker::Given::new(size);
    let (mut out, mut drawn) = (vec![0; size.chain_bytes()], 0);
    let mut make = |kind| given.proved(kind, &mut out, &mut drawn);
    vec![
        ("make_chain", used(|| make(Kind::Sealing))),
        ("make_reading_chain", used(|| make(Kind::Reading))),
    ]
}

/// The operations on a book.
fn of_books(g: &Given) -> Vec<(&'static str, usize)> {
    let (book, block) = (g.built.book.as_slice(), &g.block);
    let (mut session, mut tag) = (Session::of(g.block, 0, 0), [0; 16]);
    let (mut out, mut length) = (vec![0; g.coded.len()], 0);
    let tables = &book[book.len() - ROUND..];
    let seal = || bowlinette::seal(book, block, &g.coded, &mut out, &mut length);
    let seal = used(seal);
    let read = || bowlinette::read(&g.reading.book, block, &g.sealed, &mut out, &mut length);
    let read = used(read);
    vec![
        (
            "run_round",
            used(|| bowlinette::run_round(tables, block, &mut tag)),
        ),
        (
            "run_rounds",
            used(|| bowlinette::run_rounds(book, 99, block, &mut tag)),
        ),
        ("seal", seal),
        ("read", read),
        ("begin", used(|| session.begin(book))),
        ("block_call", used(|| session.block_call(book, block))),
        (
            "last_call",
            used(|| session.last_call(book, block, 0, &mut tag)),
        ),
    ]
}

/// The operations on a message.
fn of_messages(g: &Given) -> Vec<(&'static str, usize)> {
    let (schedule, key) = (g.built.schedule, &g.built.key);
    let (u, set) = (g.built.message_set(), g.built.last_set());
    let (mut out, mut length, mut small) = (vec![0; g.coded.len()], 0, 0);
    let mut tag_code = out.clone();
    let sealing = || bowlinette::code_for_sealing(u, &g.message, &mut out, &mut length);
    let sealing = used(sealing);
    let tag = || bowlinette::code_for_tag(u, &g.message, &mut tag_code, &mut length, &mut small);
    let tag = used(tag);
    let open = || {
        bowlinette::open(
            schedule,
            key,
            set,
            &g.block,
            &g.sealed,
            &mut out,
            &mut length,
        )
    };
    vec![
        ("code_for_sealing", sealing),
        ("code_for_tag", tag),
        ("open", used(open)),
        (
            "check",
            used(|| bowlinette::check(schedule, key, set, &g.message, &g.block, &mut small)),
        ),
    ]
}

/// The operations on an ink file.
fn of_ink() -> Vec<(&'static str, usize)> {
    let given = ink::Given::new(LENGTHS[1]);
    let (file, fields) = (&given.file, given.fields.fields());
    let (mut numbers, mut out, mut length) = ([0; 18], vec![0; file.len()], 0);
    let read = || bowlinette::read_ink(file, &mut numbers);
    let write = || proved(&fields, &mut out, &mut length);
    vec![("read_ink", used(read)), ("write_ink", used(write))]
}

/// How many bytes each operation uses, with the schedule and the key with which it uses most; the most first.
pub fn most() -> Vec<(&'static str, usize)> {
    let mut most = of_ink();
    for given in EACH.map(Given::new) {
        let operations = [
            of_keys(&given),
            of_makers(given.built.size()),
            of_books(&given),
            of_messages(&given),
        ];
        for (name, bytes) in operations.concat() {
            match most.iter_mut().find(|(other, _)| *other == name) {
                Some((_, most)) => *most = bytes.max(*most),
                None => most.push((name, bytes)),
            }
        }
    }
    most.sort_by_key(|&(_, bytes)| std::cmp::Reverse(bytes));
    most
}
