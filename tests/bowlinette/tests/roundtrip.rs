//! The two round trips of a message through all parts, on the proved library: what is tagged is Valid, what
//! is sealed comes back, and every byte of the buffers is what the reference leaves call by call,
//! after each refusal too.

use reference::chain::{CODING, MIDDLES, SET};
use reference::pad::LONGEST;
use reference::Size;
use shared::roundtrip::Given;
use shared::schedules::EACH;
use shared::Random;

/// The named lengths, and some random ones.
#[test]
fn messages_that_are_not_refused() {
    let mut random = Random(110);
    let bytes = random.bytes(LONGEST);
    for own in EACH {
        let mut lengths = vec![0, 1, 15, 16, 17, 9_412, LONGEST];
        lengths.extend((0..15).map(|_| random.below(3_000)));
        for n in lengths {
            let more = random.one_of(&[0, 1, 16, 100]);
            let given = Given::new(own, &bytes[LONGEST - n..], more, &mut random);
            assert_eq!(given.tagged(), 0, "{}", given.lengths());
            assert_eq!(given.sealed(), 0, "{}", given.lengths());
        }
    }
}

/// One thing made wrong, in the order in which the round trips meet them.
#[derive(Clone, Copy)]
enum Wrong {
    Schedule(u8),
    Key(usize),
    ChainLength(usize),
    Coding,
    Word,
    Mask,
    Book(usize),
    Message,
    Code(usize),
    Iv(usize),
    Sealed(usize),
    Out(usize),
}

impl Wrong {
    /// Makes it so: its number.
    fn make<'a>(self, size: Size, long: &'a [u8], given: &mut Given<'a>) -> u32 {
        let cut = |room: &mut usize, by: usize| *room -= by.min(*room);
        match self {
            Wrong::Schedule(number) => given.schedule = number,
            Wrong::Key(n) => given.key.resize(n, 7),
            Wrong::ChainLength(n) => given.chain.resize(n, 0),
            Wrong::Coding => given.chain[SET + 5] = given.chain[SET + 6],
            // word 3 of set 1, which is to be word 0 of set 0
            Wrong::Word => given
                .chain
                .swap(2 * SET + 24 * CODING, 2 * SET + 24 * CODING + 1),
            Wrong::Mask => given.chain[SET * (size.rounds() + 2) + MIDDLES * CODING] = 2,
            Wrong::Book(by) => cut(&mut given.rooms[0], by),
            Wrong::Message => given.message = long,
            Wrong::Code(by) => cut(&mut given.rooms[1], by),
            Wrong::Iv(n) => given.iv.resize(n, 7),
            Wrong::Sealed(by) => cut(&mut given.rooms[2], by),
            Wrong::Out(by) => cut(&mut given.rooms[3], by),
        }
        match self {
            Wrong::Schedule(_) => 34,
            Wrong::Key(_) => 1,
            Wrong::ChainLength(_) => 2,
            Wrong::Coding => 3,
            Wrong::Word => 4,
            Wrong::Mask => 5,
            Wrong::Iv(_) => 7,
            Wrong::Message => 8,
            Wrong::Book(_) | Wrong::Code(_) | Wrong::Sealed(_) | Wrong::Out(_) => 9,
        }
    }

    /// Whether the round trip of a tag does not meet it.
    fn is_of_sealing(self) -> bool {
        matches!(self, Wrong::Iv(_) | Wrong::Sealed(_) | Wrong::Out(_))
    }
}

/// Each refusal by itself, of both round trips.
#[test]
fn each_refusal() {
    let mut random = Random(111);
    let long = random.bytes(LONGEST + 1);
    for (schedule, size) in EACH {
        let chain = size.chain_bytes();
        let mut wrongs = vec![Wrong::Coding, Wrong::Word, Wrong::Mask, Wrong::Message];
        wrongs.extend([2, 3, 128, 255].map(Wrong::Schedule));
        wrongs.extend([0, 1, 15, 17, 33, 272].map(Wrong::Key));
        wrongs.extend([0, SET, chain - 1, chain + 1].map(Wrong::ChainLength));
        wrongs.extend([0, 1, 15, 17, 272].map(Wrong::Iv));
        for by in [1, 16, usize::MAX] {
            let short = [Wrong::Book, Wrong::Code, Wrong::Sealed, Wrong::Out];
            wrongs.extend(short.map(|wrong| wrong(by)));
        }
        for wrong in wrongs {
            for n in [0, 1, 40] {
                let mut given = Given::new((schedule, size), &long[..n], 0, &mut random);
                let number = wrong.make(size, &long, &mut given);
                let tagged = if wrong.is_of_sealing() { 0 } else { number };
                assert_eq!(given.sealed(), number, "{}", given.lengths());
                assert_eq!(given.tagged(), tagged, "{}", given.lengths());
            }
        }
    }
}

/// Any of them together: the first in the order of the calls is refused.
#[test]
fn the_first_refusal_decides() {
    let mut random = Random(112);
    let long = random.bytes(LONGEST + 1);
    let wrongs = [
        Wrong::Schedule(2),
        Wrong::Key(20),
        Wrong::Word,
        Wrong::Mask,
        Wrong::Book(1),
        Wrong::Message,
        Wrong::Code(1),
        Wrong::Iv(17),
        Wrong::Sealed(1),
        Wrong::Out(1),
    ];
    let right = EACH.map(|own| Given::new(own, &long[..40], 0, &mut random));
    for set in 0..1 << wrongs.len() {
        let (_, size) = EACH[set % 6];
        let (mut given, mut met) = (right[set % 6].clone(), Vec::new());
        for (k, wrong) in wrongs.into_iter().enumerate() {
            if set >> k & 1 == 1 {
                let number = wrong.make(size, &long, &mut given);
                met.push((number, wrong.is_of_sealing()));
            }
        }
        let sealed = met.first().map_or(0, |&(number, _)| number);
        let tagged = met.iter().find(|(_, of_sealing)| !of_sealing);
        let tagged = tagged.map_or(0, |&(number, _)| number);
        assert_eq!(given.sealed(), sealed, "{}", given.lengths());
        assert_eq!(given.tagged(), tagged, "{}", given.lengths());
    }
}
