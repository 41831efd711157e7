//! The works: everything for one pad, made from random bytes.

use std::io::Read;

use crate::failure::{Failure, Named};
use crate::refusals::answer;
use crate::secret::Secret;
use crate::sizes::{Size, SCHEDULES, SET};

/// Fills a buffer with random bytes.
pub fn fill(generator: &mut dyn Read, room: &mut [u8]) -> Result<(), Failure> {
    generator
        .read_exact(room)
        .map_err(|error| generator_named().failed(error))
}

fn generator_named() -> Named {
    Named::new("the system's", "generator")
}

/// Room for what is made for one pad, used for one pad after the other.
pub struct Works {
    schedule: u8,
    size: Size,
    key: Secret,
    random: Secret,
    chain: Secret,
    reading_chain: Secret,
    book: Secret,
    reading_book: Secret,
}

impl Works {
    pub fn new(schedule: u8, size: Size) -> Works {
        Works {
            schedule,
            size,
            key: Secret::zeros(size.key),
            random: Secret::zeros(size.random),
            chain: Secret::zeros(size.chain()),
            reading_chain: Secret::zeros(size.chain()),
            book: Secret::zeros(size.book()),
            reading_book: Secret::zeros(size.reading()),
        }
    }

    /// Makes all of it for a new pad. No random byte is used twice.
    pub fn make(&mut self, generator: &mut dyn Read) -> Result<(), Failure> {
        let (size, schedule, mut drawn) = (self.size, self.schedule, 0);
        fill(generator, &mut self.key)?;
        fill(generator, &mut self.random)?;
        let (random, chain) = (&self.random, &mut self.chain);
        done(|| libbowlinette::make_chain(size.key, random, chain, &mut drawn))?;
        fill(generator, &mut self.random)?;
        let (random, set) = (&self.random, &self.chain[size.last_set()..][..SET]);
        let chain = &mut self.reading_chain;
        done(|| libbowlinette::make_reading_chain(size.key, set, random, chain, &mut drawn))?;
        let (chain, book) = (&self.chain, &mut self.book);
        done(|| libbowlinette::build(schedule, &self.key, chain, book))?;
        let (chain, book) = (&self.reading_chain, &mut self.reading_book);
        done(|| libbowlinette::build_reading(schedule, &self.key, chain, book))
    }

    /// The files of a pad of this number: what each station may hold, and no more.
    pub fn files<'a>(&'a self, number: &'a str) -> [(&'static str, &'a [u8]); 8] {
        [
            ("pad/number", number.as_bytes()),
            ("pad/message-set", &self.chain[..SET]),
            ("driver/book", &self.book),
            ("screen/reading-book", &self.reading_book),
            ("screen/message-set", &self.reading_chain[..SET]),
            (
                "archive/schedule",
                SCHEDULES[usize::from(self.schedule)].as_bytes(),
            ),
            ("archive/key", &self.key),
            (
                "archive/last-set",
                &self.chain[self.size.last_set()..][..SET],
            ),
        ]
    }
}

/// A refusal here would be of the random bytes, which are enough but once in 2^390 times.
fn done(call: impl FnOnce() -> u32) -> Result<(), Failure> {
    answer(call).map_err(|refused| generator_named().refused(refused))
}
