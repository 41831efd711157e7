//! The two round trips on the proved library: every byte of the buffers must be what the reference leaves call
//! by call, after each refusal too; what is tagged must be Valid, and what is sealed must come back.

use crate::{chains, Random, FILL, LENGTH};
use reference::chain::SET;
use reference::pad::BLOCK;
use reference::{book, driver, pad, refusal, Size};

/// What a round trip is given, and the lengths of its buffers: book, code, sealed file, message.
#[derive(Clone)]
pub struct Given<'a> {
    pub schedule: u8,
    pub key: Vec<u8>,
    pub chain: Vec<u8>,
    pub iv: Vec<u8>,
    pub message: &'a [u8],
    pub rooms: [usize; 4],
}

/// What a round trip leaves: its number, what it told, and its buffers.
#[derive(PartialEq)]
struct Left<T, const N: usize> {
    number: u32,
    told: T,
    buffers: [Vec<u8>; N],
}

impl<'a> Given<'a> {
    /// A random key, chain and IV, and buffers with so many bytes more than both need.
    pub fn new(
        (schedule, size): (u8, Size),
        message: &'a [u8],
        more: usize,
        random: &mut Random,
    ) -> Given<'a> {
        let code = message.len() / BLOCK * BLOCK + BLOCK;
        Given {
            schedule,
            key: random.bytes(size.key_bytes()),
            chain: chains::valid(size, random),
            iv: random.bytes(BLOCK),
            message,
            rooms: [size.book_bytes(), code, code, code].map(|n| n + more),
        }
    }

    fn buffers<const N: usize>(&self) -> [Vec<u8>; N] {
        std::array::from_fn(|k| vec![FILL; self.rooms[k]])
    }

    /// The round trip of a tag: the number. All that is left must be as due.
    pub fn tagged(&self) -> u32 {
        let (mut buffers, mut told) = (self.buffers(), FILL);
        let number = bowlinette::tag_roundtrip(
            self.schedule,
            &self.key,
            &self.chain,
            self.message,
            &mut buffers,
            &mut told,
        );
        let left = Left {
            number,
            told,
            buffers,
        };
        assert!(left == self.tag_due(), "{}: {number}", self.lengths());
        number
    }

    /// The round trip of a sealed file, as that of a tag.
    pub fn sealed(&self) -> u32 {
        let (mut buffers, mut told) = (self.buffers(), LENGTH);
        let (key, chain, iv) = (&self.key, &self.chain, &self.iv);
        let number = bowlinette::seal_roundtrip(
            self.schedule,
            key,
            chain,
            iv,
            self.message,
            &mut buffers,
            &mut told,
        );
        let left = Left {
            number,
            told,
            buffers,
        };
        assert!(left == self.seal_due(), "{}: {number}", self.lengths());
        number
    }

    /// What the round trip of a tag must leave: the book, the code, and Valid.
    fn tag_due(&self) -> Left<u8, 2> {
        let mut buffers = self.buffers();
        let [book, coded] = &mut buffers;
        let written = || -> Result<(), u32> {
            book::build(self.schedule, &self.key, &self.chain, book)?;
            pad::code_for_tag(&self.chain[..SET], self.message, coded)?;
            Ok(())
        }();
        Left {
            number: written.err().unwrap_or(0),
            told: written.map_or(FILL, |()| 1),
            buffers,
        }
    }

    /// What the round trip of a sealed file must leave: the book, the code, the sealed file, the message.
    fn seal_due(&self) -> Left<u64, 4> {
        let mut buffers = self.buffers();
        let [book, coded, sealed, out] = &mut buffers;
        let written = || -> Result<(), u32> {
            book::build(self.schedule, &self.key, &self.chain, book)?;
            let n = pad::code_for_sealing(&self.chain[..SET], self.message, coded)?;
            let length = Size::of_key(self.key.len()).unwrap().book_bytes();
            driver::seal(&book[..length], &self.iv, &coded[..n], sealed)?;
            let room = out.get_mut(..n).ok_or(refusal::SHORT_OUTPUT)?;
            room[..self.message.len()].copy_from_slice(self.message);
            Ok(())
        }();
        Left {
            number: written.err().unwrap_or(0),
            told: written.map_or(LENGTH, |()| self.message.len() as u64),
            buffers,
        }
    }

    pub fn lengths(&self) -> String {
        let (key, chain, iv) = (self.key.len(), self.chain.len(), self.iv.len());
        let (schedule, message, rooms) = (self.schedule, self.message.len(), self.rooms);
        format!("schedule {schedule}, key {key}, chain {chain}, IV {iv}, message {message}, buffers {rooms:?}")
    }
}
