//! The tag session on both versions: after each call the answer and the three things that make a
//! session must be the same.

use crate::{Random, FILL};
use reference::driver;
use reference::lea::Block;

/// A call, without its book.
#[derive(Clone, Debug, PartialEq)]
pub enum Call {
    Begin,
    Block(Vec<u8>),
    Last(Vec<u8>, u8),
}

/// What an accepted call gives: a tag, if it is a last call.
pub type Answer = Result<Option<Block>, u32>;

/// The call on the proved library. A refusal must leave the session and the tag's place as they were,
/// and so must any call but a last one leave that place.
fn proved(session: &mut bowlinette::Session, book: &[u8], call: &Call) -> Answer {
    let (before, mut tag) = (*session, [FILL; 16]);
    let number = match call {
        Call::Begin => session.begin(book),
        Call::Block(coded) => session.block_call(book, coded),
        Call::Last(coded, kind) => session.last_call(book, coded, *kind, &mut tag),
    };
    if number != 0 {
        assert_eq!(
            (*session, tag),
            (before, [FILL; 16]),
            "changed after {number}"
        );
        return Err(number);
    }
    Ok(matches!(call, Call::Last(..)).then_some(tag))
}

/// The call on the reference.
fn reference(session: &mut driver::Session, book: &[u8], call: &Call) -> Answer {
    match call {
        Call::Begin => driver::Session::begin(book).map(|fresh| {
            *session = fresh;
            None
        }),
        Call::Block(coded) => session.block_call(book, coded).map(|()| None),
        Call::Last(coded, kind) => session.last_call(book, coded, *kind).map(Some),
    }
}

/// A session in both versions.
#[derive(Clone, Copy)]
pub struct Both {
    pub proved: bowlinette::Session,
    reference: driver::Session,
}

impl Both {
    /// A session in any state; each number but 0 means that it has finished.
    pub fn new(block: Block, taken: u16, flag: u8) -> Both {
        Both {
            proved: bowlinette::Session::of(block, taken, flag),
            reference: driver::Session {
                block,
                count: taken,
                finished: flag != 0,
            },
        }
    }

    /// One in any random state, near its limit or not.
    pub fn any(random: &mut Random) -> Both {
        let taken = match random.below(2) {
            0 => u16::MAX - random.below(8) as u16,
            _ => random.number() as u16,
        };
        let flag = random.one_of(&[0, 0, 0, 1, 2, 255]);
        Both::new(random.block(), taken, flag)
    }

    /// A fresh one.
    pub fn begun(book: &[u8]) -> Both {
        let mut both = Both::new([7; 16], 7, 7);
        assert_eq!(both.call(book, &Call::Begin), Ok(None));
        both
    }

    /// A call on both, which must answer the same and leave the same session.
    pub fn call(&mut self, book: &[u8], call: &Call) -> Answer {
        let flag = self.proved.finished;
        let told = proved(&mut self.proved, book, call);
        let want = reference(&mut self.reference, book, call);
        let given = (book.len(), book.first());
        assert_eq!(told, want, "{call:?}, book {given:?}");
        let due = match told {
            Ok(_) => u8::from(self.reference.finished),
            Err(_) => flag,
        };
        let parts = Both::new(self.reference.block, self.reference.count, due).proved;
        assert_eq!(self.proved, parts, "{call:?}, after {told:?}");
        told
    }
}

impl Call {
    /// A random call, of which about one in three has something wrong with it.
    pub fn any(random: &mut Random) -> Call {
        let length = match random.below(8) {
            0 => random.one_of(&[0, 15, 17, 32, 272]),
            _ => 16,
        };
        let coded = random.bytes(length);
        match random.below(40) {
            0 => Call::Begin,
            1 => Call::Last(coded, 0),
            2 => Call::Last(coded, 1),
            3..=5 => Call::Last(coded, random.one_of(&[2, 3, 128, 255])),
            _ => Call::Block(coded),
        }
    }
}

/// The tag of a coded message: from a fresh session, all blocks but the last in block calls.
pub fn tag(book: &[u8], coded: &[u8], kind: u8) -> Block {
    let (front, last) = coded.split_at(coded.len() - 16);
    let mut session = Both::begun(book);
    for block in front.chunks_exact(16) {
        let told = session.call(book, &Call::Block(block.to_vec()));
        assert_eq!(told, Ok(None), "a block of {} bytes", coded.len());
    }
    let told = session.call(book, &Call::Last(last.to_vec(), kind));
    told.unwrap().unwrap()
}
