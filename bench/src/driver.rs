//! Rounds, sealing, reading and tags from a book, beside Rust of two shapes: straight loops over half bytes
//! (`reference::driver` and `reading`, plain) and the proved driver's shape (`packed` and `packed_reading`,
//! alike). Each block comes out of the one before, as in a message, or is random where it is read, so that
//! the tables are read all over.

use crate::timing::Times;
use crate::{packed, packed_reading};
use bowlinette::Session;
use reference::{driver, lea::Block, reading, Size};
use shared::lent::{answer, told};
use shared::schedules::LEA;
use shared::{books, Random};
use std::hint::black_box as hide;

/// The Rust version to compare with.
#[derive(Clone, Copy)]
pub enum Shape {
    Plain,
    Alike,
}

/// The IV, and the first block of those that go through the rounds.
const IV: Block = [5; 16];

/// A random book, and so many coded bytes; or a random reading book, and so many sealed ones.
pub struct Given {
    book: Vec<u8>,
    coded: Vec<u8>,
}

impl Given {
    /// What a message of n bytes is when coded: as long for sealing as for a tag where n is no multiple
    /// of 16.
    pub fn new(size: Size, n: usize) -> Given {
        let mut random = Random(2);
        Given {
            book: books::built(LEA, size, &mut random).book,
            coded: random.bytes(n / 16 * 16 + 16),
        }
    }

    /// What a message of n bytes is when sealed, to be read.
    pub fn sealed(size: Size, n: usize) -> Given {
        let mut random = Random(2);
        let sealing = books::built(LEA, size, &mut random);
        Given {
            book: sealing.reading(&mut random).book,
            coded: random.bytes(n / 16 * 16 + 16),
        }
    }

    /// All of it sealed or read.
    fn pass(&self, rattle: bowlinette::Pass, rust: driver::Pass) -> Times {
        let (n, mut length) = (self.coded.len(), 0);
        let (mut out, mut other) = (vec![0; n], vec![0; n]);
        let given = || (hide(self.book.as_slice()), hide(self.coded.as_slice()));
        let times = Times::of(
            || {
                let (book, coded) = given();
                _ = hide(rattle(book, &IV, coded, &mut out, &mut length));
            },
            || {
                let (book, coded) = given();
                _ = hide(rust(book, &IV, coded, &mut other));
            },
        );
        assert!(out == other);
        times
    }
}

/// A block through all rounds of a book, into the block.
fn rattle_rounds(book: &[u8], x: &mut Block) {
    let block = *x;
    hide(bowlinette::run_rounds(hide(book), usize::MAX, &block, x));
}

/// A tag by the three calls of a session: begun, a block call for each block but the last, a last call.
fn tagged<S>(
    given: &Given,
    begin: impl Fn(&[u8]) -> Result<S, u32>,
    block_call: impl Fn(&mut S, &[u8], &[u8]) -> Result<(), u32>,
    last_call: impl Fn(&mut S, &[u8], &[u8], u8) -> Result<Block, u32>,
) -> Result<Block, u32> {
    let (book, coded) = (hide(given.book.as_slice()), hide(&given.coded));
    let (front, last) = coded.split_at(coded.len() - 16);
    let mut session = begin(book)?;
    for block in front.chunks_exact(16) {
        block_call(&mut session, book, block)?;
    }
    last_call(&mut session, book, last, 1)
}

fn rattle_tag(given: &Given) -> Result<Block, u32> {
    let (empty, zeros) = (Session::of([0; 16], 0, 0), [0; 16]);
    tagged(
        given,
        |book| told(empty, |session| session.begin(book)),
        |session, book, block| answer(session.block_call(book, block)),
        |session, book, last, kind| told(zeros, |tag| session.last_call(book, last, kind, tag)),
    )
}

fn plain_tag(given: &Given) -> Result<Block, u32> {
    use driver::Session as S;
    tagged(given, S::begin, S::block_call, S::last_call)
}

fn alike_tag(given: &Given) -> Result<Block, u32> {
    use packed::Session as S;
    tagged(given, S::begin, S::block_call, S::last_call)
}

/// One block through all rounds.
pub fn rounds(size: Size, shape: Shape) -> Times {
    let book = Given::new(size, 0).book;
    let rust = match shape {
        Shape::Plain => driver::run_rounds,
        Shape::Alike => packed::run_rounds,
    };
    let (mut x, mut y) = (IV, IV);
    let times = Times::of(
        || rattle_rounds(&book, &mut x),
        || y = rust(hide(&book), usize::MAX, &y).unwrap(),
    );
    let block = x;
    rattle_rounds(&book, &mut x);
    assert_eq!(rust(&book, usize::MAX, &block), Ok(x));
    times
}

/// Sealing beside as many blocks through the rounds.
pub fn seal_beside_rounds(given: &Given) -> Times {
    let (mut out, mut x, mut length) = (vec![0; given.coded.len()], IV, 0);
    let blocks = given.coded.len() / 16;
    Times::of(
        || {
            let (book, coded) = (hide(&given.book), hide(&given.coded));
            _ = hide(bowlinette::seal(book, &IV, coded, &mut out, &mut length));
        },
        || (0..blocks).for_each(|_| rattle_rounds(&given.book, &mut x)),
    )
}

/// Sealing.
pub fn seal(given: &Given, shape: Shape) -> Times {
    let rust = match shape {
        Shape::Plain => driver::seal,
        Shape::Alike => packed::seal,
    };
    given.pass(bowlinette::seal, rust)
}

/// Reading.
pub fn read(given: &Given, shape: Shape) -> Times {
    let rust = match shape {
        Shape::Plain => reading::read,
        Shape::Alike => packed_reading::read,
    };
    given.pass(bowlinette::read, rust)
}

/// A tag by session calls.
pub fn tag(given: &Given, shape: Shape) -> Times {
    let rust = match shape {
        Shape::Plain => plain_tag,
        Shape::Alike => alike_tag,
    };
    let (mut a, mut b) = ([0; 16], [0; 16]);
    let times = Times::of(
        || a = hide(rattle_tag(given)).unwrap(),
        || b = hide(rust(given)).unwrap(),
    );
    assert_eq!(a, b);
    times
}
