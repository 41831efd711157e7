//! What the tests and the soak share: random keys, chains, books, messages and ink files, and each operation
//! called on the proved library and on the reference at once. Both must give the same number and leave
//! the same bytes, and a refusal must leave everything as it was.

pub mod archive;
pub mod book;
pub mod books;
pub mod chains;
pub mod cmac;
pub mod driver;
pub mod ink;
pub mod lent;
pub mod lists;
pub mod maker;
pub mod pad;
pub mod random;
pub mod roundtrip;
pub mod schedules;
pub mod session;
pub mod version;
pub mod way;

pub use lent::{FILL, LENGTH};
pub use random::Random;

/// The number due: that of the first reason that holds, or 0.
pub fn first(reasons: &[(u32, bool)]) -> u32 {
    let fits = reasons.iter().find(|(_, holds)| *holds);
    fits.map_or(0, |&(number, _)| number)
}

/// The first, a middle and the last of so many.
pub fn places(count: usize) -> [usize; 3] {
    [0, count / 2, count - 1]
}
