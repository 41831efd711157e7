//! What is lent to a call: filled beforehand, and looked at whole afterwards.

use std::fmt::Debug;

/// What bytes and lengths hold before a call. It is neither the mark of a record nor the length of a key, which
/// would be missed if they were not written.
pub const FILL: u8 = 0x5a;
pub const LENGTH: u64 = 0x5a5a_5a5a_5a5a_5a5a;

/// How many filled elements stand on both sides of those that are lent.
const GUARD: usize = 16;

/// What a call gives and leaves, lent so many elements; those around them must stay.
fn lent<T, R>(fill: T, count: usize, call: impl FnOnce(&mut [T]) -> R) -> (R, Vec<T>)
where
    T: Copy + PartialEq,
{
    let mut all = vec![fill; count + 2 * GUARD];
    let given = call(&mut all[GUARD..GUARD + count]);
    let after = all.split_off(GUARD + count);
    let left = all.split_off(GUARD);
    let stays = |x: &T| *x == fill;
    assert!(all.iter().all(stays), "before what is written");
    assert!(after.iter().all(stays), "after what is written");
    (given, left)
}

/// What a call of the proved library writes over a value; if it refuses, the value must stay.
pub fn told<T>(before: T, call: impl FnOnce(&mut T) -> u32) -> Result<T, u32>
where
    T: Copy + PartialEq + Debug,
{
    let mut value = before;
    match call(&mut value) {
        0 => Ok(value),
        number => {
            assert_eq!(value, before, "written after {number}");
            Err(number)
        }
    }
}

/// The same for an array, the elements around which must stay too.
pub fn written<T, const N: usize>(
    fill: T,
    call: impl FnOnce(&mut [T; N]) -> u32,
) -> Result<[T; N], u32>
where
    T: Copy + PartialEq + Debug,
{
    let (number, left) = lent(fill, N, |out| call(out.try_into().unwrap()));
    told([fill; N], |array| {
        array.copy_from_slice(&left);
        number
    })
}

/// A call on both versions, each with so many filled bytes: what they give must be the same, and what
/// they leave too, all of it filled still where they refuse.
pub fn both<R>(
    name: impl Debug,
    room: usize,
    proved: impl FnOnce(&mut [u8]) -> Result<R, u32>,
    reference: impl FnOnce(&mut [u8]) -> Result<R, u32>,
) -> (Result<R, u32>, Vec<u8>)
where
    R: PartialEq + Debug,
{
    let (given, left) = lent(FILL, room, proved);
    let mut due = vec![FILL; room];
    let want = reference(&mut due);
    assert_eq!(given, want, "{name:?}");
    if left != due {
        let apart = left.iter().zip(&due).position(|(x, y)| x != y);
        panic!("{name:?}: the first byte that differs: {apart:?}");
    }
    if let Err(number) = given {
        let stays = left.iter().all(|&x| x == FILL);
        assert!(stays, "{name:?}: written after {number}");
    }
    (given, left)
}

/// A number that a call returned, as an answer.
pub fn answer(number: u32) -> Result<(), u32> {
    match number {
        0 => Ok(()),
        _ => Err(number),
    }
}
