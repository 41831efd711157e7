//! Buffers that are overwritten before their memory is given back.

use std::ops::{Deref, DerefMut};
use std::ptr;

use crate::system;

/// The stack that a call of the library may have used, and more: the largest uses under 13 KiB.
const STACK: usize = 16 * 1024;

/// A huge page.
const HUGE: usize = 2 << 20;

/// Bytes that nobody finds in memory after they were dropped. They never move.
pub struct Secret {
    room: Box<[u8]>,
    start: usize,
    most: usize,
    length: usize,
}

impl Secret {
    /// So many zeros. Many are put into one huge page: the memory of 1 MiB is then there at once, not in 256 parts.
    pub fn zeros(length: usize) -> Secret {
        let spare = if length < HUGE / 4 { 0 } else { 2 * HUGE };
        let room = vec![0; length + spare].into_boxed_slice();
        let mut start = 0;
        if spare > 0 {
            start = HUGE - room.as_ptr() as usize % HUGE;
            system::in_huge_pages(&room[start..start + HUGE]);
        }
        Secret {
            room,
            start,
            most: length,
            length,
        }
    }

    /// Keeps the first bytes; those behind them stay to be overwritten.
    pub fn shorten(&mut self, length: usize) {
        self.length = self.length.min(length);
    }
}

impl Deref for Secret {
    type Target = [u8];

    fn deref(&self) -> &[u8] {
        &self.room[self.start..][..self.length]
    }
}

impl DerefMut for Secret {
    fn deref_mut(&mut self) -> &mut [u8] {
        &mut self.room[self.start..][..self.length]
    }
}

impl Drop for Secret {
    fn drop(&mut self) {
        wipe(&mut self.room[self.start..][..self.most]);
    }
}

/// Zeros, by stores that the compiler must keep.
fn wipe(bytes: &mut [u8]) {
    // Sound because any bytes are a u64 and zeros are any bytes, and each store goes through a reference.
    let (front, words, back) = unsafe { bytes.align_to_mut::<u64>() };
    for byte in front.iter_mut().chain(back) {
        unsafe { ptr::write_volatile(byte, 0) };
    }
    for word in words {
        unsafe { ptr::write_volatile(word, 0) };
    }
}

/// Calls the library, and overwrites the part of the stack on which the call worked.
pub fn guarded<T>(call: impl FnOnce() -> T) -> T {
    let answer = call();
    wipe_stack();
    answer
}

#[inline(never)]
fn wipe_stack() {
    wipe(&mut [0; STACK]);
}
