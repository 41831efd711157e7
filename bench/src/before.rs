//! The proved library beside an earlier build of itself, in one process: `bench/run before LIBRARY` links
//! that one's check of a chain under another name. Without it there is nothing to print.

/// The check of a chain: its time, and its ratio to the time before.
#[cfg(before)]
pub fn print() {
    extern "C" {
        fn before_check_chain(key_length: usize, chain: *const u8, chain_length: usize) -> u32;
    }
    let check = |key: usize, chain: &[u8]| {
        let number = unsafe { before_check_chain(key, chain.as_ptr(), chain.len()) };
        number == 0
    };
    crate::row("  now : before", "", |size| {
        crate::book::check_chain_beside(size, check)
    });
}

#[cfg(not(before))]
pub fn print() {}
