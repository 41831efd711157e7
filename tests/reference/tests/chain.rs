//! The checks of chains in the reference: which masks are valid.

use reference::chain::{check, check_reading};
use reference::Size;
use shared::chains::{uniform, IDENTITY};

/// A chain, of either kind, with any byte for one of the 24 masks of its last round is valid if that is 0 or 1.
#[test]
fn masks() {
    for size in Size::ALL {
        let mut chain = uniform(size, IDENTITY, 0);
        for at in chain.len() - 24..chain.len() {
            for byte in 0..=255 {
                chain[at] = byte;
                let due = if byte > 1 { Some(5) } else { None };
                let told = [check, check_reading].map(|f| f(size.key_bytes(), &chain).err());
                assert_eq!(told, [due; 2], "{size:?}, {at}, {byte}");
            }
            chain[at] = 1;
        }
    }
}
