//! The numbers of the two schedules.

use reference::Size;

/// The number of LEA's, for what stays with it.
pub const LEA: u8 = 0;
const WF_LEA: u8 = 1;

/// Both, each with all key sizes.
pub const EACH: [(u8, Size); 6] = [
    (LEA, Size::Lea128),
    (LEA, Size::Lea192),
    (LEA, Size::Lea256),
    (WF_LEA, Size::Lea128),
    (WF_LEA, Size::Lea192),
    (WF_LEA, Size::Lea256),
];
