//! The numbers of the refusals (01, "Refusals from the input" and "Refusals from the state"; 02, requests
//! 2026-02, 2026-03 and 2026-05 to 2026-07).

/// The key has none of the three sizes.
pub const KEY_LENGTH: u32 = 1;
/// A chain has not the length that the key needs, or a lone set not 512 bytes.
pub const CHAIN_LENGTH: u32 = 2;
/// A coding is no permutation.
pub const NO_PERMUTATION: u32 = 3;
/// Word 3 of a set is not coded as word 0 of the set before; in a reading chain, word 0 not as word 3.
pub const WORD_RULE: u32 = 4;
/// A mask is over 1.
pub const MASK: u32 = 5;
/// A book or reading book has none of its three lengths, or the tables of a round not 18,432 bytes.
pub const BOOK_LENGTH: u32 = 6;
/// A block, IV or tag is not of 16 bytes.
pub const BLOCK_LENGTH: u32 = 7;
/// A message has over 1,048,575 bytes; a coded or sealed one none, over 1,048,576, or a part of a block.
pub const MESSAGE_LENGTH: u32 = 8;
/// The output is shorter than what is to be written; for opening, than the sealed input.
pub const SHORT_OUTPUT: u32 = 9;
/// A kind is neither 0 nor 1.
pub const KIND: u32 = 10;
/// The padding of an opened message is none.
pub const PADDING: u32 = 11;
/// A call on a finished session.
pub const FINISHED: u32 = 21;
/// A block call after 65,535 of them.
pub const LIMIT: u32 = 22;
/// A mark, kind or order other than the format's, a record missing or its head cut short, a fifth remark.
pub const RECORD: u32 = 30;
/// The length of a record is not allowed for its kind, or past the file's end.
pub const RECORD_LENGTH: u32 = 31;
/// The random bytes ran out.
pub const RAN_OUT: u32 = 32;
/// The byte in front of a book is not the key length that belongs to the book's length.
pub const SIZE_BYTE: u32 = 33;
/// The number of a schedule is neither 0 nor 1; comes before all others.
pub const SCHEDULE: u32 = 34;
