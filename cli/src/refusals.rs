//! The library's answers: done, or a refusal, of each of which there is the sentence, as the header has it, and what
//! to do.

use crate::secret::guarded;

/// What did not end in padding.
pub const NO_PADDING: u32 = 11;

/// Calls the library, and leaves nothing of the call on the stack: done, or the refusal.
pub fn answer(call: impl FnOnce() -> u32) -> Result<(), u32> {
    match guarded(call) {
        0 => Ok(()),
        refused => Err(refused),
    }
}

/// A refusal.
pub struct Refusal {
    pub number: u32,
    pub sentence: &'static str,
    pub remedy: &'static str,
}

const fn refusal(number: u32, sentence: &'static str, remedy: &'static str) -> Refusal {
    Refusal {
        number,
        sentence,
        remedy,
    }
}

/// All of them, by number.
pub const REFUSALS: [Refusal; 18] = [
    refusal(
        1,
        "The key is not of 16, 24 or 32 bytes.",
        "Look at the length of the archive's key file: it was cut short or is another file. Fetch it from the works again.",
    ),
    refusal(
        2,
        "The chain has not the length that goes with the key, or the set is not of 512 bytes.",
        "A set has 512 bytes, a chain 23104, 26784 or 30464 for keys of 16, 24 or 32 bytes. Fetch the file again, or say the right --key-size.",
    ),
    refusal(
        3,
        "A coding is no permutation of 0 to 15.",
        "The set or chain was damaged, or is another file: in every run of 16 bytes each of 0 to 15 must stand once. Fetch it again.",
    ),
    refusal(
        4,
        "Word 3 of a set of the chain is not coded as word 0 of the set before it, or in a reading chain word 0 as word 3.",
        "Sets and reading sets may have been mixed up: try check-chain with, or without, --reading. Else make the chain again.",
    ),
    refusal(
        5,
        "A mask of the chain is over 1.",
        "The last 24 bytes of each round of a chain are 0 or 1. The chain was damaged, or put together in another order: make it again.",
    ),
    refusal(
        6,
        "The book, the reading book or the tables of a round have a length that none has.",
        "The file was cut short or is another one. Books of before version 2.0, which have no byte for the key's length in front, are refused so too. Fetch it from the works again.",
    ),
    refusal(
        7,
        "The block, IV or tag is not of 16 bytes.",
        "For programs that link the library: a block, an IV and a tag have 16 bytes each.",
    ),
    refusal(
        8,
        "The message is too long, or coded or sealed bytes are none, too many or no whole blocks.",
        "A message has at most 1048575 bytes. Seal it in parts, a file for each.",
    ),
    refusal(
        9,
        "The output buffer is too short.",
        "For programs that link the library: give the function as many bytes as its header asks for.",
    ),
    refusal(
        10,
        "The kind is neither 0 nor 1.",
        "For programs that link the library: the last call of a tag session gets the kind that coding for a tag told.",
    ),
    refusal(
        11,
        "What was opened does not end in padding.",
        "The file was altered, or is of another pad, key or schedule: look at its pad number with show. Tell whoever sent the file no more than that it is not valid.",
    ),
    refusal(
        21,
        "The session is finished.",
        "For programs that link the library: a session takes no call after its last one. Begin a new one for each message.",
    ),
    refusal(
        22,
        "The session has taken 65,535 block calls.",
        "For programs that link the library: a message has at most 65536 blocks, the last of them by the last call.",
    ),
    refusal(
        30,
        "A record of the ink file has a wrong mark, kind or place, is missing, has its first six bytes cut short, or is a fifth remark.",
        "The file was damaged, cut short, or is no ink file: show tells where. Of a remark that is to be written: its kind is 10 to 1f in hex, and there are at most four.",
    ),
    refusal(
        31,
        "A record of the ink file has a length that its kind does not allow, or that goes past the end of the file.",
        "The file was damaged or cut short: show tells where. Of what is to be written: a pad number has 8 bytes, a remark at most 255.",
    ),
    refusal(
        32,
        "The random bytes ran out.",
        "Of that pad or chain nothing was made. Go on with the number of the pad that is missing; a program of one's own gives more random bytes.",
    ),
    refusal(
        33,
        "The first byte of the book is not the key length that goes with the length of the book.",
        "The book was damaged: as its first byte is wrong, others may be. Fetch it from the works again.",
    ),
    refusal(
        34,
        "The schedule is neither 0, LEA's, nor 1, WF-LEA's.",
        "The archive's schedule file has the word lea or wf-lea, as the works was told for the pad. Fetch it from the works again.",
    ),
];

/// The sentence of a number.
pub fn sentence(number: u32) -> &'static str {
    let known = REFUSALS.iter().find(|refusal| refusal.number == number);
    known.map_or("This number is not known.", |refusal| refusal.sentence)
}
