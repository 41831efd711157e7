//! The functions of include/bowlinette.h for Rust, over slices. Each but `is_valid` returns 0, or the number of a
//! refusal, in which case what it may write to is as it was.

mod c {
    extern "C" {
        pub fn bowlinette_encipher(
            schedule: u8,
            key: *const u8,
            key_length: usize,
            block: *const u8,
            block_length: usize,
            out: *mut u8,
        ) -> u32;
        pub fn bowlinette_decipher(
            schedule: u8,
            key: *const u8,
            key_length: usize,
            block: *const u8,
            block_length: usize,
            out: *mut u8,
        ) -> u32;
        pub fn bowlinette_first_rounds(
            schedule: u8,
            key: *const u8,
            key_length: usize,
            rounds: usize,
            block: *const u8,
            block_length: usize,
            out: *mut u8,
        ) -> u32;
        pub fn bowlinette_round_keys(
            schedule: u8,
            key: *const u8,
            key_length: usize,
            round: usize,
            row: *mut u32,
        ) -> u32;
        pub fn bowlinette_check_set(set: *const u8, set_length: usize) -> u32;
        pub fn bowlinette_check_chain(
            key_length: usize,
            chain: *const u8,
            chain_length: usize,
        ) -> u32;
        pub fn bowlinette_check_reading_chain(
            key_length: usize,
            chain: *const u8,
            chain_length: usize,
        ) -> u32;
        pub fn bowlinette_make_chain(
            key_length: usize,
            random: *const u8,
            random_length: usize,
            out: *mut u8,
            out_length: usize,
            drawn: *mut u64,
        ) -> u32;
        pub fn bowlinette_make_reading_chain(
            key_length: usize,
            set: *const u8,
            set_length: usize,
            random: *const u8,
            random_length: usize,
            out: *mut u8,
            out_length: usize,
            drawn: *mut u64,
        ) -> u32;
        pub fn bowlinette_build(
            schedule: u8,
            key: *const u8,
            key_length: usize,
            chain: *const u8,
            chain_length: usize,
            out: *mut u8,
            out_length: usize,
        ) -> u32;
        pub fn bowlinette_build_round(
            schedule: u8,
            key: *const u8,
            key_length: usize,
            chain: *const u8,
            chain_length: usize,
            round: usize,
            out: *mut u8,
            out_length: usize,
        ) -> u32;
        pub fn bowlinette_build_reading(
            schedule: u8,
            key: *const u8,
            key_length: usize,
            chain: *const u8,
            chain_length: usize,
            out: *mut u8,
            out_length: usize,
        ) -> u32;
        pub fn bowlinette_code_for_sealing(
            u: *const u8,
            u_length: usize,
            message: *const u8,
            message_length: usize,
            out: *mut u8,
            out_length: usize,
            length: *mut u64,
        ) -> u32;
        pub fn bowlinette_code_for_tag(
            u: *const u8,
            u_length: usize,
            message: *const u8,
            message_length: usize,
            out: *mut u8,
            out_length: usize,
            length: *mut u64,
            kind: *mut u8,
        ) -> u32;
        pub fn bowlinette_run_round(
            tables: *const u8,
            tables_length: usize,
            block: *const u8,
            block_length: usize,
            out: *mut u8,
        ) -> u32;
        pub fn bowlinette_run_rounds(
            book: *const u8,
            book_length: usize,
            rounds: usize,
            block: *const u8,
            block_length: usize,
            out: *mut u8,
        ) -> u32;
        pub fn bowlinette_seal(
            book: *const u8,
            book_length: usize,
            iv: *const u8,
            iv_length: usize,
            coded: *const u8,
            coded_length: usize,
            out: *mut u8,
            out_length: usize,
            length: *mut u64,
        ) -> u32;
        pub fn bowlinette_read(
            book: *const u8,
            book_length: usize,
            iv: *const u8,
            iv_length: usize,
            sealed: *const u8,
            sealed_length: usize,
            out: *mut u8,
            out_length: usize,
            length: *mut u64,
        ) -> u32;
        pub fn bowlinette_begin(
            session: *mut super::Session,
            book: *const u8,
            book_length: usize,
        ) -> u32;
        pub fn bowlinette_block_call(
            session: *mut super::Session,
            book: *const u8,
            book_length: usize,
            coded: *const u8,
            coded_length: usize,
        ) -> u32;
        pub fn bowlinette_last_call(
            session: *mut super::Session,
            book: *const u8,
            book_length: usize,
            coded: *const u8,
            coded_length: usize,
            kind: u8,
            tag: *mut u8,
        ) -> u32;
        pub fn bowlinette_open(
            schedule: u8,
            key: *const u8,
            key_length: usize,
            set: *const u8,
            set_length: usize,
            iv: *const u8,
            iv_length: usize,
            sealed: *const u8,
            sealed_length: usize,
            out: *mut u8,
            out_length: usize,
            length: *mut u64,
        ) -> u32;
        pub fn bowlinette_check(
            schedule: u8,
            key: *const u8,
            key_length: usize,
            set: *const u8,
            set_length: usize,
            message: *const u8,
            message_length: usize,
            tag: *const u8,
            tag_length: usize,
            valid: *mut u8,
        ) -> u32;
        pub fn bowlinette_is_valid(
            schedule: u8,
            key: *const u8,
            key_length: usize,
            set: *const u8,
            set_length: usize,
            message: *const u8,
            message_length: usize,
            tag: *const u8,
            tag_length: usize,
        ) -> u32;
        pub fn bowlinette_read_ink(file: *const u8, file_length: usize, ink: *mut u64) -> u32;
        pub fn bowlinette_write_ink(
            pad_number: *const u8,
            pad_number_length: usize,
            iv: *const u8,
            iv_length: usize,
            sealed: *const u8,
            sealed_length: usize,
            tag: *const u8,
            tag_length: usize,
            kinds: *const u8,
            kinds_length: usize,
            remark0: *const u8,
            remark0_length: usize,
            remark1: *const u8,
            remark1_length: usize,
            remark2: *const u8,
            remark2_length: usize,
            remark3: *const u8,
            remark3_length: usize,
            out: *mut u8,
            out_length: usize,
            length: *mut u64,
        ) -> u32;
    }
}

// Each call below is sound because pointers and lengths come from references: what is read is as
// long as said, what is written has the size that the header names, and the two do not overlap.

/// A block enciphered, into out.
#[inline]
pub fn encipher(schedule: u8, key: &[u8], block: &[u8], out: &mut [u8; 16]) -> u32 {
    unsafe {
        c::bowlinette_encipher(
            schedule,
            key.as_ptr(),
            key.len(),
            block.as_ptr(),
            block.len(),
            out.as_mut_ptr(),
        )
    }
}

/// A block deciphered, into out.
#[inline]
pub fn decipher(schedule: u8, key: &[u8], block: &[u8], out: &mut [u8; 16]) -> u32 {
    unsafe {
        c::bowlinette_decipher(
            schedule,
            key.as_ptr(),
            key.len(),
            block.as_ptr(),
            block.len(),
            out.as_mut_ptr(),
        )
    }
}

/// A block after the first rounds, into out.
#[inline]
pub fn first_rounds(
    schedule: u8,
    key: &[u8],
    rounds: usize,
    block: &[u8],
    out: &mut [u8; 16],
) -> u32 {
    unsafe {
        c::bowlinette_first_rounds(
            schedule,
            key.as_ptr(),
            key.len(),
            rounds,
            block.as_ptr(),
            block.len(),
            out.as_mut_ptr(),
        )
    }
}

/// The round keys of one round, into row.
#[inline]
pub fn round_keys(schedule: u8, key: &[u8], round: usize, row: &mut [u32; 6]) -> u32 {
    unsafe { c::bowlinette_round_keys(schedule, key.as_ptr(), key.len(), round, row.as_mut_ptr()) }
}

/// Whether a set that comes alone is one.
#[inline]
pub fn check_set(set: &[u8]) -> u32 {
    unsafe { c::bowlinette_check_set(set.as_ptr(), set.len()) }
}

/// Whether a chain is one for keys of so many bytes.
#[inline]
pub fn check_chain(key_length: usize, chain: &[u8]) -> u32 {
    unsafe { c::bowlinette_check_chain(key_length, chain.as_ptr(), chain.len()) }
}

/// Whether a reading chain is one for keys of so many bytes.
#[inline]
pub fn check_reading_chain(key_length: usize, chain: &[u8]) -> u32 {
    unsafe { c::bowlinette_check_reading_chain(key_length, chain.as_ptr(), chain.len()) }
}

/// A chain for keys of so many bytes made from random bytes, to the front of out, and how many of these were
/// drawn, into drawn.
#[inline]
pub fn make_chain(key_length: usize, random: &[u8], out: &mut [u8], drawn: &mut u64) -> u32 {
    unsafe {
        c::bowlinette_make_chain(
            key_length,
            random.as_ptr(),
            random.len(),
            out.as_mut_ptr(),
            out.len(),
            drawn,
        )
    }
}

/// A reading chain made from random bytes and a given set 0.
#[inline]
pub fn make_reading_chain(
    key_length: usize,
    set: &[u8],
    random: &[u8],
    out: &mut [u8],
    drawn: &mut u64,
) -> u32 {
    unsafe {
        c::bowlinette_make_reading_chain(
            key_length,
            set.as_ptr(),
            set.len(),
            random.as_ptr(),
            random.len(),
            out.as_mut_ptr(),
            out.len(),
            drawn,
        )
    }
}

/// The book of a key and a chain, to the front of out.
#[inline]
pub fn build(schedule: u8, key: &[u8], chain: &[u8], out: &mut [u8]) -> u32 {
    unsafe {
        c::bowlinette_build(
            schedule,
            key.as_ptr(),
            key.len(),
            chain.as_ptr(),
            chain.len(),
            out.as_mut_ptr(),
            out.len(),
        )
    }
}

/// The tables of one round of the book, to the front of out.
#[inline]
pub fn build_round(schedule: u8, key: &[u8], chain: &[u8], round: usize, out: &mut [u8]) -> u32 {
    unsafe {
        c::bowlinette_build_round(
            schedule,
            key.as_ptr(),
            key.len(),
            chain.as_ptr(),
            chain.len(),
            round,
            out.as_mut_ptr(),
            out.len(),
        )
    }
}

/// The reading book of a key and a reading chain, to the front of out.
#[inline]
pub fn build_reading(schedule: u8, key: &[u8], chain: &[u8], out: &mut [u8]) -> u32 {
    unsafe {
        c::bowlinette_build_reading(
            schedule,
            key.as_ptr(),
            key.len(),
            chain.as_ptr(),
            chain.len(),
            out.as_mut_ptr(),
            out.len(),
        )
    }
}

/// A message coded for sealing, to the front of out, and the length of that, into length.
#[inline]
pub fn code_for_sealing(u: &[u8], message: &[u8], out: &mut [u8], length: &mut u64) -> u32 {
    unsafe {
        c::bowlinette_code_for_sealing(
            u.as_ptr(),
            u.len(),
            message.as_ptr(),
            message.len(),
            out.as_mut_ptr(),
            out.len(),
            length,
        )
    }
}

/// A message coded for a tag, to the front of out, and the length and the kind of that, into length
/// and kind.
#[inline]
pub fn code_for_tag(
    u: &[u8],
    message: &[u8],
    out: &mut [u8],
    length: &mut u64,
    kind: &mut u8,
) -> u32 {
    unsafe {
        c::bowlinette_code_for_tag(
            u.as_ptr(),
            u.len(),
            message.as_ptr(),
            message.len(),
            out.as_mut_ptr(),
            out.len(),
            length,
            kind,
        )
    }
}

/// A block through the tables of one round, into out.
#[inline]
pub fn run_round(tables: &[u8], block: &[u8], out: &mut [u8; 16]) -> u32 {
    unsafe {
        c::bowlinette_run_round(
            tables.as_ptr(),
            tables.len(),
            block.as_ptr(),
            block.len(),
            out.as_mut_ptr(),
        )
    }
}

/// A block through the first rounds of a book, into out.
#[inline]
pub fn run_rounds(book: &[u8], rounds: usize, block: &[u8], out: &mut [u8; 16]) -> u32 {
    unsafe {
        c::bowlinette_run_rounds(
            book.as_ptr(),
            book.len(),
            rounds,
            block.as_ptr(),
            block.len(),
            out.as_mut_ptr(),
        )
    }
}

/// Sealing or reading.
pub type Pass = fn(&[u8], &[u8], &[u8], &mut [u8], &mut u64) -> u32;

/// A coded message sealed, to the front of out, and the length of that, into length.
#[inline]
pub fn seal(book: &[u8], iv: &[u8], coded: &[u8], out: &mut [u8], length: &mut u64) -> u32 {
    unsafe {
        c::bowlinette_seal(
            book.as_ptr(),
            book.len(),
            iv.as_ptr(),
            iv.len(),
            coded.as_ptr(),
            coded.len(),
            out.as_mut_ptr(),
            out.len(),
            length,
        )
    }
}

/// A sealed message read by a reading book, to the front of out, and the length of that, into length.
#[inline]
pub fn read(book: &[u8], iv: &[u8], sealed: &[u8], out: &mut [u8], length: &mut u64) -> u32 {
    unsafe {
        c::bowlinette_read(
            book.as_ptr(),
            book.len(),
            iv.as_ptr(),
            iv.len(),
            sealed.as_ptr(),
            sealed.len(),
            out.as_mut_ptr(),
            out.len(),
            length,
        )
    }
}

/// The 19 bytes of a tag session, by their parts: its block, its count, lowest byte first, and a byte
/// that is not 0 where it has finished.
#[derive(Clone, Copy, Debug, PartialEq, Eq)]
#[repr(C)]
pub struct Session {
    pub block: [u8; 16],
    pub taken: [u8; 2],
    pub finished: u8,
}

impl Session {
    /// A session of these parts.
    pub const fn of(block: [u8; 16], taken: u16, finished: u8) -> Session {
        Session {
            block,
            taken: taken.to_le_bytes(),
            finished,
        }
    }

    /// Begins the session.
    #[inline]
    pub fn begin(&mut self, book: &[u8]) -> u32 {
        unsafe { c::bowlinette_begin(self, book.as_ptr(), book.len()) }
    }

    /// A block call.
    #[inline]
    pub fn block_call(&mut self, book: &[u8], coded: &[u8]) -> u32 {
        unsafe {
            c::bowlinette_block_call(self, book.as_ptr(), book.len(), coded.as_ptr(), coded.len())
        }
    }

    /// A last call, its tag into tag.
    #[inline]
    pub fn last_call(&mut self, book: &[u8], coded: &[u8], kind: u8, tag: &mut [u8; 16]) -> u32 {
        unsafe {
            c::bowlinette_last_call(
                self,
                book.as_ptr(),
                book.len(),
                coded.as_ptr(),
                coded.len(),
                kind,
                tag.as_mut_ptr(),
            )
        }
    }
}

/// A sealed message opened, to the front of out, and its length, into length.
#[inline]
pub fn open(
    schedule: u8,
    key: &[u8],
    set: &[u8],
    iv: &[u8],
    sealed: &[u8],
    out: &mut [u8],
    length: &mut u64,
) -> u32 {
    unsafe {
        c::bowlinette_open(
            schedule,
            key.as_ptr(),
            key.len(),
            set.as_ptr(),
            set.len(),
            iv.as_ptr(),
            iv.len(),
            sealed.as_ptr(),
            sealed.len(),
            out.as_mut_ptr(),
            out.len(),
            length,
        )
    }
}

/// Whether a tag is that of a message, 1 or 0, into valid.
#[inline]
pub fn check(
    schedule: u8,
    key: &[u8],
    set: &[u8],
    message: &[u8],
    tag: &[u8],
    valid: &mut u8,
) -> u32 {
    unsafe {
        c::bowlinette_check(
            schedule,
            key.as_ptr(),
            key.len(),
            set.as_ptr(),
            set.len(),
            message.as_ptr(),
            message.len(),
            tag.as_ptr(),
            tag.len(),
            valid,
        )
    }
}

/// Whether a tag is Valid: 1, or 0 where it is Invalid or checking refuses.
#[inline]
pub fn is_valid(schedule: u8, key: &[u8], set: &[u8], message: &[u8], tag: &[u8]) -> u32 {
    unsafe {
        c::bowlinette_is_valid(
            schedule,
            key.as_ptr(),
            key.len(),
            set.as_ptr(),
            set.len(),
            message.as_ptr(),
            message.len(),
            tag.as_ptr(),
            tag.len(),
        )
    }
}

/// Where the fields of an ink file stand, as the numbers that the header names, into ink.
#[inline]
pub fn read_ink(file: &[u8], ink: &mut [u64; 18]) -> u32 {
    unsafe { c::bowlinette_read_ink(file.as_ptr(), file.len(), ink.as_mut_ptr()) }
}

/// An ink file written from pad number, IV, sealed blocks and tag, the kinds of its remarks and the remarks,
/// to the front of out, and the length of that, into length.
#[inline]
pub fn write_ink(
    [number, iv, sealed, tag]: [&[u8]; 4],
    kinds: &[u8],
    [first, second, third, fourth]: [&[u8]; 4],
    out: &mut [u8],
    length: &mut u64,
) -> u32 {
    unsafe {
        c::bowlinette_write_ink(
            number.as_ptr(),
            number.len(),
            iv.as_ptr(),
            iv.len(),
            sealed.as_ptr(),
            sealed.len(),
            tag.as_ptr(),
            tag.len(),
            kinds.as_ptr(),
            kinds.len(),
            first.as_ptr(),
            first.len(),
            second.as_ptr(),
            second.len(),
            third.as_ptr(),
            third.len(),
            fourth.as_ptr(),
            fourth.len(),
            out.as_mut_ptr(),
            out.len(),
            length,
        )
    }
}
