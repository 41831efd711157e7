//! The proved library for the tests: the product's functions, and the four of the tests' own library, which return
//! 0 or a refusal too. A refused round trip leaves in its scratch buffers what the calls before it wrote.

pub use libbowlinette::*;

mod c {
    extern "C" {
        pub fn bowlinette_cbc_mac(
            schedule: u8,
            key: *const u8,
            key_length: usize,
            text: *const u8,
            text_length: usize,
            out: *mut u8,
        ) -> u32;
        pub fn bowlinette_sha256(message: *const u8, message_length: usize, digest: *mut u8)
            -> u32;
        pub fn bowlinette_tag_roundtrip(
            schedule: u8,
            key: *const u8,
            key_length: usize,
            chain: *const u8,
            chain_length: usize,
            message: *const u8,
            message_length: usize,
            book: *mut u8,
            book_length: usize,
            coded: *mut u8,
            coded_length: usize,
            valid: *mut u8,
        ) -> u32;
        pub fn bowlinette_seal_roundtrip(
            schedule: u8,
            key: *const u8,
            key_length: usize,
            chain: *const u8,
            chain_length: usize,
            iv: *const u8,
            iv_length: usize,
            message: *const u8,
            message_length: usize,
            book: *mut u8,
            book_length: usize,
            coded: *mut u8,
            coded_length: usize,
            sealed: *mut u8,
            sealed_length: usize,
            out: *mut u8,
            out_length: usize,
            length: *mut u64,
        ) -> u32;
    }
}

// Each call below is sound for the reason that the product's are: pointers and lengths come from references.

/// The CBC-MAC of the whole blocks of a text, into out. Not in the header: it is there to time a loop
/// over blocks.
#[inline]
pub fn cbc_mac(schedule: u8, key: &[u8], text: &[u8], out: &mut [u8; 16]) -> u32 {
    unsafe {
        c::bowlinette_cbc_mac(
            schedule,
            key.as_ptr(),
            key.len(),
            text.as_ptr(),
            text.len(),
            out.as_mut_ptr(),
        )
    }
}

/// The SHA-256 digest of a message of at most 55 bytes, into digest. Not in the header: it is there for the
/// tests.
#[inline]
pub fn sha256(message: &[u8], digest: &mut [u8; 32]) -> u32 {
    unsafe { c::bowlinette_sha256(message.as_ptr(), message.len(), digest.as_mut_ptr()) }
}

/// The round trip of a tag, the verdict into valid. Not in the header, as the next one: both are there for
/// the tests, and a refusal leaves in the scratch buffers what the calls before it wrote.
#[inline]
pub fn tag_roundtrip(
    schedule: u8,
    key: &[u8],
    chain: &[u8],
    message: &[u8],
    [book, coded]: &mut [Vec<u8>; 2],
    valid: &mut u8,
) -> u32 {
    unsafe {
        c::bowlinette_tag_roundtrip(
            schedule,
            key.as_ptr(),
            key.len(),
            chain.as_ptr(),
            chain.len(),
            message.as_ptr(),
            message.len(),
            book.as_mut_ptr(),
            book.len(),
            coded.as_mut_ptr(),
            coded.len(),
            valid,
        )
    }
}

/// The round trip of a sealed file: the message to the front of the last buffer, and its length, into
/// length.
#[inline]
pub fn seal_roundtrip(
    schedule: u8,
    key: &[u8],
    chain: &[u8],
    iv: &[u8],
    message: &[u8],
    [book, coded, sealed, out]: &mut [Vec<u8>; 4],
    length: &mut u64,
) -> u32 {
    unsafe {
        c::bowlinette_seal_roundtrip(
            schedule,
            key.as_ptr(),
            key.len(),
            chain.as_ptr(),
            chain.len(),
            iv.as_ptr(),
            iv.len(),
            message.as_ptr(),
            message.len(),
            book.as_mut_ptr(),
            book.len(),
            coded.as_mut_ptr(),
            coded.len(),
            sealed.as_mut_ptr(),
            sealed.len(),
            out.as_mut_ptr(),
            out.len(),
            length,
        )
    }
}
