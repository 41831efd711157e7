//! Key sizes and schedules, as the library's header numbers them.

use crate::args::Args;
use crate::failure::Failure;

/// A block, a coding, and a set of codings.
pub const BLOCK: usize = 16;
pub const CODING: usize = 16;
pub const SET: usize = 512;
/// The longest message, coded or sealed text, and ink file.
pub const MESSAGE_MAX: usize = 1_048_575;
pub const CODE_MAX: usize = 1_048_576;
pub const INK_MAX: usize = 1_049_684;

/// What goes with a key's length, in bytes.
#[derive(Clone, Copy)]
pub struct Size {
    pub key: usize,
    rounds: usize,
    /// As many random bytes as a chain is drawn from, nearly always.
    pub random: usize,
}

pub const SIZES: [Size; 3] = [
    Size {
        key: 16,
        rounds: 24,
        random: 19_500,
    },
    Size {
        key: 24,
        rounds: 28,
        random: 22_500,
    },
    Size {
        key: 32,
        rounds: 32,
        random: 25_500,
    },
];

/// The size with the longest of everything.
pub const LARGEST: Size = SIZES[2];

impl Size {
    pub const fn chain(self) -> usize {
        1024 + 920 * self.rounds
    }

    pub const fn book(self) -> usize {
        24_593 + 18_432 * self.rounds
    }

    pub const fn reading(self) -> usize {
        8_192 + 18_432 * self.rounds
    }

    /// Where a chain's last set begins.
    pub const fn last_set(self) -> usize {
        SET * (self.rounds + 1)
    }

    /// What --key-size says.
    pub fn told(args: &Args) -> Result<Size, Failure> {
        let told = args.needed("--key-size")?.to_string_lossy();
        let found = SIZES.into_iter().find(|size| told == size.key.to_string());
        found.ok_or_else(|| Failure::Usage(format!("--key-size {told} is not 16, 24 or 32")))
    }
}

/// The line that names a schedule in an archive's folder, each at the schedule's number.
pub const SCHEDULES: [&str; 2] = ["lea\n", "wf-lea\n"];

/// The number of the schedule that a line names, with or without its end; of any other a number that the library
/// refuses.
pub fn schedule_number(line: &[u8]) -> u8 {
    let word = line.strip_suffix(b"\n").unwrap_or(line);
    numbered(word).unwrap_or(u8::MAX)
}

fn numbered(word: &[u8]) -> Option<u8> {
    let named = |line: &&str| line.trim_end().as_bytes() == word;
    SCHEDULES.iter().position(named).map(|place| place as u8)
}

/// What --schedule says; LEA where it says nothing.
pub fn schedule_told(args: &Args) -> Result<u8, Failure> {
    let told = args
        .all("--schedule")
        .next()
        .map_or("lea".into(), |word| word.to_string_lossy());
    numbered(told.as_bytes())
        .ok_or_else(|| Failure::Usage(format!("--schedule {told} is not lea or wf-lea")))
}
