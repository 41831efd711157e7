//! The three key sizes and what belongs to each.

/// A key size, named by its bits (01, "LEA").
#[derive(Clone, Copy, Debug, PartialEq, Eq)]
pub enum Size {
    Lea128,
    Lea192,
    Lea256,
}

impl Size {
    pub const ALL: [Size; 3] = [Size::Lea128, Size::Lea192, Size::Lea256];

    /// The size of a key of so many bytes, if there is one.
    #[inline]
    pub fn of_key(bytes: usize) -> Option<Size> {
        match bytes {
            16 => Some(Size::Lea128),
            24 => Some(Size::Lea192),
            32 => Some(Size::Lea256),
            _ => None,
        }
    }

    /// The key in bytes.
    #[inline]
    pub fn key_bytes(self) -> usize {
        match self {
            Size::Lea128 => 16,
            Size::Lea192 => 24,
            Size::Lea256 => 32,
        }
    }

    /// How many rounds a block goes through (01, "LEA").
    #[inline]
    pub fn rounds(self) -> usize {
        match self {
            Size::Lea128 => 24,
            Size::Lea192 => 28,
            Size::Lea256 => 32,
        }
    }

    /// A chain in bytes (01, "Chain of codings").
    #[inline]
    pub fn chain_bytes(self) -> usize {
        1024 + 920 * self.rounds()
    }

    /// A book in bytes (01, "Book"), one of them in front to state its key length (request 2026-05).
    #[inline]
    pub fn book_bytes(self) -> usize {
        1 + 24_592 + 18_432 * self.rounds()
    }

    /// A reading book in bytes (request 2026-01).
    #[inline]
    pub fn reading_bytes(self) -> usize {
        8_192 + 18_432 * self.rounds()
    }
}
