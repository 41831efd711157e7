//! Random arguments, each right or, where it is to be wrong, damaged in some way. Damage may
//! happen to do no harm: what is due is what the reference says.

use reference::book::ROUND;
use reference::chain::{self, CODING, MIDDLES, SET, WORD};
use reference::pad::LONGEST;
use reference::Size;
use shared::archive::sealed_text;
use shared::books::{self, Built};
use shared::chains::top_masks;
use shared::ink::{kind, record, remark_length, Owned, REMARK};
use shared::maker::enough;
use shared::schedules::EACH;
use shared::Random;

/// What a round of the soak draws from: its numbers, a size with a schedule, a key, a chain and their book, what
/// reads the files that it seals, and a text of which messages are parts.
pub struct Given<'a> {
    pub random: Random,
    pub size: Size,
    pub built: Built,
    pub reading: Built,
    pub text: &'a [u8],
}

/// How many bytes the text has: more than the longest message.
pub const TEXT: usize = LONGEST + 100;

impl<'a> Given<'a> {
    pub fn new(mut random: Random, text: &'a [u8]) -> Given<'a> {
        let (schedule, size) = random.one_of(&EACH);
        let built = books::built(schedule, size, &mut random);
        let reading = built.reading(&mut random);
        Given {
            random,
            size,
            built,
            reading,
            text,
        }
    }

    /// Which of so many arguments are to be wrong: none in seven calls of ten, else one to three.
    pub fn wrong<const N: usize>(&mut self) -> [bool; N] {
        let mut wrong = [false; N];
        if self.random.below(10) < 3 {
            for _ in 0..1 + self.random.below(3) {
                wrong[self.random.below(N)] = true;
            }
        }
        wrong
    }

    /// A length that is not the one due: near it, far from it, or different in its high bits alone.
    fn other_length(&mut self, due: usize) -> usize {
        match self.random.below(4) {
            0 => due + 1 + self.random.below(16),
            1 => due.saturating_sub(1 + self.random.below(16)),
            2 => self.random.below(due + 1),
            _ => due + (1 << (8 * self.random.below(3))),
        }
    }

    /// Bytes cut to a length that is not theirs, or made longer.
    fn recut(&mut self, bytes: &mut Vec<u8>) {
        let length = self.other_length(bytes.len());
        bytes.resize(length, self.random.number() as u8);
    }

    /// One bit changed.
    fn flip(&mut self, bytes: &mut [u8]) {
        if !bytes.is_empty() {
            bytes[self.random.below(bytes.len())] ^= 1 << self.random.below(8);
        }
    }

    /// Random bytes, as many as belong to a size.
    fn other_size(&mut self, bytes: fn(Size) -> usize) -> Vec<u8> {
        let size = self.random.one_of(&Size::ALL);
        self.random.bytes(bytes(size))
    }

    /// The number of the schedule; or of the other, or any.
    pub fn schedule(&mut self, wrong: bool) -> u8 {
        match (wrong, self.random.below(4)) {
            (false, _) => self.built.schedule,
            (true, 0) => 1 - self.built.schedule,
            (true, _) => self.random.number() as u8,
        }
    }

    pub fn key(&mut self, wrong: bool) -> Vec<u8> {
        let mut key = self.built.key.clone();
        if wrong {
            match self.random.below(3) {
                0 => key = self.other_size(Size::key_bytes),
                _ => self.recut(&mut key),
            }
        }
        key
    }

    /// Sixteen bytes: a block, an IV or a tag.
    pub fn block(&mut self, wrong: bool) -> Vec<u8> {
        let mut block = self.random.block().to_vec();
        if wrong {
            self.recut(&mut block);
        }
        block
    }

    /// A pad number.
    fn number(&mut self, wrong: bool) -> Vec<u8> {
        let mut number = self.random.bytes(8);
        if wrong {
            self.recut(&mut number);
        }
        number
    }

    /// A count or a number of rounds: any is right.
    pub fn count(&mut self) -> usize {
        match self.random.below(8) {
            0 => self.random.number() as usize,
            1 => usize::MAX - self.random.below(3),
            _ => self.random.below(40),
        }
    }

    /// The message set, set r or another of the chain.
    pub fn set(&mut self, number: usize, wrong: bool) -> Vec<u8> {
        let mut set = self.built.chain[SET * number..][..SET].to_vec();
        if wrong {
            match self.random.below(5) {
                0 => self.recut(&mut set),
                1 => set = self.random.bytes(SET),
                2 => self.flip(&mut set),
                _ => self.spoil(&mut set, 0, SET / CODING),
            }
        }
        set
    }

    /// Random bytes to make a chain from, as many as are enough; or fewer, or with so many high ones that more
    /// are skipped, which then may be enough or not.
    pub fn draws(&mut self, wrong: bool) -> Vec<u8> {
        let enough = enough(self.size);
        if !wrong {
            return self.random.bytes(enough);
        }
        if self.random.below(3) == 0 {
            let length = self.random.below(enough);
            return self.random.bytes(length);
        }
        let length = enough + self.random.below(enough);
        let mut bytes = self.random.bytes(length);
        for byte in bytes.iter_mut().step_by(1 + self.random.below(8)) {
            *byte |= 0xf0;
        }
        bytes
    }

    /// One coding of so many from a place on made wrong: an image over 15, or one that is there twice.
    fn spoil(&mut self, codings: &mut [u8], from: usize, count: usize) {
        let coding = &mut codings[from + CODING * self.random.below(count)..][..CODING];
        let (at, other) = (self.random.below(CODING), self.random.below(CODING));
        coding[at] = match self.random.below(2) {
            0 => 16 + self.random.below(240) as u8,
            _ => coding[other],
        };
    }

    /// The chain.
    pub fn chain(&mut self, wrong: bool) -> Vec<u8> {
        self.damaged(self.built.chain.clone(), wrong)
    }

    /// The reading chain.
    pub fn reading_chain(&mut self, wrong: bool) -> Vec<u8> {
        self.damaged(self.reading.chain.clone(), wrong)
    }

    /// A chain, damaged in one to three places where it is to be wrong.
    fn damaged(&mut self, mut chain: Vec<u8>, wrong: bool) -> Vec<u8> {
        if wrong {
            for _ in 0..1 + self.random.below(3) {
                self.damage(&mut chain);
            }
        }
        chain
    }

    fn damage(&mut self, chain: &mut Vec<u8>) {
        let (rounds, whole) = (self.size.rounds(), self.size.chain_bytes());
        if chain.len() != whole {
            return;
        }
        let sets = SET * (rounds + 2);
        let middles = sets + chain::ROUND * self.random.below(rounds);
        let masks = middles + CODING * MIDDLES;
        let swapped = SET * (1 + self.random.below(rounds + 1)) + self.random.below(WORD - 1);
        match self.random.below(10) {
            0 => self.recut(chain),
            1 => *chain = self.random.bytes(whole),
            2 => self.flip(chain),
            3 => self.spoil(chain, 0, sets / CODING),
            4 => self.spoil(chain, middles, MIDDLES),
            5 => chain.swap(swapped, swapped + 1),
            6 => chain.swap(swapped + 3 * WORD, swapped + 3 * WORD + 1),
            7 => chain[masks + self.random.below(MIDDLES)] = 2 + self.random.below(254) as u8,
            8 => chain.clone_from(&self.built.chain),
            _ => chain.clone_from(&self.reading.chain),
        }
    }

    /// A chain with some of its masks at half byte 0 the other way round.
    pub fn other_masks(&mut self, mut chain: Vec<u8>) -> Vec<u8> {
        for at in top_masks(self.size) {
            chain[at] ^= self.random.below(2) as u8;
        }
        chain
    }

    /// The book.
    pub fn book(&mut self, wrong: bool) -> Vec<u8> {
        self.other_book(self.built.book.clone(), wrong)
    }

    /// The reading book.
    pub fn reading_book(&mut self, wrong: bool) -> Vec<u8> {
        self.other_book(self.reading.book.clone(), wrong)
    }

    /// A book; or one with a bit changed, another first byte, random bytes, or a wrong length, that of the other
    /// kind too.
    fn other_book(&mut self, mut book: Vec<u8>, wrong: bool) -> Vec<u8> {
        if wrong {
            match self.random.below(6) {
                0 => self.flip(&mut book),
                1 => book = books::bytes(self.random.one_of(&Size::ALL), &mut self.random),
                2 => book = self.other_size(Size::reading_bytes),
                3 => book.truncate(book.len() - ROUND),
                4 => book = books::other_front(&book, &mut self.random),
                _ => self.recut(&mut book),
            }
        }
        book
    }

    /// The tables of a round of the book, or damaged.
    pub fn tables(&mut self, wrong: bool) -> Vec<u8> {
        let mut tables = match self.random.below(2) {
            0 => self.random.bytes(ROUND),
            _ => {
                let from =
                    self.built.book.len() - ROUND * (1 + self.random.below(self.size.rounds()));
                self.built.book[from..][..ROUND].to_vec()
            }
        };
        if wrong {
            self.recut(&mut tables);
        }
        tables
    }

    /// A length of a message: mostly small, sometimes some thousands, rarely near the longest.
    fn length(&mut self) -> usize {
        match self.random.below(400) {
            0 => self.random.below(LONGEST + 1),
            1 => LONGEST - self.random.below(40),
            2..=9 => self.random.below(20_001),
            _ => self.random.below(301),
        }
    }

    /// So many bytes of the text.
    fn part(&mut self, length: usize) -> &'a [u8] {
        &self.text[self.random.below(self.text.len() - length + 1)..][..length]
    }

    /// A message; a wrong one is too long.
    pub fn message(&mut self, wrong: bool) -> &'a [u8] {
        let length = match wrong {
            true => LONGEST + 1 + self.random.below(TEXT - LONGEST),
            false => self.length(),
        };
        self.part(length)
    }

    /// Whole blocks; or none, a part of one, or too many.
    pub fn blocks(&mut self, wrong: bool) -> Vec<u8> {
        let right = self.length() / 16 * 16 + 16;
        let length = match (wrong, self.random.below(8)) {
            (false, _) => right,
            (true, 0) => 0,
            (true, 1) => LONGEST + 1 + 16 * (1 + self.random.below(5)),
            (true, _) => right - 1 - self.random.below(15),
        };
        self.part(length).to_vec()
    }

    /// The length of a buffer in which so many bytes are due: at least as many; or fewer.
    pub fn room(&mut self, due: usize, wrong: bool) -> usize {
        match (wrong, self.random.below(4)) {
            (true, 0) => 0,
            (true, 1) => self.random.below(due.max(1)),
            (true, _) => due.saturating_sub(1 + self.random.below(16)),
            (false, 0) => due + self.random.below(1_000),
            (false, 1) => due + self.random.below(17),
            (false, _) => due,
        }
    }

    /// A sealed file for the key and set r: of a text that ends in padding, or nearly in it, or not.
    pub fn sealed(&mut self, iv: &[u8], wrong: bool) -> Vec<u8> {
        if iv.len() != 16 || self.random.below(8) == 0 {
            return self.blocks(wrong);
        }
        let mut text = self.blocks(false);
        let added = 1 + self.random.below(16);
        let from = text.len() - added;
        text[from..].fill(added as u8);
        if wrong {
            let last = text.len() - 16;
            match self.random.below(2) {
                0 => self.flip(&mut text[last..]),
                _ => text[last + 15] = self.random.number() as u8,
            }
        }
        let set = self.set(self.size.rounds() + 1, false);
        let mut sealed = sealed_text(self.built.schedule, &self.built.key, &set, iv, &text);
        if wrong {
            match self.random.below(3) {
                0 => self.flip(&mut sealed),
                1 => self.recut(&mut sealed),
                _ => (),
            }
        }
        sealed
    }

    /// The kinds of up to four remarks; or too many, or with one that is near them or any byte.
    fn kinds(&mut self, wrong: bool) -> Vec<u8> {
        let count = self.random.below(5);
        let mut kinds: Vec<u8> = (0..count).map(|_| kind(&mut self.random)).collect();
        if wrong {
            let (any, at) = (self.random.number() as u8, self.random.below(count + 1));
            match self.random.below(4) {
                0 => kinds.resize(5 + self.random.below(3), any),
                1 => kinds.insert(at, any),
                2 => kinds.insert(at, 0x0f),
                _ => kinds.insert(at, 0x20),
            }
        }
        kinds
    }

    /// Four remarks; or with one that is too long.
    fn remarks(&mut self, wrong: bool) -> [Vec<u8>; 4] {
        let any = |_| {
            let length = remark_length(&mut self.random);
            self.random.bytes(length)
        };
        let mut remarks = [(); 4].map(any);
        if wrong {
            let length = match self.random.below(2) {
                0 => REMARK + 1,
                _ => REMARK + self.random.below(300),
            };
            remarks[self.random.below(4)].resize(length, 7);
        }
        remarks
    }

    /// The fields of an ink file, of which these are to be wrong.
    pub fn fields(&mut self, [n, v, s, t, k, r]: [bool; 6]) -> Owned {
        Owned {
            number: self.number(n),
            iv: self.block(v),
            sealed: self.blocks(s),
            tag: self.block(t),
            kinds: self.kinds(k),
            remarks: self.remarks(r),
        }
    }

    /// A file of these records with a byte of a head or any bit changed, cut short, or made longer.
    pub fn damaged_ink(&mut self, records: &[Vec<u8>]) -> Vec<u8> {
        let mut file = records.concat();
        match self.random.below(8) {
            0 => file.truncate(self.random.below(file.len())),
            1 => file.truncate(file.len() - self.random.below(300).min(file.len())),
            2 => self.flip(&mut file),
            3 => file.extend(self.random.block()),
            4 => file.extend(record(kind(&mut self.random), b"one more")),
            _ => {
                let front = &records[..self.random.below(records.len())];
                let at: usize = front.iter().map(Vec::len).sum();
                file[at + self.random.below(6)] = self.random.number() as u8;
            }
        }
        file
    }
}
