//! A round of the soak: every operation some times on both versions, in lists of calls and on whole ways
//! too. What is only read must stay as it was.

use crate::given::Given;
use crate::tally::Tally;
use reference::book::ROUND;
use reference::chain;
use shared::archive::{check, open};
use shared::book::{
    build, build_reading, build_round, check_chain, check_reading_chain, check_set, Build,
};
use shared::books::{self, Built};
use shared::chains::Kind;
use shared::cmac::cmac;
use shared::driver::{read, round, rounds, seal, Pass};
use shared::ink::{self, judge};
use shared::maker::make;
use shared::pad::{code, due, Use};
use shared::roundtrip;
use shared::session::{tag, Both, Call};
use shared::version::{PROVED, REFERENCE};
use shared::way;
use std::fmt::Debug;

pub struct Round<'a> {
    pub given: Given<'a>,
    pub tally: &'a mut Tally,
}

impl Round<'_> {
    pub fn run(&mut self) {
        let books = [&self.given.built, &self.given.reading].map(|built| built.book.clone());
        for _ in 0..8 {
            self.cipher();
            self.checks();
            self.rounds();
            self.codes();
            self.seal();
            self.read();
            self.open();
            self.check();
            self.ink();
        }
        self.make();
        self.build();
        self.build_reading();
        self.top_masks();
        self.build_round();
        self.calls();
        self.sealed_way();
        self.tagged_way();
        self.roundtrips();
        let after = [&self.given.built, &self.given.reading].map(|built| &built.book);
        assert!(after == [&books[0], &books[1]], "the books");
    }

    /// Counts a call: what it gave, or its number.
    fn count<T>(&mut self, operation: &str, told: &Result<T, u32>) {
        let number = told.as_ref().err().copied();
        self.tally.add(operation, number.unwrap_or(0));
    }

    /// Counts a call on which both versions must agree.
    fn agree<T: PartialEq + Debug>(
        &mut self,
        operation: &str,
        told: [Result<T, u32>; 2],
        given: &impl Debug,
    ) {
        assert_eq!(told[0], told[1], "{operation}, {given:02x?}");
        self.count(operation, &told[0]);
    }

    fn cipher(&mut self) {
        let [l, k, b] = self.given.wrong();
        let (schedule, key) = (self.given.schedule(l), self.given.key(k));
        let (block, n) = (self.given.block(b), self.given.count());
        let given = (schedule, key.clone(), block.clone(), n);
        let versions = [&PROVED, &REFERENCE];
        self.agree(
            "encipher",
            versions.map(|v| (v.encipher)(schedule, &key, &block)),
            &given,
        );
        self.agree(
            "decipher",
            versions.map(|v| (v.decipher)(schedule, &key, &block)),
            &given,
        );
        self.agree(
            "first_rounds",
            versions.map(|v| (v.first_rounds)(schedule, &key, n, &block)),
            &given,
        );
        self.agree(
            "round_keys",
            versions.map(|v| (v.round_keys)(schedule, &key, n)),
            &given,
        );
        assert_eq!((schedule, key, block, n), given, "key and block");
    }

    fn checks(&mut self) {
        let [k, c, d, s] = self.given.wrong();
        let (key, chain) = (self.given.key(k), self.given.chain(c));
        let reading = self.given.reading_chain(d);
        let number = self.given.random.below(self.given.size.rounds() + 2);
        let set = self.given.set(number, s);
        let before = (chain.clone(), reading.clone(), set.clone());
        self.tally
            .add("check_chain", check_chain(key.len(), &chain));
        self.tally.add(
            "check_reading_chain",
            check_reading_chain(key.len(), &reading),
        );
        self.tally.add("check_set", check_set(&set));
        assert!((chain, reading, set) == before, "chains and set");
    }

    /// Chains and reading chains from random bytes. Those that were drawn make the same chain again, and one
    /// fewer are too few.
    fn make(&mut self) {
        for (name, kind) in [
            ("make_chain", Kind::Sealing),
            ("make_reading_chain", Kind::Reading),
        ] {
            let [k, s, b, r] = self.given.wrong();
            let (key, random) = (self.given.key(k).len(), self.given.draws(b));
            let set = self.given.set(self.given.size.rounds() + 1, s);
            let room = self.given.room(self.given.size.chain_bytes(), r);
            let told = make(kind, key, &set, &random, room);
            self.count(name, &told);
            if let Ok((n, _)) = told {
                let again = make(kind, key, &set, &random[..n], room);
                assert!(again == told, "{name}: from the {n} bytes drawn");
                self.count(name, &again);
                let fewer = make(kind, key, &set, &random[..n - 1], room);
                assert_eq!(fewer, Err(32), "{name}: from fewer than {n} bytes");
                self.count(name, &fewer);
            }
        }
    }

    fn rounds(&mut self) {
        let [b, t, x] = self.given.wrong();
        let (book, tables) = (self.given.book(b), self.given.tables(t));
        let (block, n) = (self.given.block(x), self.given.count());
        let before = (book.clone(), tables.clone(), block.clone());
        self.count("run_rounds", &rounds(&book, n, &block));
        self.count("run_round", &round(&tables, &block));
        assert!((book, tables, block) == before, "book, tables and block");
    }

    fn codes(&mut self) {
        for (name, uses) in [
            ("code_for_sealing", Use::Sealing),
            ("code_for_tag", Use::Tag),
        ] {
            let [u, m, r] = self.given.wrong();
            let (set, message) = (self.given.set(0, u), self.given.message(m));
            let room = self.given.room(due(uses, message.len()), r);
            let before = (set.clone(), message.to_vec());
            self.count(name, &code(uses, &set, message, room).0);
            assert!((set, message.to_vec()) == before, "set and message");
        }
    }

    fn seal(&mut self) {
        let [b, v, c, r] = self.given.wrong();
        let (book, iv) = (self.given.book(b), self.given.block(v));
        let coded = self.given.blocks(c);
        self.pass("seal", seal, [book, iv, coded], r);
    }

    fn read(&mut self) {
        let [b, v, f, r] = self.given.wrong();
        let (book, iv) = (self.given.reading_book(b), self.given.block(v));
        let sealed = self.given.sealed(&iv, f);
        self.pass("read", read, [book, iv, sealed], r);
    }

    /// A book, an IV and blocks given to sealing or reading, with a buffer that may be short.
    fn pass(&mut self, name: &str, call: Pass, given: [Vec<u8>; 3], short: bool) {
        let before = given.clone();
        let [book, iv, text] = &given;
        let room = self.given.room(text.len(), short);
        self.tally.add(name, call(book, iv, text, room).0);
        assert!(given == before, "{name}: what is only read");
    }

    fn open(&mut self) {
        let [l, k, s, v, f, r] = self.given.wrong();
        let schedule = self.given.schedule(l);
        let (key, iv) = (self.given.key(k), self.given.block(v));
        let set = self.given.set(self.given.size.rounds() + 1, s);
        let sealed = self.given.sealed(&iv, f);
        let room = self.given.room(sealed.len(), r);
        let before = (key.clone(), set.clone(), iv.clone(), sealed.clone());
        self.count("open", &open(schedule, &key, &set, &iv, &sealed, room));
        assert!((key, set, iv, sealed) == before, "what is opened");
    }

    /// With the right tag every other time.
    fn check(&mut self) {
        let [l, k, s, m, t] = self.given.wrong();
        let schedule = self.given.schedule(l);
        let (key, message) = (self.given.key(k), self.given.message(m));
        let set = self.given.set(self.given.size.rounds() + 1, s);
        let mut tag = self.given.block(t);
        if tag.len() == 16 && self.given.random.below(2) == 0 {
            let last = self.given.set(self.given.size.rounds() + 1, false);
            let own = &self.given.built;
            tag = chain::code(&last, &cmac(own.schedule, &own.key, message)).to_vec();
        }
        let before = (key.clone(), set.clone(), message.to_vec(), tag.clone());
        self.count("check", &check(schedule, &key, &set, message, &tag));
        assert!(
            (key, set, message.to_vec(), tag) == before,
            "what is checked"
        );
    }

    /// Fields written; read, as the file that they are or would be, which must be refused alike; and that file
    /// read with some damage.
    fn ink(&mut self) {
        let [short, wrong @ ..] = self.given.wrong::<7>();
        let fields = self.given.fields(wrong);
        let room = self.given.room(fields.length(), short);
        let (before, records) = (fields.clone(), fields.records());
        let told = ink::write(&fields.fields(), room);
        assert!(fields == before, "the fields");
        self.count("write_ink", &told);
        let whole = records.concat();
        let number = judge(&whole);
        self.tally.add("read_ink", number);
        match told {
            Ok(file) => assert!(number == 0 && file == whole, "what is written"),
            Err(9) => assert_eq!(number, 0, "what a longer buffer takes"),
            Err(refused) => assert_eq!(number, refused, "what is refused"),
        }
        let file = self.given.damaged_ink(&records);
        let before = file.clone();
        self.tally.add("read_ink", judge(&file));
        assert!(file == before, "the file");
    }

    fn build(&mut self) {
        let [l, k, c, r] = self.given.wrong();
        let (schedule, key) = (self.given.schedule(l), self.given.key(k));
        let given = (schedule, key, self.given.chain(c));
        self.whole_book("build", build, given, r, |given| &given.built);
    }

    fn build_reading(&mut self) {
        let [l, k, c, r] = self.given.wrong();
        let (schedule, key) = (self.given.schedule(l), self.given.key(k));
        let given = (schedule, key, self.given.reading_chain(c));
        self.whole_book("build_reading", build_reading, given, r, |given| {
            &given.reading
        });
    }

    /// A schedule, a key and a chain given to a builder, with a buffer that may be short: from the round's own it
    /// must build the round's own book.
    fn whole_book(
        &mut self,
        name: &str,
        call: Build,
        (schedule, key, chain): (u8, Vec<u8>, Vec<u8>),
        short: bool,
        own: for<'b> fn(&'b Given) -> &'b Built,
    ) {
        let whole = own(&self.given).book.len();
        let room = self.given.room(whole, short);
        let before = (key.clone(), chain.clone());
        let (number, book) = call(schedule, &key, &chain, room);
        self.tally.add(name, number);
        let own = own(&self.given);
        if number == 0 && (schedule, &key, &chain) == (own.schedule, &own.key, &own.chain) {
            assert!(book[..whole] == own.book, "{name}: the book again");
        }
        assert!((key, chain) == before, "{name}: key and chain");
    }

    /// Books of the same chains with some masks at half byte 0 the other way round: they seal, tag and read as
    /// the round's own.
    fn top_masks(&mut self) {
        let (iv, text) = (self.given.random.block(), self.given.blocks(false));
        let chain = self.given.other_masks(self.given.built.chain.clone());
        let reading = self.given.other_masks(self.given.reading.chain.clone());
        let own = [&self.given.built, &self.given.reading];
        let (told, book) = build(own[0].schedule, &own[0].key, &chain, own[0].book.len());
        self.tally.add("build", told);
        let (told, reading) =
            build_reading(own[1].schedule, &own[1].key, &reading, own[1].book.len());
        self.tally.add("build_reading", told);
        let made = |book: &[u8], reading: &[u8]| {
            let sealed = seal(book, &iv, &text, text.len());
            let read = read(reading, &iv, &text, text.len());
            (sealed, read, [0, 1].map(|kind| tag(book, &text, kind)))
        };
        let same = made(&book, &reading) == made(&own[0].book, &own[1].book);
        assert!(same, "masks at half byte 0");
    }

    fn build_round(&mut self) {
        let [l, k, c, r] = self.given.wrong();
        let (schedule, key) = (self.given.schedule(l), self.given.key(k));
        let (chain, n) = (self.given.chain(c), self.given.count());
        let room = self.given.room(ROUND, r);
        let before = (key.clone(), chain.clone());
        let (number, _) = build_round(schedule, &key, &chain, n, room);
        self.tally.add("build_round", number);
        assert!((key, chain) == before, "key and chain");
    }

    /// A list of some hundred calls on a session just begun, or on one in any state; a finished one
    /// soon begins again.
    fn calls(&mut self) {
        let book = match self.given.random.below(4) {
            0 => books::bytes(self.given.size, &mut self.given.random),
            _ => self.given.built.book.clone(),
        };
        let other = books::other_front(&book, &mut self.given.random);
        let before = book.clone();
        let mut session = match self.given.random.below(2) {
            0 => Both::begun(&book),
            _ => Both::any(&mut self.given.random),
        };
        for _ in 0..self.given.random.below(400) {
            let call = match session.proved.finished != 0 && self.given.random.below(4) == 0 {
                true => Call::Begin,
                false => Call::any(&mut self.given.random),
            };
            let given = match self.given.random.below(20) {
                0 => &book[..self.given.room(book.len(), true)],
                1 => &other,
                _ => &book,
            };
            let told = session.call(given, &call);
            let name = match call {
                Call::Begin => "begin",
                Call::Block(_) => "block_call",
                Call::Last(..) => "last_call",
            };
            self.count(name, &told);
        }
        assert!(book == before, "the book of the calls");
    }

    /// A message through all parts by their own calls: what is sealed is read, and comes back.
    fn sealed_way(&mut self) {
        let (message, iv) = (self.given.message(false), self.given.random.block());
        way::sealed(&self.given.built, &self.given.reading, &iv, message);
    }

    /// A message's tag is Valid, and a bit away Invalid.
    fn tagged_way(&mut self) {
        let message = self.given.message(false);
        let built = &self.given.built;
        let mut tag = way::tagged(built, message);
        tag[self.given.random.below(16)] ^= 1 << self.given.random.below(8);
        let told = check(built.schedule, &built.key, built.last_set(), message, &tag);
        assert_eq!(told, Ok(false), "not the tag");
    }

    /// The two round trips as single calls.
    fn roundtrips(&mut self) {
        let [l, k, c, v, m, r] = self.given.wrong();
        let message = self.given.message(m);
        let code = due(Use::Sealing, message.len());
        let room = [self.given.size.book_bytes(), code, code, code];
        let given = roundtrip::Given {
            schedule: self.given.schedule(l),
            key: self.given.key(k),
            chain: self.given.chain(c),
            iv: self.given.block(v),
            message,
            rooms: room.map(|due| {
                let short = r && self.given.random.below(3) == 0;
                self.given.room(due, short)
            }),
        };
        let before = (given.key.clone(), given.chain.clone(), given.iv.clone());
        self.tally.add("tag_roundtrip", given.tagged());
        self.tally.add("seal_roundtrip", given.sealed());
        assert!(
            (given.key, given.chain, given.iv) == before,
            "what a round trip reads"
        );
    }
}
