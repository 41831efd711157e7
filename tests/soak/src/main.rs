//! Random calls of every operation, on the proved library and on the reference, compared whole.
//!
//!     cargo run --release --offline -p soak -- [--seconds N] [--rounds N] [--seed N] [--round N]
//!
//! Rounds are made for a time, 100 seconds unless said, or so many, or one of a number alone. What a
//! round does is drawn from the seed and its number, and from nothing else.

mod given;
mod round;
mod tally;

use given::{Given, TEXT};
use round::Round;
use shared::Random;
use std::ops::Range;
use std::panic::{catch_unwind, AssertUnwindSafe};
use std::process::exit;
use std::time::{Duration, Instant, SystemTime};
use tally::Tally;

/// What the run was asked for.
struct Asked {
    seed: u64,
    time: Duration,
    rounds: Range<u64>,
}

fn usage() -> ! {
    eprintln!("soak: [--seconds N] [--rounds N] [--seed N] [--round N]");
    exit(2)
}

/// A seed from the clock.
fn clock() -> u64 {
    let time = SystemTime::now().duration_since(SystemTime::UNIX_EPOCH);
    time.unwrap().as_nanos() as u64
}

impl Asked {
    /// From the words of the command.
    fn new() -> Asked {
        let mut asked = Asked {
            seed: clock(),
            time: Duration::from_secs(100),
            rounds: 0..u64::MAX,
        };
        let mut words = std::env::args().skip(1);
        while let Some(word) = words.next() {
            let number = words.next().and_then(|n| n.parse().ok());
            asked.take(&word, number.unwrap_or_else(|| usage()));
        }
        asked
    }

    fn take(&mut self, word: &str, number: u64) {
        match word {
            "--seed" => self.seed = number,
            "--seconds" => self.time = Duration::from_secs(number),
            "--rounds" => (self.rounds, self.time) = (0..number, Duration::MAX),
            "--round" => (self.rounds, self.time) = (number..number + 1, Duration::MAX),
            _ => usage(),
        }
    }

    /// The numbers that a round draws.
    fn random(&self, round: u64) -> Random {
        Random(Random(self.seed).number() ^ Random(round).number())
    }
}

fn main() {
    let asked = Asked::new();
    let seed = asked.seed;
    println!("soak: seed {seed}");
    let text = Random(seed).bytes(TEXT);
    let (mut tally, mut made, start) = (Tally::default(), 0, Instant::now());
    for number in asked.rounds.clone() {
        if start.elapsed() >= asked.time {
            break;
        }
        let given = Given::new(asked.random(number), &text);
        let mut round = Round {
            given,
            tally: &mut tally,
        };
        if catch_unwind(AssertUnwindSafe(|| round.run())).is_err() {
            println!("soak: failed, seed {seed}, round {number}; again by --seed {seed} --round {number}");
            exit(1);
        }
        made += 1;
    }
    print!("{tally}");
    let calls = tally.calls();
    println!("soak: seed {seed}, {made} rounds, {calls} calls compared, none differs");
}
