//! How many calls of each operation were answered, and how many refused by which number.

use std::collections::BTreeMap;
use std::fmt::{Display, Formatter, Result};

/// Every operation, in the order of the header, and the two round trips.
const OPERATIONS: [&str; 27] = [
    "encipher",
    "decipher",
    "first_rounds",
    "round_keys",
    "check_set",
    "check_chain",
    "check_reading_chain",
    "make_chain",
    "make_reading_chain",
    "build",
    "build_round",
    "build_reading",
    "code_for_sealing",
    "code_for_tag",
    "run_round",
    "run_rounds",
    "seal",
    "read",
    "begin",
    "block_call",
    "last_call",
    "open",
    "check",
    "read_ink",
    "write_ink",
    "tag_roundtrip",
    "seal_roundtrip",
];

/// For each operation how often each number came back.
#[derive(Default)]
pub struct Tally([BTreeMap<u32, u64>; OPERATIONS.len()]);

impl Tally {
    pub fn add(&mut self, operation: &str, number: u32) {
        let at = OPERATIONS.iter().position(|&name| name == operation);
        *self.0[at.unwrap()].entry(number).or_default() += 1;
    }

    /// All calls.
    pub fn calls(&self) -> u64 {
        self.0.iter().flat_map(BTreeMap::values).sum()
    }
}

impl Display for Tally {
    fn fmt(&self, f: &mut Formatter<'_>) -> Result {
        writeln!(
            f,
            "{:<21}{:>10}{:>10}  by number",
            "", "answered", "refused"
        )?;
        for (name, seen) in OPERATIONS.iter().zip(&self.0) {
            let answered = seen.get(&0).unwrap_or(&0);
            let refused: u64 = seen.range(1..).map(|(_, count)| count).sum();
            write!(f, "{name:<21}{answered:>10}{refused:>10} ")?;
            for (number, count) in seen.range(1..) {
                write!(f, " {number}: {count}")?;
            }
            writeln!(f)?;
        }
        Ok(())
    }
}
