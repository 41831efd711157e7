//! The key schedules (01, "LEA"; request 2026-07): from a key to a row of round keys for each round.

use crate::lea::{word, Row};
use crate::{refusal, sha256, Size};

/// A schedule: LEA's, or the one-way one of WF-LEA.
#[derive(Clone, Copy, Debug, PartialEq, Eq)]
pub enum Schedule {
    Lea,
    WfLea,
}

impl Schedule {
    pub const ALL: [Schedule; 2] = [Schedule::Lea, Schedule::WfLea];

    /// The schedule of a number; refuses all but two.
    #[inline]
    pub fn numbered(number: u8) -> Result<Schedule, u32> {
        match number {
            0 => Ok(Schedule::Lea),
            1 => Ok(Schedule::WfLea),
            _ => Err(refusal::SCHEDULE),
        }
    }

    #[inline]
    pub fn number(self) -> u8 {
        match self {
            Schedule::Lea => 0,
            Schedule::WfLea => 1,
        }
    }
}

/// Room for the rows of any key; those after the last round are not used.
pub type Rows = [Row; 32];

/// Rows to write to.
pub const EMPTY: Rows = [[0; 6]; 32];

/// The size of a key, its rows by the schedule of a number written to the first ones; refuses another number
/// and then a key of another length.
#[inline]
pub fn expand(number: u8, key: &[u8], rows: &mut Rows) -> Result<Size, u32> {
    let schedule = Schedule::numbered(number)?;
    let size = Size::of_key(key.len()).ok_or(refusal::KEY_LENGTH)?;
    match (schedule, size) {
        (Schedule::Lea, Size::Lea128) => lea_128(key.try_into().unwrap(), rows),
        (Schedule::Lea, Size::Lea192) => lea_192(key.try_into().unwrap(), rows),
        (Schedule::Lea, Size::Lea256) => lea_256(key.try_into().unwrap(), rows),
        (Schedule::WfLea, _) => wf_lea(key, &mut rows[..size.rounds()]),
    }
    Ok(size)
}

/// WF-LEA's rows (document 000, chapter 2, section 3): each is the first six words of the digest of the key
/// followed by the row's number, counted from 1. Words are lowest byte first, as all of LEA's are.
fn wf_lea(key: &[u8], rows: &mut [Row]) {
    let mut message = [0; 33];
    let message = &mut message[..=key.len()];
    message[..key.len()].copy_from_slice(key);
    for (number, row) in (1..).zip(rows) {
        message[key.len()] = number;
        let digest = sha256::digest(message);
        *row = std::array::from_fn(|m| word(&digest, m));
    }
}

/// The constants δ0 to δ7 (01, "LEA").
const DELTA: [u32; 8] = [
    0xc3ef_e9db,
    0x4462_6b02,
    0x79e2_7c8a,
    0x78df_30ec,
    0x715e_a49e,
    0xc785_da0a,
    0xe04e_f22a,
    0xe5c4_0957,
];

/// How far word m of a step of LEA's is turned at its end (01, "LEA", schedule).
const TURN: Row = [1, 3, 6, 11, 13, 17];

/// What is added to word m in step i, for schedules with n constants in use.
const fn addends(n: usize) -> Rows {
    let mut all = [[0; 6]; 32];
    let mut i = 0;
    while i < 32 {
        let mut m = 0;
        while m < 6 {
            all[i][m] = DELTA[i % n].rotate_left((i + m) as u32);
            m += 1;
        }
        i += 1;
    }
    all
}

static ADDENDS_128: Rows = addends(4);
static ADDENDS_192: Rows = addends(6);
static ADDENDS_256: Rows = addends(8);

/// Word m of a step, given what is added to it (01, "LEA", schedule).
#[inline]
fn step(word: u32, addend: u32, m: usize) -> u32 {
    word.wrapping_add(addend).rotate_left(TURN[m])
}

/// LEA's rows of a 16-byte key.
#[inline]
fn lea_128(key: &[u8; 16], rows: &mut Rows) {
    let mut t: [u32; 4] = std::array::from_fn(|k| word(key, k));
    for (row, add) in rows[..24].iter_mut().zip(&ADDENDS_128) {
        for m in 0..4 {
            t[m] = step(t[m], add[m], m);
        }
        *row = [t[0], t[1], t[2], t[1], t[3], t[1]];
    }
}

/// LEA's rows of a 24-byte key.
#[inline]
fn lea_192(key: &[u8; 24], rows: &mut Rows) {
    let mut t: [u32; 6] = std::array::from_fn(|k| word(key, k));
    for (row, add) in rows[..28].iter_mut().zip(&ADDENDS_192) {
        for m in 0..6 {
            t[m] = step(t[m], add[m], m);
        }
        *row = t;
    }
}

/// LEA's rows of a 32-byte key. Four rows take 24 words, so the places repeat every four rows.
#[inline]
fn lea_256(key: &[u8; 32], rows: &mut Rows) {
    let mut t: [u32; 8] = std::array::from_fn(|k| word(key, k));
    for (four, adds) in rows.chunks_exact_mut(4).zip(ADDENDS_256.chunks_exact(4)) {
        for i in 0..4 {
            for m in 0..6 {
                let place = (6 * i + m) % 8;
                t[place] = step(t[place], adds[i][m], m);
                four[i][m] = t[place];
            }
        }
    }
}
