//! The lists of states and round keys of two documents: LEA's (001, appendix I) and WF-LEA's (000, appendix A).
//! The files have a line for each state X and each row RK: key bytes, name, words. Each key size has its lines
//! in one order, so none can be lost or doubled.

use reference::lea::{Block, Row, State};
use reference::{Schedule, Size};

const LEA: &str = include_str!("../../data/lea-lists.txt");
const WF_LEA: &str = include_str!("../../data/wf-lea-appendix.txt");

/// The bytes of keys, plaintexts and ciphertexts, which the other file has among its lines.
const LEA_BYTES: &str = "\
16 key 0f1e2d3c4b5a69788796a5b4c3d2e1f0
16 plain 101112131415161718191a1b1c1d1e1f
16 cipher 9fc84e3528c6c6185532c7a704648bfd
24 key 0f1e2d3c4b5a69788796a5b4c3d2e1f0f0e1d2c3b4a59687
24 plain 202122232425262728292a2b2c2d2e2f
24 cipher 6fb95e325aad1b878cdcf5357674c6f2
32 key 0f1e2d3c4b5a69788796a5b4c3d2e1f0f0e1d2c3b4a5968778695a4b3c2d1e0f
32 plain 303132333435363738393a3b3c3d3e3f
32 cipher d651aff647b189c13a8900ca27f9e197
";

/// The lists of a schedule and a key size, with the bytes that stand beside them.
pub struct List {
    pub schedule: u8,
    pub size: Size,
    pub key: Vec<u8>,
    pub plain: Block,
    pub cipher: Block,
    pub states: Vec<State>,
    pub rows: Vec<Row>,
}

/// All lists.
pub fn all() -> Vec<List> {
    let of = |schedule: Schedule, file: &str| {
        Size::ALL.map(|size| List::read(schedule.number(), size, file))
    };
    let lea = of(Schedule::Lea, &[LEA_BYTES, LEA].concat());
    let wf_lea = of(Schedule::WfLea, WF_LEA);
    lea.into_iter().chain(wf_lea).collect()
}

impl List {
    fn read(schedule: u8, size: Size, file: &str) -> List {
        let front = format!("{} ", size.key_bytes());
        let mut lines = file.lines().filter_map(|line| line.strip_prefix(&front));
        let mut next = |name: String| {
            let line = lines.next().expect("a line more");
            let (found, rest) = line.split_once(' ').expect("a name");
            assert_eq!(found, name, "{size:?}: a line out of turn");
            rest
        };
        let list = List {
            schedule,
            size,
            key: bytes(next("key".into())),
            plain: bytes(next("plain".into())).try_into().unwrap(),
            cipher: bytes(next("cipher".into())).try_into().unwrap(),
            states: (0..=size.rounds())
                .map(|i| words(next(format!("X{i}"))))
                .collect(),
            rows: (0..size.rounds())
                .map(|i| words(next(format!("RK{i}"))))
                .collect(),
        };
        assert_eq!(lines.next(), None, "{size:?}: a line too many");
        list
    }
}

/// Bytes of two digits each.
fn bytes(digits: &str) -> Vec<u8> {
    assert_eq!(digits.len() % 2, 0, "{digits}");
    let byte = |k| u8::from_str_radix(&digits[k..k + 2], 16).unwrap();
    (0..digits.len()).step_by(2).map(byte).collect()
}

/// So many words of eight digits each.
fn words<const N: usize>(line: &str) -> [u32; N] {
    let word = |digits: &str| {
        assert_eq!(digits.len(), 8, "{line}");
        u32::from_str_radix(digits, 16).unwrap()
    };
    let words: Vec<u32> = line.split(' ').map(word).collect();
    words.try_into().expect("another count of words")
}
