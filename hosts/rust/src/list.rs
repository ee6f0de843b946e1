//! Lists of calls as schedule bytes, and their answers.

use crate::map::{Map, Node, Version};
use crate::refusal::Refusal;

/// Cells for each call: its code, 0 or its refusal, three numbers.
pub const ANSWER_CELLS: usize = 5;

/// Places that a call must find free in both pair buffers.
pub const CALL_PLACES: usize = 64;

/// Why a list of calls ended.
#[derive(Clone, Copy, Debug, PartialEq, Eq)]
pub enum End {
    /// No byte is left.
    Ended,
    /// At this offset a number or a code is malformed, cut off or out of range.
    Stop(usize),
    /// The bytes end within a call, and more may follow: go on with the rest.
    More,
    /// The room might not suffice for the next call: go on with the rest. Where nothing was used, the
    /// room can never suffice.
    Full,
    /// Nothing was done.
    Refused(Refusal),
}

/// What a list of calls came to.
#[derive(Clone, Copy, Debug, PartialEq, Eq)]
pub struct Ran {
    /// Why it ended.
    pub end: End,
    /// How many bytes were used.
    pub used: usize,
    /// How many calls were made.
    pub calls: usize,
    /// How many pairs were handed out.
    pub pairs: usize,
}

/// Calls, written as a schedule file has them. Each method adds one call.
#[derive(Clone, Debug, Default)]
pub struct List {
    bytes: Vec<u8>,
    calls: usize,
}

impl List {
    /// An empty list.
    pub fn new() -> List {
        List::default()
    }

    /// The bytes, to be run, or to be put behind the header of a schedule file.
    pub fn bytes(&self) -> &[u8] {
        &self.bytes
    }

    /// How many calls the list has.
    pub fn calls(&self) -> usize {
        self.calls
    }

    /// Empties the list and keeps its memory.
    pub fn clear(&mut self) {
        self.bytes.clear();
        self.calls = 0;
    }

    /// Adds a lookup: the value of the key.
    pub fn lookup(&mut self, key: i64) -> &mut List {
        self.call(0).signed(key)
    }

    /// Adds an insert. Give each a fresh random coin: see [`Map::insert_with_coin`].
    pub fn insert(&mut self, key: i64, value: i64, coin: u64) -> &mut List {
        self.call(1).signed(key).signed(value).number(coin)
    }

    /// Adds a remove, which answers the node that is pending then.
    pub fn remove(&mut self, key: i64) -> &mut List {
        self.call(2).signed(key)
    }

    /// Adds a hand over of a pending node.
    pub fn hand_over(&mut self, node: Node) -> &mut List {
        self.call(3).number(u64::from(node.0))
    }

    /// Adds a ceil: the nearest present key at or above.
    pub fn ceil(&mut self, key: i64) -> &mut List {
        self.call(4).signed(key)
    }

    /// Adds a floor: the nearest present key at or below.
    pub fn floor(&mut self, key: i64) -> &mut List {
        self.call(5).signed(key)
    }

    /// Adds a succ: the nearest present key above.
    pub fn succ(&mut self, key: i64) -> &mut List {
        self.call(6).signed(key)
    }

    /// Adds a pred: the nearest present key below.
    pub fn pred(&mut self, key: i64) -> &mut List {
        self.call(7).signed(key)
    }

    /// Adds a fast range: all pairs within the bounds, at most 64.
    pub fn fast_range(&mut self, low: i64, high: i64) -> &mut List {
        self.call(8).signed(low).signed(high)
    }

    /// Adds the opening of a range, which answers its version.
    pub fn open_range(&mut self, low: i64, high: i64) -> &mut List {
        self.call(9).signed(low).signed(high)
    }

    /// Adds a step with this room; within a list a room above 64 counts as 64.
    pub fn step_range(&mut self, version: Version, room: u32) -> &mut List {
        self.call(10).number(u64::from(version.0)).number(u64::from(room))
    }

    /// Adds the closing of an open range.
    pub fn close_range(&mut self, version: Version) -> &mut List {
        self.call(11).number(u64::from(version.0))
    }

    /// Adds a sweep: the first due node is freed, if any.
    pub fn sweep(&mut self) -> &mut List {
        self.call(12)
    }

    /// Adds a tally: present, held and free nodes.
    pub fn tally(&mut self) -> &mut List {
        self.call(13)
    }

    fn call(&mut self, code: u8) -> &mut List {
        self.calls += 1;
        self.bytes.push(code);
        self
    }

    /// Groups of seven bits, the lowest first, the high bit set on every byte but the last.
    fn number(&mut self, number: u64) -> &mut List {
        let mut left = number;
        while left >= 0x80 {
            self.bytes.push(left as u8 | 0x80);
            left >>= 7;
        }
        self.bytes.push(left as u8);
        self
    }

    /// n ≥ 0 is written as 2 n, n < 0 as -2 n - 1.
    fn signed(&mut self, number: i64) -> &mut List {
        self.number(((number << 1) ^ (number >> 63)) as u64)
    }
}

/// The answers of a list of calls, with the pairs that they handed out.
#[derive(Clone, Debug)]
pub struct Answers {
    cells: Vec<i64>,
    keys: Vec<i64>,
    values: Vec<i64>,
    calls: usize,
    pairs: usize,
}

/// What one call of a list answered.
#[derive(Clone, Copy, Debug, PartialEq, Eq)]
pub struct Answered<'answers> {
    /// The call's code in a schedule file.
    pub code: u8,
    /// Its numbers in document 01's order, 0 where it has fewer, or its refusal.
    pub numbers: Result<[i64; 3], Refusal>,
    /// The keys of the pairs that it handed out.
    pub keys: &'answers [i64],
    /// Their values.
    pub values: &'answers [i64],
}

impl Answers {
    /// Room for so many calls.
    pub fn with_room(calls: usize) -> Answers {
        Answers {
            cells: vec![0; calls * ANSWER_CELLS],
            keys: vec![0; CALL_PLACES],
            values: vec![0; CALL_PLACES],
            calls: 0,
            pairs: 0,
        }
    }

    /// Runs what the bytes hold behind the answers that are there, and makes room where it was short.
    pub(crate) fn run(&mut self, map: &mut Map, bytes: &[u8]) -> Ran {
        let ran = map.run(
            bytes,
            false,
            &mut self.cells[self.calls * ANSWER_CELLS..],
            &mut self.keys[self.pairs..],
            &mut self.values[self.pairs..],
        );
        self.calls += ran.calls;
        self.pairs += ran.pairs;
        if ran.end == End::Full {
            let places = 2 * self.keys.len() + CALL_PLACES;
            self.keys.resize(places, 0);
            self.values.resize(places, 0);
        }
        ran
    }

    /// How many calls were made.
    pub fn calls(&self) -> usize {
        self.calls
    }

    /// The answers, one a call.
    pub fn iter(&self) -> impl Iterator<Item = Answered<'_>> {
        let mut behind = 0;
        self.cells[..self.calls * ANSWER_CELLS].chunks_exact(ANSWER_CELLS).map(move |cells| {
            let answered = answered(cells);
            let pairs = match (answered.code, answered.numbers) {
                (8 | 10, Ok(numbers)) => numbers[0] as usize,
                _ => 0,
            };
            let places = behind..behind + pairs;
            behind += pairs;
            Answered { keys: &self.keys[places.clone()], values: &self.values[places], ..answered }
        })
    }
}

/// A call's answer by its cells, without pairs.
fn answered(cells: &[i64]) -> Answered<'static> {
    let numbers = match Refusal::of_number(cells[1] as u32) {
        None => Ok([cells[2], cells[3], cells[4]]),
        Some(refusal) => Err(refusal),
    };
    Answered { code: cells[0] as u8, numbers, keys: &[], values: &[] }
}
