//! The workloads: lists of operations, and the calls of Lopresnik that they come to.

use lopresnik::{List, Node, Version};

use crate::skip_hash::{SkipHash, LEVELS};

#[derive(Clone, Copy, Debug, PartialEq, Eq)]
#[repr(u64)]
pub enum Kind {
    Lookup,
    Insert,
    Remove,
    Range,
    Open,
    Step,
    Close,
}

/// One operation, laid out as shims/ops.h has it. A removal is remove and hand over.
#[derive(Clone, Copy, Debug)]
#[repr(C)]
pub struct Op {
    pub kind: Kind,
    /// Of a range: the lower bound.
    pub key: i64,
    /// An insert's value, a range's upper bound.
    pub with: i64,
    pub coin: u64,
}

/// The answer of a lookup of an absent key.
pub const ABSENT: i64 = i64::MIN;

/// Pairs that a long range takes at once.
pub const STEP_PAIRS: usize = 64;

/// SplitMix64.
#[derive(Clone)]
pub struct Random(pub u64);

impl Random {
    pub fn next(&mut self) -> u64 {
        self.0 = self.0.wrapping_add(0x9E37_79B9_7F4A_7C15);
        let mut mixed = self.0;
        mixed = (mixed ^ (mixed >> 30)).wrapping_mul(0xBF58_476D_1CE4_E5B9);
        mixed = (mixed ^ (mixed >> 27)).wrapping_mul(0x94D0_49BB_1331_11EB);
        mixed ^ (mixed >> 31)
    }

    pub fn below(&mut self, end: usize) -> usize {
        (self.next() % end as u64) as usize
    }
}

/// The keys that operations choose from, rising: twice as many as are present.
pub fn universe(count: usize, scattered: bool) -> Vec<i64> {
    let mut random = Random(7);
    let mut keys: Vec<i64> = (0..count)
        .map(|index| if scattered { random.next() as i64 } else { index as i64 })
        .collect();
    keys.sort_unstable();
    keys.dedup();
    assert_eq!(keys.len(), count);
    keys
}

/// Parts in a hundred of lookups and ranges; the rest are inserts and removes, half and half.
#[derive(Clone, Copy)]
pub struct Mix {
    pub name: &'static str,
    pub lookups: usize,
    pub ranges: usize,
}

/// The workloads of source 000's figure 5.
pub const MIXES: [Mix; 6] = [
    Mix { name: "lookups", lookups: 100, ranges: 0 },
    Mix { name: "inserts, removes", lookups: 0, ranges: 0 },
    Mix { name: "ranges of 100", lookups: 0, ranges: 100 },
    Mix { name: "80/10/10", lookups: 80, ranges: 10 },
    Mix { name: "updates/ranges 80/20", lookups: 0, ranges: 20 },
    Mix { name: "updates/ranges 98/2", lookups: 0, ranges: 2 },
];

/// Keys of the universe that a range spans.
const RANGE_LENGTH: usize = 100;

pub struct Work {
    pub capacity: usize,
    pub fill: Vec<Op>,
    pub lists: Vec<Vec<Op>>,
}

impl Work {
    /// So many lists of so many operations of the mix.
    pub fn mixed(capacity: usize, scattered: bool, mix: Mix, lists: usize, length: usize) -> Work {
        let keys = universe(capacity, scattered);
        let mut random = Random(1);
        let fill = fill(&keys, &mut random);
        let list = |_| (0..length).map(|_| mixed_op(&keys, mix, &mut random)).collect();
        let lists = (0..lists).map(list).collect();
        Work { capacity, fill, lists }
    }

    /// A map with so many keys of 64 bits, and nothing done with it.
    pub fn filled(capacity: usize, present: usize) -> Work {
        let fill = fill(&universe(2 * present, true), &mut Random(3));
        Work { capacity, fill, lists: Vec::new() }
    }

    /// Lists of so many long ranges, one after another, each over everything, with so many updates
    /// before each of its steps.
    pub fn long_ranges(capacity: usize, lists: usize, ranges: usize, updates: usize) -> Work {
        let keys = universe(capacity, false);
        let mut random = Random(2);
        let fill = fill(&keys, &mut random);
        let steps = capacity / 2 / STEP_PAIRS + 4;
        let bounds = (keys[0], keys[capacity - 1]);
        let range = |kind| Op { kind, key: bounds.0, with: bounds.1, coin: 0 };
        let mut long_range = |_| {
            let mut ops = vec![range(Kind::Open)];
            for _ in 0..steps {
                ops.extend((0..updates).map(|_| update(&keys, &mut random)));
                ops.push(range(Kind::Step));
            }
            ops.push(range(Kind::Close));
            ops
        };
        let list = |_| (0..ranges).flat_map(&mut long_range).collect();
        let lists = (0..lists).map(list).collect();
        Work { capacity, fill, lists }
    }

    pub fn operations(&self) -> usize {
        self.lists.iter().map(Vec::len).sum()
    }
}

/// Inserts of every second key, in a random order.
fn fill(keys: &[i64], random: &mut Random) -> Vec<Op> {
    let mut half: Vec<i64> = keys.iter().copied().step_by(2).collect();
    for last in (1..half.len()).rev() {
        half.swap(last, random.below(last + 1));
    }
    half.into_iter().map(|key| insert(key, random)).collect()
}

/// The coin has as many random bits as there can be levels: more change nothing, and take longer to read.
fn insert(key: i64, random: &mut Random) -> Op {
    let coin = random.next() % (1 << LEVELS);
    Op { kind: Kind::Insert, key, with: random.below(100_000) as i64, coin }
}

fn update(keys: &[i64], random: &mut Random) -> Op {
    let key = keys[random.below(keys.len())];
    match random.below(2) {
        0 => insert(key, random),
        _ => Op { kind: Kind::Remove, key, with: 0, coin: 0 },
    }
}

fn mixed_op(keys: &[i64], mix: Mix, random: &mut Random) -> Op {
    let part = random.below(100);
    if part < mix.lookups {
        return Op { kind: Kind::Lookup, key: keys[random.below(keys.len())], with: 0, coin: 0 };
    }
    if part < mix.lookups + mix.ranges {
        let from = random.below(keys.len());
        let to = (from + RANGE_LENGTH - 1).min(keys.len() - 1);
        return Op { kind: Kind::Range, key: keys[from], with: keys[to], coin: 0 };
    }
    update(keys, random)
}

/// One call of Lopresnik.
#[derive(Clone, Copy, Debug)]
pub enum Call {
    Lookup(i64),
    Insert(i64, i64, u64),
    Remove(i64),
    HandOver(Node),
    FastRange(i64, i64),
    OpenRange(i64, i64),
    StepRange(Version),
    CloseRange(Version),
    Sweep,
}

impl Call {
    pub fn write(self, list: &mut List) {
        match self {
            Call::Lookup(key) => list.lookup(key),
            Call::Insert(key, value, coin) => list.insert(key, value, coin),
            Call::Remove(key) => list.remove(key),
            Call::HandOver(node) => list.hand_over(node),
            Call::FastRange(low, high) => list.fast_range(low, high),
            Call::OpenRange(low, high) => list.open_range(low, high),
            Call::StepRange(version) => list.step_range(version, STEP_PAIRS as u32),
            Call::CloseRange(version) => list.close_range(version),
            Call::Sweep => list.sweep(),
        };
    }
}

/// What a caller does where a fast range is refused for its many pairs.
fn range_in_steps(op: &Op, map: &mut SkipHash) -> Vec<Call> {
    let (mut keys, mut values) = ([0; STEP_PAIRS], [0; STEP_PAIRS]);
    let version = map.open(op.key, op.with).expect("a range is opened");
    let mut calls = vec![Call::OpenRange(op.key, op.with)];
    let mut finished = false;
    while !finished {
        (_, finished) = map.step(version, &mut keys, &mut values).expect("the range is open");
        calls.push(Call::StepRange(Version(version)));
    }
    map.close(version);
    calls.push(Call::CloseRange(Version(version)));
    calls
}

/// The calls of operations, in the order made, with the node numbers and versions that the calls
/// before will have answered: a map that is run beside tells them.
pub fn calls_of(ops: &[Op], map: &mut SkipHash) -> Vec<Call> {
    let mut calls = Vec::new();
    let mut version = 0;
    let (mut keys, mut values) = ([0; STEP_PAIRS], [0; STEP_PAIRS]);
    for op in ops {
        match op.kind {
            Kind::Lookup => calls.push(Call::Lookup(op.key)),
            Kind::Insert => {
                map.insert(op.key, op.with, op.coin);
                calls.push(Call::Insert(op.key, op.with, op.coin));
            }
            Kind::Remove => {
                calls.push(Call::Remove(op.key));
                if let Some(node) = map.remove(op.key) {
                    map.hand_over(node);
                    calls.push(Call::HandOver(Node(node)));
                }
            }
            Kind::Range => {
                calls.push(Call::FastRange(op.key, op.with));
                if map.fast_range(op.key, op.with, &mut keys, &mut values).is_none() {
                    calls.extend(range_in_steps(op, map));
                }
            }
            Kind::Open => {
                version = map.open(op.key, op.with).expect("a range is opened");
                calls.push(Call::OpenRange(op.key, op.with));
            }
            Kind::Step => {
                map.step(version, &mut keys, &mut values).expect("an open range is stepped");
                calls.push(Call::StepRange(Version(version)));
            }
            Kind::Close => {
                let due = map.close(version).expect("an open range is closed");
                calls.push(Call::CloseRange(Version(version)));
                for _ in 0..due {
                    map.sweep();
                    calls.push(Call::Sweep);
                }
            }
        }
    }
    calls
}
