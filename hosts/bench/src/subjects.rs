//! What is compared: each subject runs lists of operations and writes what they answer. Here are those
//! that are called directly; `lists` has those over lists of calls, `shims` those in C and C++.

use std::collections::{BTreeMap, HashMap};
use std::hash::{BuildHasher, BuildHasherDefault, Hasher, RandomState};

use lopresnik::{ANSWER_CELLS, CALL_PLACES};

use crate::skip_hash::SkipHash;
use crate::work::{Kind, Op, Work, ABSENT, STEP_PAIRS};

/// Where answers go: one cell an operation, or five a call; pairs one behind another.
pub struct Out {
    pub answers: Vec<i64>,
    pub keys: Vec<i64>,
    pub values: Vec<i64>,
    pub pairs: usize,
}

impl Out {
    /// Room for what any list of the work answers.
    pub fn for_work(work: &Work) -> Out {
        let longest = work.lists.iter().map(Vec::len).max().unwrap_or(0);
        let of_ranges = |list: &Vec<Op>| {
            list.iter().filter(|op| matches!(op.kind, Kind::Range | Kind::Step)).count()
        };
        let ranges = work.lists.iter().map(of_ranges).max().unwrap_or(0);
        let places = (ranges + 1) * 2 * CALL_PLACES;
        Out {
            answers: vec![1; 4 * longest * ANSWER_CELLS],
            keys: vec![1; places],
            values: vec![1; places],
            pairs: 0,
        }
    }

    fn put(&mut self, key: i64, value: i64) {
        self.keys[self.pairs] = key;
        self.values[self.pairs] = value;
        self.pairs += 1;
    }

    /// Puts the pairs and answers their count.
    fn put_all<'map>(&mut self, pairs: impl Iterator<Item = (&'map i64, &'map i64)>) -> i64 {
        let before = self.pairs;
        pairs.for_each(|(&key, &value)| self.put(key, value));
        (self.pairs - before) as i64
    }
}

pub trait Subject {
    fn name(&self) -> &'static str;

    /// Goes back to the map that the work is filled with; not timed.
    fn reset(&mut self);

    /// Runs the list of that number; this is timed.
    fn run(&mut self, list: usize, out: &mut Out);

    /// One answer an operation of the list that was run; not timed.
    fn answers(&self, list: usize, out: &Out) -> Vec<i64>;
}

/// A map in Rust with one function for one operation.
pub trait Direct: Clone {
    fn empty(capacity: usize) -> Self;
    fn run_one(&mut self, op: &Op, out: &mut Out) -> i64;
}

/// A map that runs operations one by one.
pub struct Directly<'work, Kept> {
    name: &'static str,
    work: &'work Work,
    filled: Kept,
    map: Kept,
}

impl<'work, Kept: Direct> Directly<'work, Kept> {
    pub fn new(name: &'static str, work: &'work Work) -> Directly<'work, Kept> {
        let mut filled = Kept::empty(work.capacity);
        let mut out = Out::for_work(work);
        for op in &work.fill {
            filled.run_one(op, &mut out);
        }
        Directly { name, work, map: filled.clone(), filled }
    }
}

impl<Kept: Direct> Subject for Directly<'_, Kept> {
    fn name(&self) -> &'static str {
        self.name
    }

    fn reset(&mut self) {
        self.map = self.filled.clone();
    }

    fn run(&mut self, list: usize, out: &mut Out) {
        out.pairs = 0;
        for (index, op) in self.work.lists[list].iter().enumerate() {
            out.answers[index] = self.map.run_one(op, out);
        }
    }

    fn answers(&self, list: usize, out: &Out) -> Vec<i64> {
        out.answers[..self.work.lists[list].len()].to_vec()
    }
}

/// A long range over a BTreeMap: a clone, and the key that comes next.
#[derive(Clone, Default)]
pub struct Tree {
    map: BTreeMap<i64, i64>,
    snapshot: BTreeMap<i64, i64>,
    next: Option<i64>,
    high: i64,
}

impl Tree {
    fn step(&mut self, out: &mut Out) -> i64 {
        let Some(next) = self.next else { return 0 };
        let mut left = self.snapshot.range(next..=self.high);
        let count = out.put_all(left.by_ref().take(STEP_PAIRS));
        self.next = left.next().map(|(&key, _)| key);
        count
    }
}

impl Direct for Tree {
    fn empty(_: usize) -> Tree {
        Tree::default()
    }

    #[inline(always)]
    fn run_one(&mut self, op: &Op, out: &mut Out) -> i64 {
        match op.kind {
            Kind::Lookup => self.map.get(&op.key).copied().unwrap_or(ABSENT),
            Kind::Insert => match self.map.entry(op.key) {
                std::collections::btree_map::Entry::Vacant(place) => {
                    place.insert(op.with);
                    1
                }
                std::collections::btree_map::Entry::Occupied(_) => 0,
            },
            Kind::Remove => i64::from(self.map.remove(&op.key).is_some()),
            Kind::Range => out.put_all(self.map.range(op.key..=op.with)),
            Kind::Open => {
                self.snapshot = self.map.clone();
                (self.next, self.high) = (Some(op.key), op.with);
                0
            }
            Kind::Step => self.step(out),
            Kind::Close => {
                self.snapshot = BTreeMap::new();
                0
            }
        }
    }
}

/// A hash map, with the hash function of std or with a quick one. It has no order, so it takes part
/// where there are no ranges.
#[derive(Clone)]
pub struct Hash<Hashing>(HashMap<i64, i64, Hashing>);

pub type SlowHash = Hash<RandomState>;
pub type QuickHash = Hash<BuildHasherDefault<Product>>;

/// The key times an odd number, its upper half added to its lower one: quick, and no guard against
/// keys that are chosen to collide.
#[derive(Default)]
pub struct Product(u64);

impl Hasher for Product {
    fn write(&mut self, _: &[u8]) {
        unreachable!("only keys are hashed");
    }

    #[inline(always)]
    fn write_i64(&mut self, key: i64) {
        self.0 = (key as u64).wrapping_mul(0x9E37_79B9_7F4A_7C15);
    }

    #[inline(always)]
    fn finish(&self) -> u64 {
        self.0 ^ (self.0 >> 32)
    }
}

impl<Hashing: BuildHasher + Clone + Default> Direct for Hash<Hashing> {
    fn empty(_: usize) -> Hash<Hashing> {
        Hash(HashMap::default())
    }

    #[inline(always)]
    fn run_one(&mut self, op: &Op, _: &mut Out) -> i64 {
        match op.kind {
            Kind::Lookup => self.0.get(&op.key).copied().unwrap_or(ABSENT),
            Kind::Insert => match self.0.entry(op.key) {
                std::collections::hash_map::Entry::Vacant(place) => {
                    place.insert(op.with);
                    1
                }
                std::collections::hash_map::Entry::Occupied(_) => 0,
            },
            Kind::Remove => i64::from(self.0.remove(&op.key).is_some()),
            _ => unreachable!("a hash map has no ranges"),
        }
    }
}

/// The plain skip hash, called directly.
#[derive(Clone)]
pub struct Plain {
    map: SkipHash,
    version: u32,
}

impl Plain {
    fn step(&mut self, version: u32, out: &mut Out) -> (usize, bool) {
        let places = out.pairs..out.pairs + STEP_PAIRS;
        let (keys, values) = (&mut out.keys[places.clone()], &mut out.values[places]);
        let stepped = self.map.step(version, keys, values).expect("the range is open");
        out.pairs += stepped.0;
        stepped
    }

    /// The fast range, or where that is refused a range in steps.
    fn range(&mut self, low: i64, high: i64, out: &mut Out) -> usize {
        let places = out.pairs..out.pairs + CALL_PLACES;
        let (keys, values) = (&mut out.keys[places.clone()], &mut out.values[places]);
        if let Some(count) = self.map.fast_range(low, high, keys, values) {
            out.pairs += count;
            return count;
        }
        let before = out.pairs;
        let version = self.map.open(low, high).expect("a range is opened");
        while !self.step(version, out).1 {}
        self.map.close(version);
        out.pairs - before
    }
}

impl Direct for Plain {
    fn empty(capacity: usize) -> Plain {
        Plain { map: SkipHash::new(capacity), version: 0 }
    }

    #[inline(always)]
    fn run_one(&mut self, op: &Op, out: &mut Out) -> i64 {
        match op.kind {
            Kind::Lookup => self.map.lookup(op.key).unwrap_or(ABSENT),
            Kind::Insert => i64::from(self.map.insert(op.key, op.with, op.coin).is_some()),
            Kind::Remove => match self.map.remove(op.key) {
                Some(node) => {
                    self.map.hand_over(node);
                    1
                }
                None => 0,
            },
            Kind::Range => self.range(op.key, op.with, out) as i64,
            Kind::Open => {
                self.version = self.map.open(op.key, op.with).expect("a range is opened");
                0
            }
            Kind::Step => self.step(self.version, out).0 as i64,
            Kind::Close => {
                self.map.close(self.version);
                while self.map.sweep().0 {}
                0
            }
        }
    }
}
