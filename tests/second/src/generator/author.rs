//! Writes one schedule file and runs every transaction as it is written, so that the next one
//! can aim at what is really present, pending or open.

use crate::map::{Map, NodeNumber, Version};
use crate::program::{perform, Outcome};
use crate::random::Random;
use crate::transaction::{header_bytes, Transaction};

pub struct Author {
    pub random: Random,
    pub map: Map,
    /// The file so far.
    pub bytes: Vec<u8>,
    /// The keys that the file plays with.
    keys: Vec<i64>,
    newest_key: Option<i64>,
}

impl Author {
    /// Begins a file with a capacity that the set-up takes.
    pub fn new(random: Random, capacity: u32, start: Version, keys: Vec<i64>) -> Author {
        let map = Map::set_up(capacity, start).expect("a capacity of the table");
        Author { random, map, bytes: header_bytes(capacity, start), keys, newest_key: None }
    }

    pub fn put(&mut self, transaction: Transaction) -> Outcome {
        self.bytes.extend(transaction.bytes());
        let outcome = perform(&mut self.map, transaction);
        if let (Transaction::Insert { key, .. }, Ok(_)) = (transaction, &outcome) {
            self.newest_key = Some(key);
        }
        outcome
    }

    /// Inserts random keys of the file until so many are present, or all, or tries run out.
    pub fn fill(&mut self, present: usize) {
        let wanted = present.min(self.keys.len());
        for _ in 0..4 * wanted {
            if self.map.tally().present >= wanted {
                return;
            }
            let insert = self.insert(true);
            self.put(insert).ok();
        }
    }

    /// A transaction with this code. An aimed one is meant to succeed; one that is not aimed has
    /// operands that are often wrong.
    pub fn draw(&mut self, code: u8, aimed: bool) -> Transaction {
        match code {
            0 => Transaction::Lookup { key: self.key_nearby() },
            1 => self.insert(aimed),
            2 => Transaction::Remove { key: self.key_to_remove(aimed) },
            3 => Transaction::HandOver { node: self.node(aimed) },
            4 => Transaction::Ceil { key: self.key_nearby() },
            5 => Transaction::Floor { key: self.key_nearby() },
            6 => Transaction::Succ { key: self.key_nearby() },
            7 => Transaction::Pred { key: self.key_nearby() },
            8 => {
                let (low, high) = self.bounds(aimed);
                Transaction::FastRange { low, high }
            }
            9 => {
                let (low, high) = self.bounds(aimed);
                Transaction::Open { low, high }
            }
            10 => Transaction::Step { version: self.version(aimed), room: self.room(aimed) },
            11 => Transaction::Close { version: self.version(aimed) },
            12 => Transaction::Sweep,
            13 => Transaction::Tally,
            _ => panic!("code {code} is not in the table"),
        }
    }

    pub fn key(&mut self) -> i64 {
        self.random.choose(&self.keys)
    }

    /// A present key if wanted and there is one, or any key of the file.
    fn key_maybe_present(&mut self, wanted: bool) -> i64 {
        let present = self.map.present_pairs(i64::MIN, i64::MAX);
        if wanted && !present.is_empty() {
            self.random.choose(&present).0
        } else {
            self.key()
        }
    }

    /// Often the newest key: its node may be younger than every open range.
    fn key_to_remove(&mut self, aimed: bool) -> i64 {
        match self.newest_key {
            Some(key) if aimed && self.random.chance(30) => key,
            _ => self.key_maybe_present(aimed),
        }
    }

    /// A key of the file, often a present one, one beside it, or now and then any key.
    fn key_nearby(&mut self) -> i64 {
        let wants_present = self.random.chance(50);
        let key = self.key_maybe_present(wants_present);
        match self.random.below(10) {
            0 => key.wrapping_add(1),
            1 => key.wrapping_sub(1),
            2 => self.random.bits_of_any_length() as i64,
            _ => key,
        }
    }

    fn insert(&mut self, aimed: bool) -> Transaction {
        let mut key = self.key();
        for _ in 0..8 {
            if !aimed || self.map.lookup(key).is_err() {
                break;
            }
            key = self.key();
        }
        Transaction::Insert { key, value: self.value(), coin: self.coin() }
    }

    fn value(&mut self) -> i64 {
        let bits = self.random.bits_of_any_length();
        self.random.choose(&[0, 1, -1, i64::MIN, i64::MAX, bits as i64, -((bits >> 1) as i64)])
    }

    fn coin(&mut self) -> u64 {
        let bits = self.random.bits();
        let ones = u64::MAX >> self.random.below(64);
        self.random.choose(&[0, u64::MAX, 1 << 63, (1 << 63) - 1, bits, bits, ones])
    }

    pub fn node(&mut self, aimed: bool) -> NodeNumber {
        let pending = self.map.pending_nodes();
        if aimed && !pending.is_empty() {
            return self.random.choose(pending);
        }
        let capacity = self.map.sizes().capacity;
        let any = self.random.below(u64::from(capacity)) as u32;
        NodeNumber(self.random.choose(&[any, any, any, capacity, capacity + 1, u32::MAX]))
    }

    pub fn version(&mut self, aimed: bool) -> Version {
        let open = self.map.open_versions();
        if aimed && !open.is_empty() {
            return self.random.choose(&open);
        }
        let now = self.map.counter().0;
        let past = now.saturating_sub(self.random.below(20) as u32);
        Version(self.random.choose(&[past, past, now, now.saturating_add(1), 0, u32::MAX]))
    }

    /// Small rooms, rooms around the limit, and rooms that would be small in fewer bits.
    fn room(&mut self, aimed: bool) -> u32 {
        if !aimed && self.random.chance(50) {
            return 0;
        }
        let few = self.random.between(1, 10) as u32;
        self.random.choose(&[1, few, few, few, 63, 64, 65, 256, 257, 65_536, 65_537, u32::MAX])
    }

    /// Bounds around keys of the file; now and then l = r, or every key. Not aimed, l > r.
    fn bounds(&mut self, aimed: bool) -> (i64, i64) {
        let (one, other) = (self.key_nearby(), self.key_nearby());
        let (low, high) = (one.min(other), one.max(other));
        if !aimed && low < high {
            return (high, low);
        }
        match self.random.below(6) {
            0 => (low, low),
            1 | 2 => (i64::MIN, i64::MAX),
            _ => (low, high),
        }
    }
}
