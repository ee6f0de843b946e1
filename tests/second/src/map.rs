//! The map of document 01 as plain lists: the linked nodes in order, the pending nodes, one list
//! for each open range, the due nodes and the free nodes. Every call answers from its definition.

use std::collections::VecDeque;

/// A version. It is compared with versions only, never with a node number.
#[derive(Clone, Copy, Debug, PartialEq, Eq, PartialOrd, Ord)]
pub struct Version(pub u32);

#[derive(Clone, Copy, Debug, PartialEq, Eq)]
pub struct NodeNumber(pub u32);

/// A key and its value.
pub type Pair = (i64, i64);

/// One column of the document's table of sizes.
pub struct Sizes {
    pub capacity: u32,
    pub levels: u32,
    pub buckets: u64,
}

const fn sizes(capacity: u32, levels: u32, buckets: u64) -> Sizes {
    Sizes { capacity, levels, buckets }
}

pub const SIZES: [Sizes; 7] = [
    sizes(64, 6, 97),
    sizes(128, 7, 191),
    sizes(256, 8, 367),
    sizes(512, 9, 733),
    sizes(1024, 10, 1471),
    sizes(2048, 11, 2927),
    sizes(4096, 12, 5857),
];

/// A fast range hands out at most so many pairs.
pub const FAST_RANGE_LIMIT: usize = 64;

/// There are so many tickets, so at most this many ranges are open.
pub const TICKETS: usize = 16;

/// The refusals, each with the document's number.
#[derive(Clone, Copy, Debug, PartialEq, Eq, PartialOrd, Ord)]
pub enum Refusal {
    WrongLength = 1,
    CapacityNotInTable = 2,
    KeyPresent = 3,
    KeyAbsent = 4,
    NoFreeNode = 5,
    BoundsReversed = 6,
    TooManyPairs = 7,
    TooFewPlaces = 8,
    AllTicketsOpen = 9,
    CounterAtLastVersion = 10,
    NoSuchOpenRange = 11,
    NodeNotPending = 12,
    NoPresentKeyThere = 13,
}

impl Refusal {
    pub fn number(self) -> u8 {
        self as u8
    }
}

/// What a hand-over did with the node, with the document's answer.
#[derive(Clone, Copy, Debug, PartialEq, Eq)]
pub enum HandedOver {
    Held = 0,
    Freed = 1,
}

/// A step's answer: how many pairs it handed out, and whether none is left.
#[derive(Clone, Copy, Debug, PartialEq, Eq)]
pub struct Stepped {
    pub count: usize,
    pub finished: bool,
}

/// A sweep's answer: how many nodes it freed (0 or 1), and how many stay due.
#[derive(Clone, Copy, Debug, PartialEq, Eq)]
pub struct Swept {
    pub freed: usize,
    pub still_due: usize,
}

#[derive(Clone, Copy, Debug, PartialEq, Eq)]
pub struct Tally {
    pub present: usize,
    pub held: usize,
    pub free: usize,
}

/// A linked node. A free node has no record, only its number on the free list.
struct Node {
    number: NodeNumber,
    key: i64,
    value: i64,
    height: u32,
    insertion_version: Version,
    /// None is "not removed": no version can stand for it, 0 being a real one.
    removal_version: Option<Version>,
}

impl Node {
    fn is_present(&self) -> bool {
        self.removal_version.is_none()
    }

    fn pair(&self) -> Pair {
        (self.key, self.value)
    }
}

/// An open range with its ticket's progress and its list of held nodes.
struct Range {
    version: Version,
    low: i64,
    high: i64,
    /// The pairs present within the bounds at the opening.
    snapshot: Vec<Pair>,
    handed_out: usize,
    list: Vec<NodeNumber>,
}

impl Range {
    /// The document's definition: "A range needs a node if ...".
    fn needs(&self, node: &Node) -> bool {
        let within_bounds = self.low <= node.key && node.key <= self.high;
        let inserted_before = node.insertion_version < self.version;
        let not_removed_before = match node.removal_version {
            None => true,
            Some(removal) => removal >= self.version,
        };
        within_bounds && inserted_before && not_removed_before
    }
}

pub struct Map {
    sizes: &'static Sizes,
    counter: Version,
    /// The lowest level: every node present or removed and not yet unstitched, in key order, the
    /// nodes of one key in the order of their insertion.
    linked: Vec<Node>,
    pending: Vec<NodeNumber>,
    /// The open ranges, the oldest first.
    ranges: Vec<Range>,
    due: VecDeque<NodeNumber>,
    /// The last one is used first.
    free: Vec<NodeNumber>,
}

impl Map {
    pub fn set_up(capacity: u32, start: Version) -> Result<Map, Refusal> {
        let sizes = SIZES
            .iter()
            .find(|sizes| sizes.capacity == capacity)
            .ok_or(Refusal::CapacityNotInTable)?;
        Ok(Map {
            sizes,
            counter: start,
            linked: Vec::new(),
            pending: Vec::new(),
            ranges: Vec::new(),
            due: VecDeque::new(),
            free: (0..capacity).rev().map(NodeNumber).collect(),
        })
    }

    pub fn lookup(&self, key: i64) -> Result<i64, Refusal> {
        let position = self.present_position(key).ok_or(Refusal::KeyAbsent)?;
        Ok(self.linked[position].value)
    }

    pub fn insert(&mut self, key: i64, value: i64, coin: u64) -> Result<NodeNumber, Refusal> {
        if self.present_position(key).is_some() {
            return Err(Refusal::KeyPresent);
        }
        let number = self.free.pop().ok_or(Refusal::NoFreeNode)?;
        let node = Node {
            number,
            key,
            value,
            height: (1 + coin.trailing_ones()).min(self.sizes.levels),
            insertion_version: self.counter,
            removal_version: None,
        };
        // Behind any removed nodes of that key.
        let position = self.first_above(key);
        self.linked.insert(position, node);
        Ok(number)
    }

    pub fn remove(&mut self, key: i64) -> Result<NodeNumber, Refusal> {
        let position = self.present_position(key).ok_or(Refusal::KeyAbsent)?;
        let node = &mut self.linked[position];
        node.removal_version = Some(self.counter);
        self.pending.push(node.number);
        Ok(node.number)
    }

    pub fn hand_over(&mut self, number: NodeNumber) -> Result<HandedOver, Refusal> {
        let place = self
            .pending
            .iter()
            .position(|&pending| pending == number)
            .ok_or(Refusal::NodeNotPending)?;
        self.pending.remove(place);
        let insertion_version = self.linked[self.linked_position(number)].insertion_version;
        match self.ranges.last_mut() {
            Some(latest) if insertion_version < latest.version => {
                latest.list.push(number);
                Ok(HandedOver::Held)
            }
            _ => {
                self.unstitch_and_free(number);
                Ok(HandedOver::Freed)
            }
        }
    }

    pub fn ceil(&self, key: i64) -> Result<i64, Refusal> {
        first_present(self.linked[self.first_at_or_above(key)..].iter())
    }

    pub fn floor(&self, key: i64) -> Result<i64, Refusal> {
        first_present(self.linked[..self.first_above(key)].iter().rev())
    }

    pub fn succ(&self, key: i64) -> Result<i64, Refusal> {
        first_present(self.linked[self.first_above(key)..].iter())
    }

    pub fn pred(&self, key: i64) -> Result<i64, Refusal> {
        first_present(self.linked[..self.first_at_or_above(key)].iter().rev())
    }

    /// Writes the pairs to the front of the lent buffers and answers their count.
    pub fn fast_range(
        &self,
        low: i64,
        high: i64,
        keys: &mut [i64],
        values: &mut [i64],
    ) -> Result<usize, Refusal> {
        if low > high {
            return Err(Refusal::BoundsReversed);
        }
        let pairs = self.present_pairs(low, high);
        if pairs.len() > FAST_RANGE_LIMIT {
            return Err(Refusal::TooManyPairs);
        }
        if pairs.len() > keys.len() || pairs.len() > values.len() {
            return Err(Refusal::TooFewPlaces);
        }
        write_pairs(&pairs, keys, values);
        Ok(pairs.len())
    }

    pub fn open(&mut self, low: i64, high: i64) -> Result<Version, Refusal> {
        if low > high {
            return Err(Refusal::BoundsReversed);
        }
        if self.ranges.len() == TICKETS {
            return Err(Refusal::AllTicketsOpen);
        }
        if self.counter == Version(u32::MAX) {
            return Err(Refusal::CounterAtLastVersion);
        }
        self.counter = Version(self.counter.0 + 1);
        self.ranges.push(Range {
            version: self.counter,
            low,
            high,
            snapshot: self.present_pairs(low, high),
            handed_out: 0,
            list: Vec::new(),
        });
        Ok(self.counter)
    }

    /// Works the needed pairs out from the definition over the nodes linked now, and holds them
    /// against the snapshot of the opening: both must be the same pairs in the same order.
    pub fn step(
        &mut self,
        version: Version,
        keys: &mut [i64],
        values: &mut [i64],
    ) -> Result<Stepped, Refusal> {
        let position = self.range_position(version)?;
        let room = keys.len().min(values.len());
        if room == 0 {
            return Err(Refusal::TooFewPlaces);
        }
        let needed = self.needed_pairs(&self.ranges[position]);
        let range = &mut self.ranges[position];
        debug_assert_eq!(needed, range.snapshot, "definition and snapshot of {version:?} differ");
        let left = &needed[range.handed_out..];
        let count = room.min(left.len());
        write_pairs(&left[..count], keys, values);
        range.handed_out += count;
        Ok(Stepped { count, finished: range.handed_out == needed.len() })
    }

    /// Answers how many nodes this close made due.
    pub fn close(&mut self, version: Version) -> Result<usize, Refusal> {
        let position = self.range_position(version)?;
        let mut list = self.ranges.remove(position).list;
        if position == 0 {
            let made_due = list.len();
            self.due.extend(list);
            Ok(made_due)
        } else {
            self.ranges[position - 1].list.append(&mut list);
            Ok(0)
        }
    }

    pub fn sweep(&mut self) -> Swept {
        let first = self.due.pop_front();
        if let Some(number) = first {
            self.unstitch_and_free(number);
        }
        Swept { freed: usize::from(first.is_some()), still_due: self.due.len() }
    }

    pub fn tally(&self) -> Tally {
        Tally {
            present: self.linked.iter().filter(|node| node.is_present()).count(),
            held: self.ranges.iter().map(|range| range.list.len()).sum(),
            free: self.free.len(),
        }
    }
}

/// What no call answers, for tests and for the generator that aims its calls.
impl Map {
    pub fn sizes(&self) -> &'static Sizes {
        self.sizes
    }

    pub fn counter(&self) -> Version {
        self.counter
    }

    /// The versions of the open ranges, the oldest first.
    pub fn open_versions(&self) -> Vec<Version> {
        self.ranges.iter().map(|range| range.version).collect()
    }

    /// How many pairs an open range has still to hand out.
    pub fn pairs_left(&self, version: Version) -> Option<usize> {
        let range = &self.ranges[self.range_position(version).ok()?];
        Some(range.snapshot.len() - range.handed_out)
    }

    pub fn pending_nodes(&self) -> &[NodeNumber] {
        &self.pending
    }

    pub fn due_count(&self) -> usize {
        self.due.len()
    }

    /// The height of a linked node.
    pub fn height(&self, number: NodeNumber) -> u32 {
        self.linked[self.linked_position(number)].height
    }

    /// The present pairs with low ≤ key ≤ high, rising.
    pub fn present_pairs(&self, low: i64, high: i64) -> Vec<Pair> {
        self.linked[self.first_at_or_above(low)..self.first_above(high)]
            .iter()
            .filter(|node| node.is_present())
            .map(Node::pair)
            .collect()
    }

    /// Panics unless order, versions, places and ranges are as the document has them.
    pub fn assert_sound(&self) {
        for neighbours in self.linked.windows(2) {
            let (before, after) = (&neighbours[0], &neighbours[1]);
            assert!(before.key <= after.key, "keys out of order");
            assert!(before.key < after.key || !before.is_present(), "present, but not the last");
        }
        for node in &self.linked {
            assert!(node.insertion_version <= self.counter, "inserted after now");
            assert!(node.removal_version <= Some(self.counter), "removed after now");
        }
        for range in &self.ranges {
            assert!(range.version <= self.counter, "opened after now");
            assert_eq!(self.needed_pairs(range), range.snapshot, "a needed node was lost");
        }
        assert!(self.ranges.windows(2).all(|pair| pair[0].version < pair[1].version));
        self.assert_one_place_each();
    }

    /// Each node is present, pending, on one open range's list, due or free, and linked if not
    /// free.
    fn assert_one_place_each(&self) {
        let removed = self.linked.iter().filter(|node| !node.is_present());
        let mut removed: Vec<u32> = removed.map(|node| node.number.0).collect();
        let held = self.ranges.iter().flat_map(|range| &range.list);
        let waiting = self.pending.iter().chain(held).chain(&self.due);
        let mut waiting: Vec<u32> = waiting.map(|number| number.0).collect();
        removed.sort_unstable();
        waiting.sort_unstable();
        assert_eq!(removed, waiting, "removed nodes and their places differ");

        let linked = self.linked.iter().map(|node| node.number);
        let mut all: Vec<u32> = linked.chain(self.free.iter().copied()).map(|n| n.0).collect();
        all.sort_unstable();
        assert!(all.into_iter().eq(0..self.sizes.capacity), "a node is lost or in two places");
    }
}

impl Map {
    /// The place of the first linked node with a key at or above the given one.
    fn first_at_or_above(&self, key: i64) -> usize {
        self.linked.partition_point(|node| node.key < key)
    }

    /// The place of the first linked node with a key above the given one.
    fn first_above(&self, key: i64) -> usize {
        self.linked.partition_point(|node| node.key <= key)
    }

    fn present_position(&self, key: i64) -> Option<usize> {
        (self.first_at_or_above(key)..self.first_above(key))
            .find(|&position| self.linked[position].is_present())
    }

    fn linked_position(&self, number: NodeNumber) -> usize {
        self.linked.iter().position(|node| node.number == number).expect("the node is linked")
    }

    fn range_position(&self, version: Version) -> Result<usize, Refusal> {
        let position = self.ranges.iter().position(|range| range.version == version);
        position.ok_or(Refusal::NoSuchOpenRange)
    }

    fn needed_pairs(&self, range: &Range) -> Vec<Pair> {
        self.linked.iter().filter(|node| range.needs(node)).map(Node::pair).collect()
    }

    fn unstitch_and_free(&mut self, number: NodeNumber) {
        let position = self.linked_position(number);
        self.linked.remove(position);
        self.free.push(number);
    }
}

/// The key of the first present one among nodes that are looked at in this order.
fn first_present<'nodes>(mut nodes: impl Iterator<Item = &'nodes Node>) -> Result<i64, Refusal> {
    let node = nodes.find(|node| node.is_present()).ok_or(Refusal::NoPresentKeyThere)?;
    Ok(node.key)
}

/// Puts the pairs at the front of the buffers; what lies behind keeps its contents.
fn write_pairs(pairs: &[Pair], keys: &mut [i64], values: &mut [i64]) {
    for (index, &(key, value)) in pairs.iter().enumerate() {
        keys[index] = key;
        values[index] = value;
    }
}
