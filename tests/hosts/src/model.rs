//! What every call must answer, by a `BTreeMap`; a range is the clone of it at its opening.

use std::collections::{BTreeMap, VecDeque};
use std::ops::Bound::{Excluded, Included, Unbounded};

use lopresnik::{Node, Refusal, Tables, Version, ROW, TICKETS};
use second::tables::address;

use crate::calls::{Answer, Call};

const FAST_RANGE_LIMIT: usize = 64;

#[derive(Clone, Copy, Debug)]
pub struct Entry {
    pub value: i64,
    node: u32,
    inserted: u32,
}

/// An open range: the pairs that it has still to hand out, and the nodes on its list.
#[derive(Clone, Debug)]
struct Range {
    version: u32,
    left: VecDeque<(i64, i64)>,
    list: Vec<u32>,
}

#[derive(Clone, Debug)]
pub struct Model {
    counter: u32,
    map: BTreeMap<i64, Entry>,
    /// Each pending node with its insertion version.
    pending: BTreeMap<u32, u32>,
    /// The oldest first.
    ranges: Vec<Range>,
    due: VecDeque<u32>,
    /// The last one is used first.
    free: Vec<u32>,
}

impl Model {
    pub fn new(capacity: u32, start: u32) -> Model {
        Model {
            counter: start,
            map: BTreeMap::new(),
            pending: BTreeMap::new(),
            ranges: Vec::new(),
            due: VecDeque::new(),
            free: (0..capacity).rev().collect(),
        }
    }

    pub fn pending_nodes(&self) -> Vec<Node> {
        self.pending.keys().map(|&node| Node(node)).collect()
    }

    pub fn open_versions(&self) -> Vec<Version> {
        self.ranges.iter().map(|range| Version(range.version)).collect()
    }

    /// Makes the call, with pair buffers of these lengths (a step: at most its room).
    pub fn make(&mut self, call: Call, keys_room: usize, values_room: usize) -> Answer {
        let made = match call {
            Call::Lookup(key) => {
                self.map.get(&key).map(|entry| entry.value).ok_or(Refusal::KeyAbsent)
            }
            Call::Insert(key, value, _) => self.insert(key, value),
            Call::Remove(key) => self.remove(key),
            Call::HandOver(node) => self.hand_over(node.0),
            Call::Ceil(key) => first(self.map.range(key..)),
            Call::Floor(key) => first(self.map.range(..=key).rev()),
            Call::Succ(key) => first(self.map.range((Excluded(key), Unbounded))),
            Call::Pred(key) => first(self.map.range(..key).rev()),
            Call::FastRange(low, high) => {
                return self.fast_range(low, high, keys_room.min(values_room));
            }
            Call::OpenRange(low, high) => self.open(low, high),
            Call::StepRange(version, room) => {
                return self.step(version.0, keys_room.min(values_room).min(room as usize));
            }
            Call::CloseRange(version) => self.close(version.0),
            Call::Sweep => return self.sweep(),
            Call::Tally => return self.tally(),
        };
        match made {
            Ok(number) => Answer::of([number, 0, 0]),
            Err(refusal) => Answer::refused(refusal),
        }
    }

    fn insert(&mut self, key: i64, value: i64) -> Result<i64, Refusal> {
        if self.map.contains_key(&key) {
            return Err(Refusal::KeyPresent);
        }
        let node = self.free.pop().ok_or(Refusal::NoFreeNode)?;
        self.map.insert(key, Entry { value, node, inserted: self.counter });
        Ok(i64::from(node))
    }

    fn remove(&mut self, key: i64) -> Result<i64, Refusal> {
        let entry = self.map.remove(&key).ok_or(Refusal::KeyAbsent)?;
        self.pending.insert(entry.node, entry.inserted);
        Ok(i64::from(entry.node))
    }

    fn hand_over(&mut self, node: u32) -> Result<i64, Refusal> {
        let inserted = self.pending.remove(&node).ok_or(Refusal::NodeNotPending)?;
        match self.ranges.last_mut() {
            Some(latest) if inserted < latest.version => {
                latest.list.push(node);
                Ok(0)
            }
            _ => {
                self.free.push(node);
                Ok(1)
            }
        }
    }

    fn pairs(&self, low: i64, high: i64) -> impl Iterator<Item = (i64, i64)> + '_ {
        self.map.range((Included(low), Included(high))).map(|(&key, entry)| (key, entry.value))
    }

    fn fast_range(&self, low: i64, high: i64, room: usize) -> Answer {
        if low > high {
            return Answer::refused(Refusal::BoundsReversed);
        }
        let pairs: Vec<_> = self.pairs(low, high).take(FAST_RANGE_LIMIT + 1).collect();
        if pairs.len() > FAST_RANGE_LIMIT {
            return Answer::refused(Refusal::TooManyPairs);
        }
        if pairs.len() > room {
            return Answer::refused(Refusal::TooFewPlaces);
        }
        Answer { numbers: Ok([pairs.len() as i64, 0, 0]), pairs }
    }

    fn open(&mut self, low: i64, high: i64) -> Result<i64, Refusal> {
        if low > high {
            return Err(Refusal::BoundsReversed);
        }
        if self.ranges.len() == TICKETS {
            return Err(Refusal::AllTicketsOpen);
        }
        let version = self.counter.checked_add(1).ok_or(Refusal::LastVersion)?;
        self.counter = version;
        let left = self.pairs(low, high).collect();
        self.ranges.push(Range { version, left, list: Vec::new() });
        Ok(i64::from(version))
    }

    fn step(&mut self, version: u32, room: usize) -> Answer {
        let Some(range) = self.ranges.iter_mut().find(|range| range.version == version) else {
            return Answer::refused(Refusal::NoSuchRange);
        };
        if room == 0 {
            return Answer::refused(Refusal::TooFewPlaces);
        }
        let count = room.min(range.left.len());
        let pairs: Vec<_> = range.left.drain(..count).collect();
        Answer { numbers: Ok([count as i64, i64::from(range.left.is_empty()), 0]), pairs }
    }

    fn close(&mut self, version: u32) -> Result<i64, Refusal> {
        let position = self.ranges.iter().position(|range| range.version == version);
        let position = position.ok_or(Refusal::NoSuchRange)?;
        let list = self.ranges.remove(position).list;
        if position > 0 {
            self.ranges[position - 1].list.extend(list);
            return Ok(0);
        }
        let made_due = list.len() as i64;
        self.due.extend(list);
        Ok(made_due)
    }

    fn sweep(&mut self) -> Answer {
        let first = self.due.pop_front();
        self.free.extend(first);
        Answer::of([i64::from(first.is_some()), self.due.len() as i64, 0])
    }

    fn tally(&self) -> Answer {
        let held: usize = self.ranges.iter().map(|range| range.list.len()).sum();
        Answer::of([self.map.len() as i64, held as i64, self.free.len() as i64])
    }
}

fn first<'map>(
    mut entries: impl Iterator<Item = (&'map i64, &'map Entry)>,
) -> Result<i64, Refusal> {
    entries.next().map(|(&key, _)| key).ok_or(Refusal::NoPresentKey)
}

/// A model of tables that are sound, read cell by cell.
impl Model {
    pub fn of_tables(tables: &Tables) -> Model {
        let capacity = tables.keys.len();
        let rows = tables.rows.len() / ROW;
        let cell = |row: usize, column: usize| tables.rows[address(rows, row, column)];
        let key = |node: usize| (tables.keys[node] ^ (1 << 63)) as i64;
        let mut order = Vec::new();
        let mut node = cell(capacity, 8) as usize;
        while node != capacity + 1 {
            order.push(node);
            node = cell(node, 8) as usize;
        }
        let in_place =
            |place: u32| order.iter().copied().filter(move |&node| cell(node, 3) == place);
        let entry = |node: usize| Entry {
            value: tables.values[node],
            node: node as u32,
            inserted: cell(node, 1),
        };
        let ring = |seat: u32| cell((cell(capacity, 7) + seat) as usize % capacity, 7);
        let mut seat = 0;
        let mut listed = |count: u32| {
            seat += count;
            (seat - count..seat).map(ring).collect::<Vec<_>>()
        };
        let due = VecDeque::from(listed(tables.coordinator.due));
        let open = &tables.tickets[..tables.coordinator.ranges as usize];
        let range = |ticket: &lopresnik::Ticket| {
            let needed = |&node: &usize| {
                tables.keys[node] <= ticket.high
                    && cell(node, 1) < ticket.version
                    && (cell(node, 3) == 1 || cell(node, 2) >= ticket.version)
            };
            let from = order.iter().position(|&node| node == ticket.rest as usize);
            let rest = &order[from.unwrap_or(order.len())..];
            let left = rest.iter().copied().filter(needed);
            Range {
                version: ticket.version,
                left: left.map(|node| (key(node), tables.values[node])).collect(),
                list: listed(ticket.held),
            }
        };
        Model {
            counter: tables.coordinator.counter,
            map: in_place(1).map(|node| (key(node), entry(node))).collect(),
            pending: in_place(2).map(|node| (node as u32, cell(node, 1))).collect(),
            ranges: open.iter().map(range).collect(),
            due,
            free: (0..cell(capacity, 6) as usize).map(|seat| cell(seat, 6)).collect(),
        }
    }
}
