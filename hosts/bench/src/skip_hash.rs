//! A plain skip hash, proved nowhere: what a careful programmer would write in Rust from document 01.
//! Nodes are numbers into arrays, laid out as Lopresnik's rows are: the lowest links after and the places
//! by themselves, short rows with the other fields and the lower links, the upper links apart. It is the
//! yardstick.

pub const LEVELS: usize = 12;

/// Levels from 1 on whose links stand in a node's row, and levels above.
const LOWER: usize = 5;
const UPPER: usize = LEVELS - 1 - LOWER;
const AFTER: usize = 0;
const BEFORE: usize = 1;

/// A fast range hands out at most so many pairs.
const FAST_RANGE_LIMIT: usize = 64;
const TICKETS: usize = 16;

#[derive(Clone, Copy, PartialEq, Eq)]
#[repr(u32)]
enum Place {
    Free,
    Present,
    Pending,
    Retired,
}

/// Fields and lower links of a node, in one cache line.
#[derive(Clone)]
#[repr(C, align(64))]
struct Row {
    height: u32,
    inserted: u32,
    removed: u32,
    chain: u32,
    /// On the lowest level.
    before: u32,
    links: [[u32; 2]; LOWER],
}

#[derive(Clone)]
struct Ticket {
    version: u32,
    low: i64,
    high: i64,
    rest: u32,
    held: usize,
}

#[derive(Clone)]
pub struct SkipHash {
    levels: usize,
    keys: Vec<i64>,
    values: Vec<i64>,
    /// The node after on the lowest level.
    lowest: Vec<u32>,
    places: Vec<Place>,
    rows: Vec<Row>,
    upper: Vec<[[u32; 2]; UPPER]>,
    buckets: Vec<u32>,
    free: Vec<u32>,
    /// Nodes due, then the lists of the open ranges from the oldest to the latest.
    retired: std::collections::VecDeque<u32>,
    tickets: Vec<Ticket>,
    counter: u32,
    due: usize,
}

impl SkipHash {
    pub fn new(capacity: usize) -> SkipHash {
        let &(_, buckets) =
            lopresnik::SIZES.iter().find(|size| size.0 as usize == capacity).expect("a capacity");
        let (head, tail) = (capacity as u32, capacity as u32 + 1);
        let row = Row {
            height: 0,
            inserted: 0,
            removed: 0,
            chain: head,
            before: head,
            links: [[tail, head]; LOWER],
        };
        SkipHash {
            levels: capacity.ilog2() as usize,
            keys: vec![0; capacity],
            values: vec![0; capacity],
            lowest: vec![tail; capacity + 2],
            places: vec![Place::Free; capacity],
            rows: vec![row; capacity + 2],
            upper: vec![[[tail, head]; UPPER]; capacity + 2],
            buckets: vec![head; buckets],
            free: (0..capacity as u32).rev().collect(),
            retired: Default::default(),
            tickets: Vec::new(),
            counter: 0,
            due: 0,
        }
    }

    fn head(&self) -> u32 {
        self.keys.len() as u32
    }

    fn tail(&self) -> u32 {
        self.keys.len() as u32 + 1
    }

    /// The nodes after and before.
    fn links(&self, level: usize, node: u32) -> [u32; 2] {
        let node = node as usize;
        match level {
            0 => [self.lowest[node], self.rows[node].before],
            1..=LOWER => self.rows[node].links[level - 1],
            _ => self.upper[node][level - 1 - LOWER],
        }
    }

    fn link(&mut self, level: usize, node: u32, direction: usize) -> &mut u32 {
        let node = node as usize;
        match (level, direction) {
            (0, AFTER) => &mut self.lowest[node],
            (0, _) => &mut self.rows[node].before,
            (1..=LOWER, _) => &mut self.rows[node].links[level - 1][direction],
            _ => &mut self.upper[node][level - 1 - LOWER][direction],
        }
    }

    fn join(&mut self, level: usize, left: u32, right: u32) {
        *self.link(level, left, AFTER) = right;
        *self.link(level, right, BEFORE) = left;
    }

    fn bucket(&self, key: i64) -> usize {
        (key as u64 % self.buckets.len() as u64) as usize
    }

    /// The present node of the key.
    fn find(&self, key: i64) -> Option<u32> {
        let mut node = self.buckets[self.bucket(key)];
        while node != self.head() {
            if self.keys[node as usize] == key {
                return Some(node);
            }
            node = self.rows[node as usize].chain;
        }
        None
    }

    pub fn lookup(&self, key: i64) -> Option<i64> {
        self.find(key).map(|node| self.values[node as usize])
    }

    /// The last node of a level whose key is at or below, from this node on.
    #[inline(always)]
    fn along(&self, key: i64, mut at: u32, after: impl Fn(usize) -> u32) -> u32 {
        let tail = self.tail();
        loop {
            let next = after(at as usize);
            if next == tail || self.keys[next as usize] > key {
                return at;
            }
            at = next;
        }
    }

    /// The last node on each level whose key is at or below, or the head.
    fn search(&self, key: i64) -> [u32; LEVELS] {
        let mut before = [0; LEVELS];
        let mut at = self.head();
        for level in (1 + LOWER..self.levels).rev() {
            at = self.along(key, at, |node| self.upper[node][level - 1 - LOWER][AFTER]);
            before[level] = at;
        }
        for level in (1..=LOWER).rev() {
            at = self.along(key, at, |node| self.rows[node].links[level - 1][AFTER]);
            before[level] = at;
        }
        before[0] = self.along(key, at, |node| self.lowest[node]);
        before
    }

    pub fn insert(&mut self, key: i64, value: i64, coin: u64) -> Option<u32> {
        if self.find(key).is_some() {
            return None;
        }
        let node = self.free.pop()?;
        let height = (1 + coin.trailing_ones() as usize).min(self.levels);
        let before = self.search(key);
        for (level, &left) in before.iter().enumerate().take(height) {
            let [right, _] = self.links(level, left);
            self.join(level, left, node);
            self.join(level, node, right);
        }
        let bucket = self.bucket(key);
        self.keys[node as usize] = key;
        self.values[node as usize] = value;
        let row = &mut self.rows[node as usize];
        row.height = height as u32;
        row.inserted = self.counter;
        row.chain = self.buckets[bucket];
        self.places[node as usize] = Place::Present;
        self.buckets[bucket] = node;
        Some(node)
    }

    pub fn remove(&mut self, key: i64) -> Option<u32> {
        let bucket = self.bucket(key);
        let mut previous = None;
        let mut node = self.buckets[bucket];
        while node != self.head() && self.keys[node as usize] != key {
            previous = Some(node);
            node = self.rows[node as usize].chain;
        }
        if node == self.head() {
            return None;
        }
        let next = self.rows[node as usize].chain;
        match previous {
            None => self.buckets[bucket] = next,
            Some(previous) => self.rows[previous as usize].chain = next,
        }
        self.rows[node as usize].removed = self.counter;
        self.places[node as usize] = Place::Pending;
        Some(node)
    }

    /// Whether the pending node is free at once; nothing where it is not pending.
    pub fn hand_over(&mut self, node: u32) -> Option<bool> {
        if self.places.get(node as usize) != Some(&Place::Pending) {
            return None;
        }
        match self.tickets.last_mut() {
            Some(latest) if self.rows[node as usize].inserted < latest.version => {
                latest.held += 1;
                self.retired.push_back(node);
                self.places[node as usize] = Place::Retired;
                Some(false)
            }
            _ => {
                self.release(node);
                Some(true)
            }
        }
    }

    fn release(&mut self, node: u32) {
        for level in 0..self.rows[node as usize].height as usize {
            let [right, left] = self.links(level, node);
            self.join(level, left, right);
        }
        self.places[node as usize] = Place::Free;
        self.free.push(node);
    }

    /// The first linked node whose key is at or above: by the hash table where the key is present.
    fn first_from(&self, key: i64) -> u32 {
        if let Some(node) = self.find(key) {
            return node;
        }
        // The key is not present, so nodes of this key are removed ones: behind them is right too.
        self.lowest[self.search(key)[0] as usize]
    }

    /// The count of pairs within the bounds, put to the front of the buffers; nothing where it is refused.
    pub fn fast_range(
        &self,
        low: i64,
        high: i64,
        keys: &mut [i64],
        values: &mut [i64],
    ) -> Option<usize> {
        if low > high {
            return None;
        }
        let mut nodes = [0; FAST_RANGE_LIMIT];
        let mut count = 0;
        let mut node = self.first_from(low);
        while node != self.tail() && self.keys[node as usize] <= high {
            if self.places[node as usize] == Place::Present {
                *nodes.get_mut(count)? = node;
                count += 1;
            }
            node = self.lowest[node as usize];
        }
        let (keys, values) = (keys.get_mut(..count)?, values.get_mut(..count)?);
        for ((key, value), &node) in keys.iter_mut().zip(values).zip(&nodes) {
            *key = self.keys[node as usize];
            *value = self.values[node as usize];
        }
        Some(count)
    }

    fn may_rest(&self, version: u32, node: u32) -> bool {
        let row = &self.rows[node as usize];
        let present = self.places[node as usize] == Place::Present;
        row.inserted < version && (present || row.removed >= version)
    }

    /// This node or the first one behind it that a range of the version may rest on, or the tail.
    fn rest_from(&self, version: u32, mut node: u32) -> u32 {
        while node != self.tail() && !self.may_rest(version, node) {
            node = self.lowest[node as usize];
        }
        node
    }

    pub fn open(&mut self, low: i64, high: i64) -> Option<u32> {
        if low > high || self.tickets.len() == TICKETS {
            return None;
        }
        let version = self.counter.checked_add(1)?;
        let rest = self.rest_from(version, self.first_from(low));
        self.counter = version;
        self.tickets.push(Ticket { version, low, high, rest, held: 0 });
        Some(version)
    }

    fn position(&self, version: u32) -> Option<usize> {
        self.tickets.iter().position(|ticket| ticket.version == version)
    }

    /// How many pairs were handed out, and whether none is left.
    pub fn step(
        &mut self,
        version: u32,
        keys: &mut [i64],
        values: &mut [i64],
    ) -> Option<(usize, bool)> {
        let position = self.position(version)?;
        let room = keys.len().min(values.len());
        if room == 0 {
            return None;
        }
        let Ticket { high, mut rest, low, .. } = self.tickets[position];
        debug_assert!(rest == self.tail() || self.keys[rest as usize] >= low);
        let mut count = 0;
        while count < room && rest != self.tail() && self.keys[rest as usize] <= high {
            keys[count] = self.keys[rest as usize];
            values[count] = self.values[rest as usize];
            count += 1;
            rest = self.rest_from(version, self.lowest[rest as usize]);
        }
        self.tickets[position].rest = rest;
        Some((count, rest == self.tail() || self.keys[rest as usize] > high))
    }

    /// How many nodes this made due.
    pub fn close(&mut self, version: u32) -> Option<usize> {
        let position = self.position(version)?;
        let held = self.tickets.remove(position).held;
        match position.checked_sub(1) {
            Some(older) => {
                self.tickets[older].held += held;
                Some(0)
            }
            None => {
                self.due += held;
                Some(held)
            }
        }
    }

    /// Whether a node was freed, and how many stay due.
    pub fn sweep(&mut self) -> (bool, usize) {
        if self.due == 0 {
            return (false, 0);
        }
        let node = self.retired.pop_front().expect("a due node is retired");
        self.due -= 1;
        self.release(node);
        (true, self.due)
    }
}

/// The calls that schedule bytes hold, made one after another, with the cells that Lopresnik's lists write.
impl SkipHash {
    /// How many pairs were handed out.
    pub fn run(
        &mut self,
        mut bytes: &[u8],
        answers: &mut [i64],
        keys: &mut [i64],
        values: &mut [i64],
    ) -> Option<usize> {
        let mut pairs = 0;
        let mut cells = answers.chunks_exact_mut(5);
        while !bytes.is_empty() {
            let code = number(&mut bytes)?;
            let answer = cells.next()?;
            let (numbers, handed_out) =
                self.call(code, &mut bytes, &mut keys[pairs..], &mut values[pairs..])?;
            pairs += handed_out;
            answer[0] = code as i64;
            answer[1..].copy_from_slice(&numbers);
        }
        Some(pairs)
    }

    /// Result and numbers of one call, and how many pairs it handed out.
    #[inline(always)]
    fn call(
        &mut self,
        code: u64,
        bytes: &mut &[u8],
        keys: &mut [i64],
        values: &mut [i64],
    ) -> Option<([i64; 4], usize)> {
        let plain = |result: Option<i64>, refusal: i64| match result {
            Some(number) => ([0, number, 0, 0], 0),
            None => ([refusal, 0, 0, 0], 0),
        };
        Some(match code {
            0 => plain(self.lookup(signed(bytes)?), 4),
            1 => {
                let (key, value, coin) = (signed(bytes)?, signed(bytes)?, number(bytes)?);
                plain(self.insert(key, value, coin).map(i64::from), 3)
            }
            2 => plain(self.remove(signed(bytes)?).map(i64::from), 4),
            3 => plain(self.hand_over(number(bytes)? as u32).map(i64::from), 12),
            8 => {
                let (low, high) = (signed(bytes)?, signed(bytes)?);
                let count = self.fast_range(low, high, keys, values);
                (plain(count.map(|count| count as i64), 7).0, count.unwrap_or(0))
            }
            9 => {
                let (low, high) = (signed(bytes)?, signed(bytes)?);
                plain(self.open(low, high).map(i64::from), 9)
            }
            10 => {
                let (version, room) = (number(bytes)? as u32, (number(bytes)? as usize).min(64));
                match self.step(version, keys.get_mut(..room)?, values.get_mut(..room)?) {
                    Some((count, finished)) => ([0, count as i64, i64::from(finished), 0], count),
                    None => ([11, 0, 0, 0], 0),
                }
            }
            11 => plain(self.close(number(bytes)? as u32).map(|due| due as i64), 11),
            12 => {
                let (freed, due) = self.sweep();
                ([0, i64::from(freed), due as i64, 0], 0)
            }
            _ => return None,
        })
    }
}

/// Groups of seven bits, the lowest first; nothing where they are not in the shortest form.
#[inline(always)]
fn number(bytes: &mut &[u8]) -> Option<u64> {
    let mut number = 0;
    for at in 0..10 {
        let byte = *bytes.get(at)?;
        if at == 9 && byte > 1 {
            return None;
        }
        number |= u64::from(byte & 0x7F) << (7 * at);
        if byte < 0x80 {
            *bytes = &bytes[at + 1..];
            return (byte != 0 || at == 0).then_some(number);
        }
    }
    None
}

#[inline(always)]
fn signed(bytes: &mut &[u8]) -> Option<i64> {
    let number = number(bytes)?;
    Some((number >> 1) as i64 ^ -((number & 1) as i64))
}
