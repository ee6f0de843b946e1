//! The lent tables as raw cells, and a check of its own whether they are sound.
//!
//! Written from docs/SOUND.md and document 01 alone, as plainly as can be: it walks with a set of
//! the nodes met, and compares sets and all pairs. It shares no code with `soundness::sound`.

use std::collections::BTreeSet;

/// Cells of a node, or of a sentinel.
pub const ROW: usize = 32;
const HEIGHT: usize = 0;
const INSERTED: usize = 1;
const REMOVED: usize = 2;
const PLACE: usize = 3;
const SEAT: usize = 4;
const CHAIN: usize = 5;
const FREE: usize = 6;
const RING: usize = 7;
const LINKS: usize = 8;

const IS_FREE: u32 = 0;
const IS_PRESENT: u32 = 1;
const IS_RETIRED: u32 = 3;

const TICKETS: usize = 16;

/// Capacity, levels, buckets.
const SIZES: [(usize, usize, usize); 7] = [
    (64, 6, 97),
    (128, 7, 191),
    (256, 8, 367),
    (512, 9, 733),
    (1024, 10, 1471),
    (2048, 11, 2927),
    (4096, 12, 5857),
];

#[derive(Clone, Copy, Debug, Default, PartialEq, Eq)]
pub struct Ticket {
    pub version: u32,
    pub low: u64,
    pub high: u64,
    pub rest: u32,
    pub held: u32,
}

#[derive(Clone, Copy, Debug, Default, PartialEq, Eq)]
pub struct Coordinator {
    pub counter: u32,
    pub ranges: u32,
    pub due: u32,
}

/// Keys, values and bounds are ranks: the signed number with its top bit turned, unsigned.
#[derive(Clone, Debug, PartialEq, Eq)]
pub struct Tables {
    pub keys: Vec<u64>,
    pub values: Vec<u64>,
    pub rows: Vec<u32>,
    pub buckets: Vec<u32>,
    pub tickets: Vec<Ticket>,
    pub coordinator: Coordinator,
}

/// The conditions, by the rows of the table of docs/SOUND.md.
#[derive(Clone, Copy, Debug, PartialEq, Eq)]
pub enum Condition {
    Lengths,
    LevelsLinked,
    NodesOnce,
    Heights,
    Used,
    FreeStack,
    Ring,
    AllThere,
    AllRetiredInTheRing,
    PresentsCounted,
    Lists,
    Buckets,
    KeysInOrder,
    Versions,
    RemovedBefore,
    TicketsRise,
    OpenCount,
    Rest,
}

type Checked = Result<(), Condition>;

/// Where a cell stands, of so many rows: four columns by themselves, then rows of 16 cells (the
/// other fields and the links up to level 5), then rows of 12 (the links of the levels above).
pub fn address(rows: usize, row: usize, column: usize) -> usize {
    match column {
        LINKS => row,
        RING => rows + row,
        FREE => 2 * rows + row,
        PLACE => 3 * rows + row,
        HEIGHT..=REMOVED => 4 * rows + 16 * row + column,
        SEAT..=CHAIN => 4 * rows + 16 * row + column - 1,
        9..=19 => 4 * rows + 16 * row + column - 4,
        _ => 20 * rows + 12 * row + column - 20,
    }
}

fn demand(holds: bool, condition: Condition) -> Checked {
    if holds {
        Ok(())
    } else {
        Err(condition)
    }
}

/// The 64-bit pattern of the signed number that has this rank.
fn pattern(rank: u64) -> u64 {
    rank ^ (1 << 63)
}

fn signed(rank: u64) -> i64 {
    pattern(rank) as i64
}

impl Tables {
    /// An empty map, every node free.
    pub fn empty(capacity: usize, start: u32) -> Tables {
        let &(_, levels, buckets) =
            SIZES.iter().find(|size| size.0 == capacity).expect("a capacity of the table");
        let mut tables = Tables {
            keys: vec![0; capacity],
            values: vec![0; capacity],
            rows: vec![0; (capacity + 2) * ROW],
            buckets: vec![capacity as u32; buckets],
            tickets: vec![Ticket::default(); TICKETS],
            coordinator: Coordinator { counter: start, ranges: 0, due: 0 },
        };
        for entry in 0..capacity {
            let node = capacity - 1 - entry;
            tables.set(entry, FREE, node);
            tables.set(node, SEAT, entry);
        }
        tables.set(capacity, FREE, capacity);
        for level in 0..levels {
            tables.set(capacity, LINKS + 2 * level, capacity + 1);
            tables.set(capacity + 1, LINKS + 2 * level + 1, capacity);
        }
        tables
    }

    fn set(&mut self, row: usize, column: usize, value: usize) {
        let place = self.address(row, column);
        self.rows[place] = value as u32;
    }

    fn address(&self, row: usize, column: usize) -> usize {
        address(self.rows.len() / ROW, row, column)
    }

    fn capacity(&self) -> usize {
        self.keys.len()
    }

    fn cell(&self, row: usize, column: usize) -> usize {
        self.rows[self.address(row, column)] as usize
    }

    fn place(&self, node: usize) -> u32 {
        self.rows[self.address(node, PLACE)]
    }

    fn after(&self, level: usize, node: usize) -> usize {
        self.cell(node, LINKS + 2 * level)
    }

    fn before(&self, level: usize, node: usize) -> usize {
        self.cell(node, LINKS + 2 * level + 1)
    }

    pub fn is_sound(&self) -> bool {
        self.check().is_ok()
    }

    /// The first condition that does not hold, if there is one.
    pub fn check(&self) -> Checked {
        let levels = self.check_lengths()?;
        let order = self.check_lowest()?;
        self.check_levels(&order, levels)?;
        let linked: BTreeSet<usize> = order.iter().copied().collect();
        self.check_free(&linked)?;
        let ring = self.check_ring(&linked)?;
        self.check_presents()?;
        self.check_buckets()?;
        self.check_nodes(&order)?;
        self.check_tickets(&linked)?;
        self.check_lists(&ring)
    }

    /// Answers the number of levels.
    fn check_lengths(&self) -> Result<usize, Condition> {
        let size = SIZES.iter().find(|size| size.0 == self.keys.len());
        let &(capacity, levels, buckets) = size.ok_or(Condition::Lengths)?;
        let holds = self.values.len() == capacity
            && self.rows.len() == ROW * (capacity + 2)
            && self.buckets.len() == buckets
            && self.tickets.len() == TICKETS;
        demand(holds, Condition::Lengths)?;
        Ok(levels)
    }

    /// The nodes of the lowest level, in their order.
    fn check_lowest(&self) -> Result<Vec<usize>, Condition> {
        let (head, tail) = (self.capacity(), self.capacity() + 1);
        let mut order = Vec::new();
        let mut met = BTreeSet::new();
        let mut node = self.after(0, head);
        while node != tail {
            demand(node < self.capacity(), Condition::NodesOnce)?;
            demand(met.insert(node), Condition::NodesOnce)?;
            order.push(node);
            node = self.after(0, node);
        }
        Ok(order)
    }

    fn check_levels(&self, order: &[usize], levels: usize) -> Checked {
        let (head, tail) = (self.capacity(), self.capacity() + 1);
        for &node in order {
            demand((1..=levels).contains(&self.cell(node, HEIGHT)), Condition::Heights)?;
        }
        for level in 0..levels {
            let mut line = vec![head];
            line.extend(order.iter().filter(|&&node| self.cell(node, HEIGHT) > level));
            line.push(tail);
            for two in line.windows(2) {
                let holds =
                    self.after(level, two[0]) == two[1] && self.before(level, two[1]) == two[0];
                demand(holds, Condition::LevelsLinked)?;
            }
        }
        Ok(())
    }

    /// The free stack is every node that is not linked, and no other.
    fn check_free(&self, linked: &BTreeSet<usize>) -> Checked {
        let capacity = self.capacity();
        let free_count = self.cell(capacity, FREE);
        demand(free_count <= capacity, Condition::FreeStack)?;
        let mut free = BTreeSet::new();
        for seat in 0..free_count {
            let node = self.cell(seat, FREE);
            demand(node < capacity, Condition::FreeStack)?;
            demand(self.place(node) == IS_FREE, Condition::FreeStack)?;
            demand(self.cell(node, SEAT) == seat, Condition::FreeStack)?;
            demand(free.insert(node), Condition::FreeStack)?;
        }
        for &node in linked {
            demand((1..=3).contains(&self.place(node)), Condition::Used)?;
        }
        let others: BTreeSet<usize> = (0..capacity).filter(|node| !linked.contains(node)).collect();
        demand(free == others, Condition::AllThere)
    }

    /// The ring, its front first: every linked node that is retired, and no other.
    fn check_ring(&self, linked: &BTreeSet<usize>) -> Result<Vec<usize>, Condition> {
        let capacity = self.capacity();
        let (front, ring_count) = (self.cell(capacity, RING), self.cell(capacity + 1, RING));
        demand(front < capacity && ring_count <= capacity, Condition::Ring)?;
        let mut ring = Vec::new();
        for i in 0..ring_count {
            let seat = (front + i) % capacity;
            let node = self.cell(seat, RING);
            demand(node < capacity, Condition::Ring)?;
            demand(self.place(node) == IS_RETIRED, Condition::Ring)?;
            demand(self.cell(node, SEAT) == seat, Condition::Ring)?;
            ring.push(node);
        }
        let mut entries = ring.clone();
        entries.sort_unstable();
        let retired: Vec<usize> =
            linked.iter().copied().filter(|&node| self.place(node) == IS_RETIRED).collect();
        demand(entries == retired, Condition::AllRetiredInTheRing)?;
        Ok(ring)
    }

    fn presents(&self) -> BTreeSet<usize> {
        (0..self.capacity()).filter(|&node| self.place(node) == IS_PRESENT).collect()
    }

    fn check_presents(&self) -> Checked {
        let stored = self.cell(self.capacity() + 1, FREE);
        demand(stored == self.presents().len(), Condition::PresentsCounted)
    }

    fn check_buckets(&self) -> Checked {
        let mut met = BTreeSet::new();
        for (bucket, &first) in self.buckets.iter().enumerate() {
            let mut node = first as usize;
            while node != self.capacity() {
                demand(node < self.capacity(), Condition::Buckets)?;
                let own = pattern(self.keys[node]) % self.buckets.len() as u64;
                demand(own == bucket as u64, Condition::Buckets)?;
                demand(met.insert(node), Condition::Buckets)?;
                node = self.cell(node, CHAIN);
            }
        }
        demand(met == self.presents(), Condition::Buckets)
    }

    fn check_nodes(&self, order: &[usize]) -> Checked {
        let counter = self.coordinator.counter as usize;
        for (i, &node) in order.iter().enumerate() {
            let is_present = self.place(node) == IS_PRESENT;
            let key = signed(self.keys[node]);
            for &later in &order[i + 1..] {
                let later_key = signed(self.keys[later]);
                let holds = key < later_key || (key == later_key && !is_present);
                demand(holds, Condition::KeysInOrder)?;
            }
            demand(self.cell(node, INSERTED) <= counter, Condition::Versions)?;
            let is_dated = is_present || self.cell(node, REMOVED) <= counter;
            demand(is_dated, Condition::Versions)?;
        }
        Ok(())
    }

    fn open_tickets(&self) -> &[Ticket] {
        &self.tickets[..self.coordinator.ranges as usize]
    }

    fn check_tickets(&self, linked: &BTreeSet<usize>) -> Checked {
        demand(self.coordinator.ranges as usize <= TICKETS, Condition::OpenCount)?;
        let versions: Vec<u32> = self.open_tickets().iter().map(|ticket| ticket.version).collect();
        let mut rising = versions.clone();
        rising.sort_unstable();
        rising.dedup();
        demand(rising == versions, Condition::TicketsRise)?;
        for ticket in self.open_tickets() {
            demand(ticket.version <= self.coordinator.counter, Condition::Versions)?;
            demand(self.may_rest(ticket, linked), Condition::Rest)?;
        }
        Ok(())
    }

    fn may_rest(&self, ticket: &Ticket, linked: &BTreeSet<usize>) -> bool {
        let (rest, version) = (ticket.rest as usize, ticket.version as usize);
        if rest == self.capacity() + 1 {
            return true;
        }
        linked.contains(&rest)
            && self.cell(rest, INSERTED) < version
            && (self.place(rest) == IS_PRESENT || self.cell(rest, REMOVED) >= version)
            && signed(self.keys[rest]) >= signed(ticket.low)
    }

    fn check_lists(&self, ring: &[usize]) -> Checked {
        let open = self.open_tickets();
        let held: u64 = open.iter().map(|ticket| u64::from(ticket.held)).sum();
        let listed = u64::from(self.coordinator.due) + held;
        demand(listed == ring.len() as u64, Condition::Lists)?;
        let mut own_list = self.coordinator.due as usize;
        for ticket in open {
            for &node in &ring[..own_list] {
                let holds = self.cell(node, REMOVED) < ticket.version as usize;
                demand(holds, Condition::RemovedBefore)?;
            }
            own_list += ticket.held as usize;
        }
        Ok(())
    }
}
