//! The tables: the memory that is lent to every call.

/// There are so many tickets, so at most this many ranges are open.
pub const TICKETS: usize = 16;

/// Cells of `rows` for each node and both sentinels.
pub const ROW: usize = 32;

/// The capacities that a map may have, each with its number of buckets.
pub const SIZES: [(u32, usize); 7] =
    [(64, 97), (128, 191), (256, 367), (512, 733), (1024, 1471), (2048, 2927), (4096, 5857)];

/// An open range. Its fields belong to the library; any contents are allowed and tested.
#[repr(C)]
#[derive(Clone, Copy, Debug, Default, PartialEq, Eq)]
pub struct Ticket {
    /// The version that names the range.
    pub version: u32,
    /// The lower bound with its top bit turned, so that unsigned order is the order of keys.
    pub low: u64,
    /// The upper bound, likewise.
    pub high: u64,
    /// The node that the range rests on, or the tail.
    pub rest: u32,
    /// How many nodes are on its list.
    pub held: u32,
}

/// The coordinator's small record.
#[repr(C)]
#[derive(Clone, Copy, Debug, Default, PartialEq, Eq)]
pub struct Coordinator {
    /// The version counter.
    pub counter: u32,
    /// How many ranges are open.
    pub ranges: u32,
    /// How many nodes are due.
    pub due: u32,
}

/// The memory of a map. Any contents and any lengths are safe to lend: every call tests them, and
/// refuses what is not sound with [`Refusal::NotSound`](crate::Refusal::NotSound). So tables may be
/// written to a file and read again, and a damaged file is found out.
#[derive(Clone, Debug, Default, PartialEq, Eq)]
pub struct Tables {
    /// The nodes' keys, each with its top bit turned: as many as the capacity.
    pub keys: Vec<u64>,
    /// The nodes' values: as many as the capacity.
    pub values: Vec<i64>,
    /// 32 cells for each node and both sentinels.
    pub rows: Vec<u32>,
    /// The first node of each bucket.
    pub buckets: Vec<u32>,
    /// Sixteen tickets.
    pub tickets: Vec<Ticket>,
    /// Version counter, open ranges, nodes due.
    pub coordinator: Coordinator,
}

impl Tables {
    /// Memory of the right lengths for the capacity, not set up yet; nothing where the capacity is
    /// not in the table.
    pub fn sized(capacity: u32) -> Option<Tables> {
        let &(_, buckets) = SIZES.iter().find(|size| size.0 == capacity)?;
        let nodes = capacity as usize;
        Some(Tables {
            keys: vec![0; nodes],
            values: vec![0; nodes],
            rows: vec![0; ROW * (nodes + 2)],
            buckets: vec![0; buckets],
            tickets: vec![Ticket::default(); TICKETS],
            coordinator: Coordinator::default(),
        })
    }
}
