//! Valid files drawn at random: each style says from which keys and how often each code.

use crate::generator::author::Author;
use crate::map::{Version, SIZES};
use crate::random::Random;

/// How a file is drawn.
pub struct Style {
    capacities: &'static [u32],
    /// The start version is at most so far below the last version; None for one farther away.
    versions_left: Option<u64>,
    keys: fn(&mut Random, u32) -> Vec<i64>,
    /// So many percent of the capacity are inserted at the beginning.
    filled_percent: usize,
    /// The fewest and the most transactions behind the first insertions.
    pub transactions: (u64, u64),
    /// How often each code is drawn, in the order of the codes.
    weights: [u64; 14],
    /// So many percent of the transactions are not aimed.
    wrong_percent: u64,
}

/// A bit of everything; the other styles are told by how they differ from it.
pub const MIXED: Style = Style {
    capacities: &[64, 128, 256],
    versions_left: None,
    keys: close_together,
    filled_percent: 10,
    transactions: (20, 120),
    weights: [4, 14, 9, 10, 3, 3, 3, 3, 4, 4, 10, 5, 11, 2],
    wrong_percent: 15,
};

/// Every key in the same bucket.
pub const COLLIDING: Style = Style { keys: of_one_bucket, ..MIXED };

/// Removes and inserts the same few keys again and again under open ranges.
pub const READDED: Style = Style {
    keys: few,
    filled_percent: 0,
    weights: [1, 20, 18, 14, 1, 1, 2, 2, 3, 5, 12, 5, 14, 2],
    wrong_percent: 5,
    ..MIXED
};

/// Few ranges, so that hand-overs and sweeps free many nodes, which insertions use again.
pub const REUSED: Style = Style {
    filled_percent: 20,
    weights: [1, 20, 16, 18, 0, 0, 0, 0, 1, 2, 1, 3, 14, 3],
    wrong_percent: 3,
    ..MIXED
};

/// More keys than nodes and almost all nodes in use.
pub const FULL: Style = Style {
    capacities: &[64, 64, 128, 256],
    keys: more_than_nodes,
    filled_percent: 100,
    weights: [1, 20, 12, 12, 1, 1, 1, 1, 3, 4, 6, 5, 12, 3],
    ..MIXED
};

/// Many ranges at once.
pub const MANY_RANGES: Style = Style {
    keys: few,
    transactions: (60, 200),
    weights: [1, 12, 10, 10, 1, 1, 1, 1, 1, 20, 12, 9, 10, 1],
    wrong_percent: 5,
    ..MIXED
};

/// Keys at both ends of the numbers and where a number takes one byte more.
pub const EXTREME: Style = Style { keys: extreme, ..MIXED };

/// Keys of every length.
pub const SCATTERED: Style = Style { keys: scattered, ..MIXED };

/// The counter reaches its last version.
pub const LAST_VERSIONS: Style = Style {
    versions_left: Some(8),
    keys: few,
    weights: [1, 10, 8, 8, 1, 1, 1, 1, 2, 12, 10, 6, 8, 1],
    ..MIXED
};

/// Mostly wrong operands.
pub const WRONG: Style = Style { wrong_percent: 80, ..MIXED };

/// Next to nothing present.
pub const ALMOST_EMPTY: Style = Style {
    keys: few,
    filled_percent: 0,
    transactions: (0, 30),
    weights: [8, 2, 4, 4, 8, 8, 8, 8, 8, 4, 8, 4, 4, 4],
    ..MIXED
};

/// About 200 KB: longer than any buffer.
pub const BUFFERS: Style = Style { transactions: (28_000, 28_000), keys: scattered, ..MIXED };

/// The style of a file of millions of transactions.
pub const LONG: Style = Style { keys: more_than_nodes, filled_percent: 50, ..MIXED };

/// The beginning of a file in this style: the header and the first insertions.
pub fn begin(style: &Style, mut random: Random) -> Author {
    let capacity = random.choose(style.capacities);
    let start = match style.versions_left {
        Some(most) => u32::MAX - random.below(most + 1) as u32,
        None => random.choose(&[0, 0, 1, 127, 128, 1 << 31]),
    };
    let keys = (style.keys)(&mut random, capacity);
    let mut author = Author::new(random, capacity, Version(start), keys);
    author.fill(capacity as usize * style.filled_percent / 100);
    author
}

/// Draws so many transactions more.
pub fn go_on(author: &mut Author, style: &Style, transactions: u64) {
    for _ in 0..transactions {
        let code = author.random.weighted(&style.weights) as u8;
        let aimed = !author.random.chance(style.wrong_percent);
        let transaction = author.draw(code, aimed);
        // A refusal is as welcome as an answer.
        author.put(transaction).ok();
    }
}

/// A whole file in this style.
pub fn draw_file(style: &Style, seed: u64) -> Vec<u8> {
    let mut author = begin(style, Random::new(seed));
    let (fewest, most) = style.transactions;
    let transactions = author.random.between(fewest, most);
    go_on(&mut author, style, transactions);
    author.bytes
}

fn few(random: &mut Random, _capacity: u32) -> Vec<i64> {
    let count = random.between(2, 6) as i64;
    (1..=count).map(|index| 10 * index - 30).collect()
}

fn close_together(random: &mut Random, _capacity: u32) -> Vec<i64> {
    let first = random.below(200) as i64 - 100;
    let count = random.between(10, 90) as i64;
    (first..first + count).collect()
}

fn more_than_nodes(_random: &mut Random, capacity: u32) -> Vec<i64> {
    let half = i64::from(capacity);
    (-half..half).map(|index| 3 * index).collect()
}

/// Keys of one bucket, over the whole width: the bucket is the 64-bit pattern, read unsigned,
/// modulo the number of buckets.
fn of_one_bucket(random: &mut Random, capacity: u32) -> Vec<i64> {
    let sizes = SIZES.iter().find(|sizes| sizes.capacity == capacity);
    let buckets = sizes.expect("a capacity of the table").buckets;
    let bucket = random.below(buckets);
    let near = 0..10;
    let far: Vec<u64> = (0..30).map(|_| random.below(u64::MAX / buckets)).collect();
    near.chain(far).map(|turn| (bucket + turn * buckets) as i64).collect()
}

/// Both ends, zero, and some powers of two of both signs with their neighbours.
fn extreme(random: &mut Random, _capacity: u32) -> Vec<i64> {
    let mut keys = vec![i64::MIN, i64::MIN + 1, -1, 0, 1, i64::MAX - 1, i64::MAX];
    for _ in 0..8 {
        let power = 1_i64 << random.below(63);
        keys.extend([power - 1, power, -power, -power - 1]);
    }
    keys
}

fn scattered(random: &mut Random, _capacity: u32) -> Vec<i64> {
    (0..100).map(|_| random.bits_of_any_length() as i64).collect()
}
