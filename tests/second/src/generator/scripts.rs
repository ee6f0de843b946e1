//! Valid files that follow a script: closes in every order, every refusal, the limit of 64 pairs,
//! and set-ups that are refused.

use crate::generator::author::Author;
use crate::map::{NodeNumber, Version, FAST_RANGE_LIMIT, TICKETS};
use crate::random::Random;
use crate::transaction::{header_bytes, Transaction};

/// Four ranges at a time, closed in each of the 24 orders, with removals before, between and
/// after the openings and hand-overs before and between the closes.
pub fn closes_in_every_order(seed: u64) -> Vec<u8> {
    const RANGES: usize = 4;
    let keys = (1..=8).map(|index| 10 * index).collect();
    let mut author = Author::new(Random::new(seed), 64, Version(0), keys);
    for order in 0..24 {
        author.fill(8);
        for _ in 0..RANGES {
            remove_some(&mut author);
            put_drawn(&mut author, 9);
        }
        remove_some(&mut author);
        for place in permutation(order, RANGES) {
            put_drawn(&mut author, 10);
            if author.random.chance(50) {
                put_drawn(&mut author, 3);
            }
            // The versions of this round are the last four.
            let version = Version(author.map.counter().0 - place as u32);
            author.put(Transaction::Close { version }).ok();
            put_drawn(&mut author, 12);
        }
        clear_away(&mut author);
    }
    author.bytes
}

/// Hands over and sweeps most of what is left, so that nodes do not run out.
fn clear_away(author: &mut Author) {
    while !author.map.pending_nodes().is_empty() && author.random.chance(80) {
        put_drawn(author, 3);
    }
    while author.map.due_count() > 0 && author.random.chance(95) {
        put_drawn(author, 12);
    }
}

/// Removes a key or two and hands over some of what is pending.
fn remove_some(author: &mut Author) {
    for _ in 0..author.random.between(1, 2) {
        put_drawn(author, 2);
    }
    while author.random.chance(50) {
        put_drawn(author, 3);
    }
}

fn put_drawn(author: &mut Author, code: u8) {
    let transaction = author.draw(code, true);
    author.put(transaction).ok();
}

/// The order with this number among all orders of the numbers below the count.
pub fn permutation(mut number: usize, count: usize) -> Vec<usize> {
    let mut rest: Vec<usize> = (0..count).collect();
    let mut order = Vec::new();
    while !rest.is_empty() {
        order.push(rest.remove(number % rest.len()));
        number /= rest.len() + 1;
    }
    order
}

/// Every refusal of a call, also where two are due at once and the order decides.
pub fn every_refusal(seed: u64) -> Vec<u8> {
    let keys: Vec<i64> = (0..200).collect();
    let mut random = Random::new(seed);
    let capacity = random.choose(&[128, 256]);
    let start = Version(u32::MAX - TICKETS as u32);
    let mut author = Author::new(random, capacity, start, keys);
    let mut wrong = wrong_when_empty(&mut author);
    author.random.shuffle(&mut wrong);
    put_all(&mut author, wrong);

    author.fill(FAST_RANGE_LIMIT + 1);
    // More keys than nodes: the last ones find no free node.
    let keys = 1000..1000 + i64::from(capacity);
    let inserts = keys.map(|key| Transaction::Insert { key, value: 0, coin: 0 });
    put_all(&mut author, inserts.collect());
    for _ in 0..TICKETS {
        put_drawn(&mut author, 9);
    }
    let mut wrong = wrong_when_full(&mut author);
    author.random.shuffle(&mut wrong);
    put_all(&mut author, wrong);
    // With a ticket to spare, the counter's end is what refuses.
    put_drawn(&mut author, 11);
    put_drawn(&mut author, 9);
    put_all(&mut author, vec![Transaction::Open { low: 1, high: 0 }]);
    author.bytes
}

fn put_all(author: &mut Author, transactions: Vec<Transaction>) {
    for transaction in transactions {
        author.put(transaction).ok();
    }
}

/// What an empty map refuses.
fn wrong_when_empty(author: &mut Author) -> Vec<Transaction> {
    let key = author.key();
    vec![
        Transaction::Lookup { key },
        Transaction::Remove { key },
        Transaction::HandOver { node: author.node(false) },
        Transaction::HandOver { node: NodeNumber(u32::MAX) },
        Transaction::Ceil { key },
        Transaction::Floor { key },
        Transaction::Succ { key },
        Transaction::Pred { key },
        Transaction::FastRange { low: key, high: key - 1 },
        Transaction::Open { low: key, high: key - 1 },
        Transaction::Step { version: author.version(false), room: 1 },
        Transaction::Step { version: author.version(false), room: 0 },
        Transaction::Close { version: author.version(false) },
    ]
}

/// What is refused with no node free, sixteen ranges open and the counter at its end.
fn wrong_when_full(author: &mut Author) -> Vec<Transaction> {
    let present = author.map.present_pairs(i64::MIN, i64::MAX);
    let key = author.random.choose(&present).0;
    vec![
        Transaction::Insert { key, value: 0, coin: 0 },
        Transaction::Insert { key: -1, value: 0, coin: 0 },
        Transaction::FastRange { low: i64::MIN, high: i64::MAX },
        Transaction::Open { low: i64::MAX, high: i64::MIN },
        Transaction::Open { low: key, high: key },
        Transaction::Step { version: author.version(true), room: 0 },
        Transaction::Succ { key: i64::MAX },
        Transaction::Pred { key: i64::MIN },
    ]
}

/// Fast ranges and steps over 63 to 67 present pairs, some of them removed one by one.
pub fn around_sixty_four_pairs(seed: u64) -> Vec<u8> {
    let mut random = Random::new(seed);
    let first = random.bits_of_any_length() as i64 / 2;
    let count = random.between(63, 67) as i64;
    let mut keys: Vec<i64> = (first..first + count).collect();
    random.shuffle(&mut keys);
    let capacity = random.choose(&[128, 256]);
    let mut author = Author::new(random, capacity, Version(0), keys.clone());
    let inserts = keys.into_iter().map(|key| Transaction::Insert { key, value: 7, coin: 0 });
    put_all(&mut author, inserts.collect());
    let (low, high) = (first, first + count - 1);
    for version in 1..=4 {
        put_all(
            &mut author,
            vec![
                Transaction::FastRange { low, high },
                Transaction::FastRange { low: low + 1, high },
                Transaction::Open { low, high },
            ],
        );
        put_drawn(&mut author, 2);
        put_drawn(&mut author, 3);
        for room in [author.random.between(1, 70) as u32, 64, 1] {
            author.put(Transaction::Step { version: Version(version), room }).ok();
        }
    }
    author.bytes
}

/// A capacity that the set-up refuses, with anything behind the header.
pub fn refused_set_up(seed: u64) -> Vec<u8> {
    const REFUSED: [u32; 11] = [0, 63, 65, 257, 512, 1024, 2048, 4096, 8192, 1 << 31, u32::MAX];
    let mut random = Random::new(seed);
    let start = Version(random.choose(&[0, 1, 1 << 31, u32::MAX]));
    let mut bytes = header_bytes(REFUSED[seed as usize % REFUSED.len()], start);
    for _ in 0..random.choose(&[0, 1, 20]) {
        bytes.push(random.bits() as u8);
    }
    bytes
}
