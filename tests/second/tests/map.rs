//! The map's calls, at every capacity, against `BTreeMap` and against answers worked out by hand.

use std::collections::BTreeMap;
use std::ops::Bound::{Excluded, Included, Unbounded};

use second::map::{HandedOver, Map, NodeNumber, Refusal, Stepped, Swept, Tally, Version, SIZES};
use second::random::Random;

#[test]
fn the_table_of_sizes_keeps_its_rules() {
    for sizes in &SIZES {
        assert_eq!(1 << sizes.levels, sizes.capacity);
        assert!(10 * u64::from(sizes.capacity) <= 7 * sizes.buckets);
    }
}

/// The map under test beside the plain one, and the pairs that each open range has still to give.
struct Twin {
    random: Random,
    map: Map,
    plain: BTreeMap<i64, i64>,
    ranges: BTreeMap<u32, Vec<(i64, i64)>>,
}

impl Twin {
    fn key(&mut self) -> i64 {
        let near = self.random.below(24) as i64 - 12;
        self.random.choose(&[near, near, near, i64::MIN, i64::MAX])
    }

    /// Pairs of the plain map within the bounds.
    fn plain_pairs(&self, low: i64, high: i64) -> Vec<(i64, i64)> {
        self.plain.range(low..=high).map(|(&key, &value)| (key, value)).collect()
    }

    fn insert(&mut self) {
        let (key, value, coin) = (self.key(), self.random.bits() as i64, self.random.bits());
        let is_present = self.plain.contains_key(&key);
        let is_full = self.map.tally().free == 0;
        match self.map.insert(key, value, coin) {
            Ok(_) => {
                assert!(!is_present && !is_full);
                self.plain.insert(key, value);
            }
            Err(Refusal::KeyPresent) => assert!(is_present),
            Err(Refusal::NoFreeNode) => assert!(is_full && !is_present),
            Err(other) => panic!("insert is refused with {other:?}"),
        }
    }

    fn remove(&mut self) {
        let key = self.key();
        let was_present = self.plain.remove(&key).is_some();
        assert_eq!(self.map.remove(key).is_ok(), was_present);
        if !was_present {
            assert_eq!(self.map.remove(key), Err(Refusal::KeyAbsent));
        }
    }

    fn look(&mut self) {
        let key = self.key();
        let plain = &self.plain;
        assert_eq!(self.map.lookup(key).ok(), plain.get(&key).copied());
        let first_of = |from, to| plain.range::<i64, _>((from, to)).next().map(|(&key, _)| key);
        let last_of = |from, to| plain.range::<i64, _>((from, to)).next_back().map(|(&key, _)| key);
        assert_eq!(self.map.ceil(key).ok(), first_of(Included(key), Unbounded));
        assert_eq!(self.map.floor(key).ok(), last_of(Unbounded, Included(key)));
        assert_eq!(self.map.succ(key).ok(), first_of(Excluded(key), Unbounded));
        assert_eq!(self.map.pred(key).ok(), last_of(Unbounded, Excluded(key)));
    }

    fn fast_range(&mut self) {
        let (low, high) = (self.key(), self.key());
        let (mut keys, mut values) = ([77; 64], [88; 64]);
        let result = self.map.fast_range(low, high, &mut keys, &mut values);
        if low > high {
            assert_eq!(result, Err(Refusal::BoundsReversed));
            return;
        }
        let pairs = self.plain_pairs(low, high);
        assert_eq!(result, Ok(pairs.len()));
        assert_buffers(&pairs, &keys, &values);
    }

    fn open(&mut self) {
        let (low, high) = (self.key(), self.key());
        let result = self.map.open(low, high);
        if low > high {
            assert_eq!(result, Err(Refusal::BoundsReversed));
        } else if self.ranges.len() == 16 {
            assert_eq!(result, Err(Refusal::AllTicketsOpen));
        } else {
            let pairs = self.plain_pairs(low, high);
            self.ranges.insert(result.expect("a ticket is left").0, pairs);
        }
    }

    /// A version that may be open.
    fn version(&mut self) -> u32 {
        let now = self.map.counter().0;
        now - self.random.below(u64::from(now.min(20)) + 1) as u32
    }

    fn step(&mut self) {
        let version = self.version();
        let (places, other_places) = (self.random.below(9) as usize, self.random.below(9) as usize);
        let (mut keys, mut values) = (vec![77; places], vec![88; other_places]);
        let result = self.map.step(Version(version), &mut keys, &mut values);
        let room = places.min(other_places);
        let Some(left) = self.ranges.get_mut(&version) else {
            assert_eq!(result, Err(Refusal::NoSuchOpenRange));
            return;
        };
        if room == 0 {
            assert_eq!(result, Err(Refusal::TooFewPlaces));
            return;
        }
        let given: Vec<(i64, i64)> = left.drain(..room.min(left.len())).collect();
        let finished = left.is_empty();
        assert_eq!(result, Ok(Stepped { count: given.len(), finished }));
        assert_buffers(&given, &keys, &values);
    }

    fn close(&mut self) {
        let version = self.version();
        let was_open = self.ranges.remove(&version).is_some();
        assert_eq!(self.map.close(Version(version)).is_ok(), was_open);
    }

    fn hand_over(&mut self) {
        let pending = self.map.pending_nodes();
        if !pending.is_empty() {
            let node = self.random.choose(pending);
            self.map.hand_over(node).expect("the node is pending");
            assert_eq!(self.map.hand_over(node), Err(Refusal::NodeNotPending));
        }
    }

    fn do_anything(&mut self) {
        match self.random.below(12) {
            0..=2 => self.insert(),
            3 | 4 => self.remove(),
            5 => self.look(),
            6 => self.fast_range(),
            7 => self.open(),
            8 => self.step(),
            9 => self.close(),
            10 => self.hand_over(),
            _ => drop(self.map.sweep()),
        }
        assert_eq!(self.map.tally().present, self.plain.len());
        self.map.assert_sound();
    }
}

/// The pairs stand at the front of the buffers, and behind them what stood there before.
fn assert_buffers(pairs: &[(i64, i64)], keys: &[i64], values: &[i64]) {
    let (given_keys, given_values): (Vec<i64>, Vec<i64>) = pairs.iter().copied().unzip();
    assert_eq!(keys[..pairs.len()], given_keys);
    assert_eq!(values[..pairs.len()], given_values);
    assert!(keys[pairs.len()..].iter().all(|&key| key == 77));
    assert!(values[pairs.len()..].iter().all(|&value| value == 88));
}

#[test]
fn every_call_agrees_with_the_plain_map() {
    for seed in 0..42 {
        let capacity = SIZES[seed as usize % SIZES.len()].capacity;
        let mut twin = Twin {
            random: Random::new(seed),
            map: Map::set_up(capacity, Version(0)).expect("a capacity of the table"),
            plain: BTreeMap::new(),
            ranges: BTreeMap::new(),
        };
        for _ in 0..500 {
            twin.do_anything();
        }
    }
}

/// A map with the keys 1 to the count, as nodes 0 and so on, each with its negative as value.
fn map_with(count: i64) -> Map {
    let mut map = Map::set_up(128, Version(0)).expect("a capacity of the table");
    for key in 1..=count {
        map.insert(key, -key, 0).expect("there is room");
    }
    map
}

/// Removes a key and hands its node over to the latest open range.
fn hold(map: &mut Map, key: i64) {
    let node = map.remove(key).expect("the key is present");
    assert_eq!(map.hand_over(node), Ok(HandedOver::Held));
}

#[test]
fn lists_due_nodes_and_free_nodes_keep_their_order() {
    let mut map = map_with(6);
    let first = map.open(1, 6).expect("a ticket is left");
    hold(&mut map, 1);
    let second = map.open(1, 6).expect("a ticket is left");
    let third = map.open(1, 6).expect("a ticket is left");
    hold(&mut map, 2);
    // The third's list goes to the second, and that to the end of the first's.
    assert_eq!(map.close(third), Ok(0));
    hold(&mut map, 3);
    assert_eq!(map.close(second), Ok(0));
    assert_eq!(map.tally(), Tally { present: 3, held: 3, free: 122 });
    assert_eq!(map.close(first), Ok(3));
    // Nodes made due later come behind.
    let fourth = map.open(1, 6).expect("a ticket is left");
    hold(&mut map, 4);
    assert_eq!(map.close(fourth), Ok(1));
    assert_eq!(map.tally(), Tally { present: 2, held: 0, free: 122 });
    for still_due in [3, 2, 1, 0] {
        assert_eq!(map.sweep(), Swept { freed: 1, still_due });
    }
    assert_eq!(map.sweep(), Swept { freed: 0, still_due: 0 });
    // Due were the nodes 0, 1, 2, 3; the one freed last is used first, then the fresh ones.
    for node in [3, 2, 1, 0, 6, 7] {
        assert_eq!(map.insert(100 + i64::from(node), 0, 0), Ok(NodeNumber(node)));
    }
}

#[test]
fn the_middle_range_leaves_its_list_to_the_next_older() {
    let mut map = map_with(3);
    let versions = [1, 2, 3].map(|key| {
        let version = map.open(1, 3).expect("a ticket is left");
        hold(&mut map, key);
        version
    });
    assert_eq!(map.close(versions[1]), Ok(0));
    assert_eq!(map.close(versions[0]), Ok(2));
    assert_eq!(map.close(versions[2]), Ok(1));
}

#[test]
fn a_hand_over_looks_at_the_ranges_open_now() {
    let mut map = map_with(0);
    map.open(1, 9).expect("a ticket is left");
    map.insert(5, 0, 0).expect("there is room");
    let younger = map.open(1, 9).expect("a ticket is left");
    let node = map.remove(5).expect("the key is present");
    map.close(younger).expect("the range is open");
    assert_eq!(map.hand_over(node), Ok(HandedOver::Freed));
}

#[test]
fn version_0_is_a_real_removal_version() {
    let mut map = map_with(2);
    map.remove(1).expect("the key is present");
    assert_eq!(map.lookup(1), Err(Refusal::KeyAbsent));
    assert_eq!(map.ceil(1), Ok(2));
}

#[test]
fn a_fast_range_refuses_in_order_and_leaves_the_buffers() {
    let map = map_with(65);
    let refused = |low, high, keys_places, values_places| {
        let (mut keys, mut values) = (vec![77; keys_places], vec![88; values_places]);
        let result = map.fast_range(low, high, &mut keys, &mut values);
        if result.is_err() {
            assert_buffers(&[], &keys, &values);
        }
        result
    };
    assert_eq!(refused(65, 1, 0, 0), Err(Refusal::BoundsReversed));
    assert_eq!(refused(1, 65, 0, 0), Err(Refusal::TooManyPairs));
    assert_eq!(refused(1, 65, 100, 100), Err(Refusal::TooManyPairs));
    assert_eq!(refused(1, 64, 63, 64), Err(Refusal::TooFewPlaces));
    assert_eq!(refused(1, 64, 64, 63), Err(Refusal::TooFewPlaces));
    assert_eq!(refused(1, 64, 64, 64), Ok(64));
    assert_eq!(refused(66, 70, 0, 0), Ok(0));
}

#[test]
fn a_step_takes_the_smaller_buffer_and_refuses_in_order() {
    let mut map = map_with(5);
    let version = map.open(1, 5).expect("a ticket is left");
    let mut step = |version, keys_places, values_places| {
        map.step(version, &mut vec![0; keys_places], &mut vec![0; values_places])
    };
    assert_eq!(step(Version(9), 0, 0), Err(Refusal::NoSuchOpenRange));
    assert_eq!(step(version, 0, 3), Err(Refusal::TooFewPlaces));
    assert_eq!(step(version, 3, 0), Err(Refusal::TooFewPlaces));
    assert_eq!(step(version, 2, 3), Ok(Stepped { count: 2, finished: false }));
    assert_eq!(step(version, 100, 3), Ok(Stepped { count: 3, finished: true }));
    assert_eq!(step(version, 1, 1), Ok(Stepped { count: 0, finished: true }));
    assert_eq!(step(version, 0, 0), Err(Refusal::TooFewPlaces));
}

#[test]
fn a_set_up_takes_the_capacities_of_the_table_only() {
    let in_table = [64, 128, 256, 512, 1024, 2048, 4096];
    for capacity in 0..10_000 {
        let refusal = Map::set_up(capacity, Version(0)).err();
        let expected = Some(Refusal::CapacityNotInTable);
        assert_eq!(refusal, if in_table.contains(&capacity) { None } else { expected });
    }
}
