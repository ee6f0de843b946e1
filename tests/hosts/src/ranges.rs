//! Long ranges while others change the map, against clones of a BTreeMap made at their opening.

use std::collections::BTreeMap;

use lopresnik::{List, Map, Refusal, Shared, Version};

use crate::random::{universe, Random};

const CAPACITY: u32 = 512;

pub fn run(rounds: usize) -> String {
    let mut random = Random(13);
    let mut pairs = 0;
    for _ in 0..rounds {
        pairs += shared_ranges(&mut random);
        pairs += stepped_ranges(&mut random);
        exclusive_range(&mut random);
    }
    format!("{rounds} rounds, {pairs} pairs of long ranges")
}

type Tree = BTreeMap<i64, i64>;

/// Inserts or removes a key of both maps; where no node is free, sweeps what is due.
fn change(random: &mut Random, keys: &[i64], map: &mut Map, tree: &mut Tree) {
    let key = keys[random.below(keys.len())];
    if random.below(2) == 0 {
        let value = random.next() as i64;
        match map.insert(key, value) {
            Ok(_) => assert_eq!(tree.insert(key, value), None),
            Err(Refusal::KeyPresent) => assert!(tree.contains_key(&key)),
            Err(Refusal::NoFreeNode) => {
                map.sweep_all().expect("the tables are sound");
            }
            Err(refusal) => panic!("{refusal}"),
        }
    } else {
        match map.remove_and_hand_over(key) {
            Ok(_) => assert!(tree.remove(&key).is_some()),
            Err(refusal) => {
                assert_eq!(refusal, Refusal::KeyAbsent);
                assert!(!tree.contains_key(&key));
            }
        }
    }
}

fn filled(random: &mut Random) -> (Vec<i64>, Map, Tree) {
    let keys = universe(random, CAPACITY as usize);
    let mut map = Map::new(CAPACITY).expect("a capacity of the table");
    let mut tree = Tree::new();
    for &key in keys.iter().step_by(2) {
        let value = random.next() as i64;
        map.insert(key, value).expect("there is room");
        tree.insert(key, value);
    }
    (keys, map, tree)
}

/// Some keys of the universe as bounds, the lower one first.
fn bounds(random: &mut Random, keys: &[i64]) -> (i64, i64) {
    let (one, other) = (keys[random.below(keys.len())], keys[random.below(keys.len())]);
    (one.min(other), one.max(other))
}

/// Iterators over a shared map: opened, read a little, left or read out, while others change the map.
fn shared_ranges(random: &mut Random) -> usize {
    let (keys, map, mut tree) = filled(random);
    let shared = Shared::new(map);
    let mut open = Vec::new();
    let mut pairs = 0;
    for _ in 0..300 {
        shared.with(|map| change(random, &keys, map, &mut tree));
        if open.len() < 5 && random.below(8) == 0 {
            let (low, high) = bounds(random, &keys);
            let snapshot: Vec<_> =
                tree.range(low..=high).map(|(&key, &value)| (key, value)).collect();
            open.push((shared.range(low, high).expect("a ticket is free"), snapshot, 0));
        }
        let Some(which) = random.below(6).checked_sub(1).filter(|&which| which < open.len()) else {
            continue;
        };
        let (range, snapshot, next) = &mut open[which];
        for _ in 0..random.below(90) {
            assert_eq!(range.next(), snapshot.get(*next).copied());
            *next = (*next + 1).min(snapshot.len());
            pairs += 1;
        }
        match random.below(12) {
            0 => drop(open.swap_remove(which)),
            // Dropped while the map is taken: closed as soon as it is free.
            1 => shared.with(|_| drop(open.swap_remove(which))),
            _ => {}
        }
    }
    for (range, snapshot, next) in open {
        assert!(range.eq(snapshot[next..].iter().copied()), "the rest of a range");
    }
    let mut map = shared.into_map();
    assert_eq!(map.open_versions().count(), 0, "every range is closed");
    map.sweep_all().expect("the tables are sound");
    let tally = map.tally().expect("the tables are sound");
    assert_eq!((tally.present, tally.held), (tree.len(), 0));
    assert_eq!(tally.free, CAPACITY as usize - tree.len(), "no node is lost");
    pairs
}

/// Sixteen ranges by their versions, stepped in lists among changes.
fn stepped_ranges(random: &mut Random) -> usize {
    let (keys, mut map, mut tree) = filled(random);
    let mut open: Vec<(Version, Vec<(i64, i64)>)> = Vec::new();
    let mut pairs = 0;
    for _ in 0..40 {
        if open.len() < 16 {
            let (low, high) = bounds(random, &keys);
            let version = map.open_range(low, high).expect("a ticket is free");
            let snapshot = tree.range(low..=high).map(|(&key, &value)| (key, value)).collect();
            open.push((version, snapshot));
        } else {
            assert_eq!(map.open_range(0, 0), Err(Refusal::AllTicketsOpen));
        }
        for _ in 0..10 {
            change(random, &keys, &mut map, &mut tree);
        }
        let mut list = List::new();
        for &(version, _) in &open {
            list.step_range(version, 7);
        }
        let answers = map.run_list(&list).expect("the tables are sound");
        for (answer, (_, left)) in answers.iter().zip(&mut open) {
            let count = left.len().min(7);
            let got: Vec<_> =
                answer.keys.iter().copied().zip(answer.values.iter().copied()).collect();
            assert_eq!(got, left[..count], "the next pairs of the snapshot");
            left.drain(..count);
            assert_eq!(answer.numbers, Ok([count as i64, i64::from(left.is_empty()), 0]));
            pairs += count;
        }
        if random.below(3) == 0 {
            let (version, _) = open.swap_remove(random.below(open.len()));
            map.close_range(version).expect("the range is open");
        }
    }
    assert!(map.sound());
    pairs
}

/// The iterator that borrows the map, read out or left in the middle.
fn exclusive_range(random: &mut Random) {
    let (keys, mut map, tree) = filled(random);
    for take in [usize::MAX, random.below(200)] {
        let (low, high) = bounds(random, &keys);
        let range = map.range(low, high).expect("a ticket is free");
        let expected = tree.range(low..=high).map(|(&key, &value)| (key, value));
        assert!(range.take(take).eq(expected.take(take)));
        assert_eq!(map.open_versions().count(), 0, "dropped, so closed");
    }
}
