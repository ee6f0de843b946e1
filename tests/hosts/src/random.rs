//! Random calls, aimed so that most of them find something to do.

use lopresnik::{Node, Version};

use crate::calls::Call;
use crate::model::Model;

/// SplitMix64.
#[derive(Clone)]
pub struct Random(pub u64);

impl Random {
    pub fn next(&mut self) -> u64 {
        self.0 = self.0.wrapping_add(0x9E37_79B9_7F4A_7C15);
        let mut mixed = self.0;
        mixed = (mixed ^ (mixed >> 30)).wrapping_mul(0xBF58_476D_1CE4_E5B9);
        mixed = (mixed ^ (mixed >> 27)).wrapping_mul(0x94D0_49BB_1331_11EB);
        mixed ^ (mixed >> 31)
    }

    pub fn below(&mut self, end: usize) -> usize {
        (self.next() % end as u64) as usize
    }

    pub fn one_of<Item: Copy>(&mut self, items: &[Item]) -> Option<Item> {
        (!items.is_empty()).then(|| items[self.below(items.len())])
    }
}

/// The keys that calls choose from, rising.
pub fn universe(random: &mut Random, size: usize) -> Vec<i64> {
    let mut keys: Vec<i64> = match random.below(4) {
        0 => (0..size as i64).map(|index| index - size as i64 / 2).collect(),
        1 => (0..size).map(|_| random.next() as i64).collect(),
        // Both ends of the keys, and around 0.
        2 => (0..size as i64)
            .map(|index| match index % 3 {
                0 => i64::MIN + index,
                1 => i64::MAX - index,
                _ => index,
            })
            .collect(),
        // All in a few buckets.
        _ => (0..size as i64).map(|index| index * 97 * 191).collect(),
    };
    keys.sort_unstable();
    keys.dedup();
    keys
}

/// Which calls are made how often.
#[derive(Clone, Copy)]
pub struct Mix {
    /// Of a thousand calls, so many open a range: each costs the model a clone.
    pub opens: usize,
    /// Of a hundred changes of the map, so many are inserts.
    pub inserts: usize,
}

pub fn random_call(random: &mut Random, keys: &[i64], model: &Model, mix: Mix) -> Call {
    let key = keys[random.below(keys.len())];
    if random.below(1000) < mix.opens {
        let other = keys[random.below(keys.len())];
        // Rarely the wrong way round.
        let reversed = random.below(20) == 0;
        let (low, high) = (key.min(other), key.max(other));
        return if reversed { Call::OpenRange(high, low) } else { Call::OpenRange(low, high) };
    }
    match random.below(100) {
        0..=29 => {
            if random.below(100) < mix.inserts {
                Call::Insert(key, random.next() as i64, random.next())
            } else {
                Call::Remove(key)
            }
        }
        30..=49 => match random_node(random, model) {
            Some(node) => Call::HandOver(node),
            None => Call::Remove(key),
        },
        50..=59 => Call::Lookup(key),
        60..=71 => match random.below(4) {
            0 => Call::Ceil(near(random, key)),
            1 => Call::Floor(near(random, key)),
            2 => Call::Succ(near(random, key)),
            _ => Call::Pred(near(random, key)),
        },
        72..=77 => {
            let span = random.below(160);
            let from = random.below(keys.len());
            Call::FastRange(keys[from], keys[(from + span).min(keys.len() - 1)])
        }
        78..=87 => {
            let room = match random.below(10) {
                0 => 0,
                1 => random.next() as u32,
                _ => random.below(70) as u32,
            };
            match random_version(random, model) {
                Some(version) => Call::StepRange(version, room),
                None => Call::Lookup(key),
            }
        }
        88..=90 => match random_version(random, model) {
            Some(version) => Call::CloseRange(version),
            None => Call::Lookup(key),
        },
        91..=97 => Call::Sweep,
        _ => Call::Tally,
    }
}

fn near(random: &mut Random, key: i64) -> i64 {
    key.wrapping_add(random.below(3) as i64 - 1)
}

/// Mostly a pending one, if there is one.
fn random_node(random: &mut Random, model: &Model) -> Option<Node> {
    match random.below(40) {
        0 => Some(Node(random.below(5000) as u32)),
        1 => Some(Node(random.next() as u32)),
        _ => random.one_of(&model.pending_nodes()),
    }
}

/// Mostly an open one, if there is one.
fn random_version(random: &mut Random, model: &Model) -> Option<Version> {
    match random.below(20) {
        0 => Some(Version(random.next() as u32)),
        _ => random.one_of(&model.open_versions()),
    }
}
