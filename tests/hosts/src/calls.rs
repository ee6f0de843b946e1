//! A call, made through a list or through its own entry point, and what it answers.

use lopresnik::{List, Map, Node, Refusal, Version};

#[derive(Clone, Copy, Debug, PartialEq, Eq)]
pub enum Call {
    Lookup(i64),
    Insert(i64, i64, u64),
    Remove(i64),
    HandOver(Node),
    Ceil(i64),
    Floor(i64),
    Succ(i64),
    Pred(i64),
    FastRange(i64, i64),
    OpenRange(i64, i64),
    /// A version and a room.
    StepRange(Version, u32),
    CloseRange(Version),
    Sweep,
    Tally,
}

/// The call's numbers in document 01's order, 0 where it has fewer, or its refusal; and its pairs.
#[derive(Clone, Debug, PartialEq, Eq)]
pub struct Answer {
    pub numbers: Result<[i64; 3], Refusal>,
    pub pairs: Vec<(i64, i64)>,
}

impl Answer {
    pub fn refused(refusal: Refusal) -> Answer {
        Answer { numbers: Err(refusal), pairs: Vec::new() }
    }

    pub fn of(numbers: [i64; 3]) -> Answer {
        Answer { numbers: Ok(numbers), pairs: Vec::new() }
    }

    /// An answer of one number, or a refusal.
    fn one(number: Result<i64, Refusal>) -> Answer {
        Answer { numbers: number.map(|number| [number, 0, 0]), pairs: Vec::new() }
    }
}

impl Call {
    pub fn write(self, list: &mut List) {
        match self {
            Call::Lookup(key) => list.lookup(key),
            Call::Insert(key, value, coin) => list.insert(key, value, coin),
            Call::Remove(key) => list.remove(key),
            Call::HandOver(node) => list.hand_over(node),
            Call::Ceil(key) => list.ceil(key),
            Call::Floor(key) => list.floor(key),
            Call::Succ(key) => list.succ(key),
            Call::Pred(key) => list.pred(key),
            Call::FastRange(low, high) => list.fast_range(low, high),
            Call::OpenRange(low, high) => list.open_range(low, high),
            Call::StepRange(version, room) => list.step_range(version, room),
            Call::CloseRange(version) => list.close_range(version),
            Call::Sweep => list.sweep(),
            Call::Tally => list.tally(),
        };
    }

    /// Makes the call by its entry point, with pair buffers of these lengths (a step: at most its
    /// room). What lies beyond the pairs in the buffers must stay as it was.
    pub fn make(self, map: &mut Map, keys_room: usize, values_room: usize) -> Answer {
        let unused = i64::MIN + 77;
        let (mut keys, mut values) = (vec![unused; keys_room], vec![unused; values_room]);
        let numbers = match self {
            Call::FastRange(low, high) => {
                map.fast_range(low, high, &mut keys, &mut values).map(|count| [count as i64, 0, 0])
            }
            Call::StepRange(version, room) => {
                keys.truncate(room as usize);
                map.step_range(version, &mut keys, &mut values)
                    .map(|stepped| [stepped.count as i64, i64::from(stepped.finished), 0])
            }
            _ => return self.make_without_pairs(map),
        };
        let count = numbers.map_or(0, |numbers| numbers[0] as usize);
        assert!(keys[count..].iter().chain(&values[count..]).all(|&cell| cell == unused));
        Answer { numbers, pairs: keys.into_iter().zip(values).take(count).collect() }
    }

    fn make_without_pairs(self, map: &mut Map) -> Answer {
        let number_of = |node: Node| i64::from(node.0);
        match self {
            Call::Lookup(key) => Answer::one(map.lookup(key)),
            Call::Insert(key, value, coin) => {
                Answer::one(map.insert_with_coin(key, value, coin).map(number_of))
            }
            Call::Remove(key) => Answer::one(map.remove(key).map(number_of)),
            Call::HandOver(node) => Answer::one(map.hand_over(node).map(|handed| handed as i64)),
            Call::Ceil(key) => Answer::one(map.ceil(key)),
            Call::Floor(key) => Answer::one(map.floor(key)),
            Call::Succ(key) => Answer::one(map.succ(key)),
            Call::Pred(key) => Answer::one(map.pred(key)),
            Call::OpenRange(low, high) => {
                Answer::one(map.open_range(low, high).map(|version| i64::from(version.0)))
            }
            Call::CloseRange(version) => {
                Answer::one(map.close_range(version).map(|due| due as i64))
            }
            Call::Sweep => Answer {
                numbers: map
                    .sweep()
                    .map(|swept| [i64::from(swept.freed), swept.still_due as i64, 0]),
                pairs: Vec::new(),
            },
            Call::Tally => Answer {
                numbers: map
                    .tally()
                    .map(|tally| [tally.present as i64, tally.held as i64, tally.free as i64]),
                pairs: Vec::new(),
            },
            Call::FastRange(..) | Call::StepRange(..) => unreachable!("these hand out pairs"),
        }
    }
}
