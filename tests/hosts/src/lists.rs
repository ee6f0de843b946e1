//! Random lists of calls against a BTreeMap.

use lopresnik::{List, Map, Version, SIZES};

use crate::calls::{Answer, Call};
use crate::model::Model;
use crate::random::{random_call, universe, Mix, Random};

const CALL_PLACES: usize = lopresnik::CALL_PLACES;

/// Lists in the life of one map.
const LISTS: usize = 12;

pub fn run(calls: usize) -> String {
    let mut random = Random(11);
    let mut counted = Counted::default();
    let mut life = 0;
    while counted.calls < calls {
        let capacity = SIZES[life % SIZES.len()].0;
        run_life(&mut random, capacity, &mut counted);
        life += 1;
    }
    counted.check(1_000_000);
    format!(
        "{} calls in {life} maps, {} refused, {} pairs",
        counted.calls, counted.refused, counted.pairs
    )
}

/// What the calls came to. A test that meets no refusal and no pair would show nothing.
#[derive(Default)]
pub struct Counted {
    pub calls: usize,
    pub refused: usize,
    pub pairs: usize,
    refusals: [usize; 14],
}

impl Counted {
    pub fn add(&mut self, answer: &Answer) {
        self.calls += 1;
        self.pairs += answer.pairs.len();
        if let Err(refusal) = answer.numbers {
            self.refused += 1;
            self.refusals[refusal.number() as usize] += 1;
        }
    }

    /// Refusals 3 to 13 have all been met, and most calls were made; a run of fewer calls than
    /// `enough` may miss some.
    pub fn check(&self, enough: usize) {
        if self.calls < enough {
            return;
        }
        for number in 3..=13 {
            assert!(self.refusals[number] > 0, "refusal {number} was never met");
        }
        assert!(self.refused < self.calls / 2, "most calls were refused");
        assert!(self.pairs > self.calls / 10, "hardly a pair was handed out");
    }
}

/// How a map is driven: many ranges, a map that fills up, or versions that end.
pub fn random_life(random: &mut Random) -> (Mix, Version) {
    let mix = Mix { opens: [2, 10, 80][random.below(3)], inserts: [45, 55, 80][random.below(3)] };
    let start = if random.below(4) == 0 { u32::MAX - random.below(50) as u32 } else { 0 };
    (mix, Version(start))
}

fn run_life(random: &mut Random, capacity: u32, counted: &mut Counted) {
    let (mix, start) = random_life(random);
    let size = capacity as usize * (1 + random.below(3));
    let keys = universe(random, size);
    let mut map = Map::starting_at(capacity, start).expect("a capacity of the table");
    let mut model = Model::new(capacity, start.0);
    for _ in 0..LISTS {
        let length = 1 + random.below(4 * capacity as usize);
        let (list, expected) = random_list(random, &keys, &mut model, mix, length);
        let answers = map.run_list(&list).expect("the tables are sound");
        assert_eq!(answers.calls(), length);
        for (answer, (call, expected)) in answers.iter().zip(expected) {
            let pairs = answer.keys.iter().copied().zip(answer.values.iter().copied()).collect();
            let answer = Answer { numbers: answer.numbers, pairs };
            assert_eq!(answer, expected, "{call:?}");
            counted.add(&answer);
        }
    }
    assert!(map.sound());
}

/// A list of so many calls, and what they must answer.
pub fn random_list(
    random: &mut Random,
    keys: &[i64],
    model: &mut Model,
    mix: Mix,
    length: usize,
) -> (List, Vec<(Call, Answer)>) {
    let mut list = List::new();
    let mut expected = Vec::new();
    for _ in 0..length {
        let call = random_call(random, keys, model, mix);
        call.write(&mut list);
        expected.push((call, model.make(call, CALL_PLACES, CALL_PLACES)));
    }
    (list, expected)
}
