//! Random calls by their entry points against a BTreeMap. A refused call must leave the memory as it was.

use lopresnik::{Map, SIZES};

use crate::lists::{random_life, Counted};
use crate::model::Model;
use crate::random::{random_call, universe, Random};

/// Calls in the life of a map of capacity 64. The soundness test takes time in proportion to the
/// capacity, so larger maps live shorter, and come less often.
const LIFE: usize = 3000;

pub fn run(calls: usize) -> String {
    let mut random = Random(12);
    let mut counted = Counted::default();
    let mut life = 0;
    while counted.calls < calls {
        let (capacity, _) = if life % 4 == 3 { SIZES[life / 4 % SIZES.len()] } else { SIZES[0] };
        run_life(&mut random, capacity, &mut counted);
        life += 1;
    }
    counted.check(50_000);
    format!(
        "{} calls in {life} maps, {} refused, {} pairs",
        counted.calls, counted.refused, counted.pairs
    )
}

fn run_life(random: &mut Random, capacity: u32, counted: &mut Counted) {
    let (mix, start) = random_life(random);
    let keys = universe(random, 2 * capacity as usize);
    let mut map = Map::starting_at(capacity, start).expect("a capacity of the table");
    let mut model = Model::new(capacity, start.0);
    for _ in 0..LIFE * 64 / capacity as usize {
        let call = random_call(random, &keys, &model, mix);
        let (keys_room, values_room) = match random.below(3) {
            0 => (random.below(80), random.below(80)),
            _ => (64, 64),
        };
        let before = map.tables().clone();
        let expected = model.make(call, keys_room, values_room);
        let answer = call.make(&mut map, keys_room, values_room);
        assert_eq!(answer, expected, "{call:?}");
        assert!(answer.numbers.is_ok() || *map.tables() == before, "{call:?} changed something");
        counted.add(&answer);
    }
    assert!(map.sound());
}
