//! Lists that are cut, malformed, or have too little room.

use lopresnik::{End, List, Map, Ran, ANSWER_CELLS, CALL_PLACES};

use crate::lists::random_list;
use crate::model::Model;
use crate::random::{universe, Mix, Random};

const CAPACITY: u32 = 64;
const CALLS: usize = 20;

pub fn run(rounds: usize) -> String {
    let mut random = Random(14);
    let mut runs = 0;
    for _ in 0..rounds {
        runs += cut_everywhere(&mut random);
        malformed(&mut random);
        little_room(&mut random);
    }
    format!("{rounds} rounds, {runs} lists cut")
}

fn new_map() -> Map {
    Map::new(CAPACITY).expect("a capacity of the table")
}

/// A list with the offset at which each of its calls begins, and its end.
fn list_with_offsets(random: &mut Random) -> (List, Vec<usize>) {
    let keys = universe(random, 100);
    let mut model = Model::new(CAPACITY, 0);
    let mix = Mix { opens: 50, inserts: 60 };
    let (whole, calls) = random_list(random, &keys, &mut model, mix, CALLS);
    let mut list = List::new();
    let mut offsets = vec![0];
    for (call, _) in calls {
        call.write(&mut list);
        offsets.push(list.bytes().len());
    }
    assert_eq!(list.bytes(), whole.bytes());
    (list, offsets)
}

fn run_bytes(map: &mut Map, bytes: &[u8], more: bool) -> Ran {
    let (mut answers, mut keys, mut values) =
        ([0; CALLS * ANSWER_CELLS], [0; CALLS * CALL_PLACES], [0; CALLS * CALL_PLACES]);
    map.run(bytes, more, &mut answers, &mut keys, &mut values)
}

/// Cut within a call: the calls before are made, and the list goes on with the rest, or stops there.
fn cut_everywhere(random: &mut Random) -> usize {
    let (list, offsets) = list_with_offsets(random);
    let mut whole = new_map();
    assert_eq!(run_bytes(&mut whole, list.bytes(), false).end, End::Ended);
    for cut in 0..=list.bytes().len() {
        let made = offsets.iter().filter(|&&offset| offset <= cut).count() - 1;
        let begins = offsets[made];
        for more in [false, true] {
            let mut map = new_map();
            let ran = run_bytes(&mut map, &list.bytes()[..cut], more);
            assert_eq!((ran.calls, ran.used), (made, begins));
            match ran.end {
                End::Ended => assert_eq!(begins, cut),
                End::More => assert!(more && begins < cut),
                End::Stop(at) => {
                    assert!(!more && begins < cut);
                    assert!((begins..=cut).contains(&at));
                }
                end => panic!("{end:?}"),
            }
            let ran = run_bytes(&mut map, &list.bytes()[begins..], false);
            assert_eq!((ran.end, ran.calls), (End::Ended, CALLS - made));
            assert_eq!(map.tables(), whole.tables(), "in two parts as at once");
        }
    }
    2 * (list.bytes().len() + 1)
}

/// A code that there is not, and a number that is not in its shortest form, stop the list there.
fn malformed(random: &mut Random) {
    let (list, offsets) = list_with_offsets(random);
    let call = random.below(CALLS);
    for (wrong, at) in
        [(&[14][..], 0), (&[0x80, 0][..], 0), (&[0, 0x80, 0][..], 1), (&[0x8D, 0x80, 0x80][..], 0)]
    {
        let mut bytes = list.bytes()[..offsets[call]].to_vec();
        bytes.extend(wrong);
        let ran = run_bytes(&mut new_map(), &bytes, false);
        assert_eq!(ran.end, End::Stop(offsets[call] + at));
        assert_eq!((ran.calls, ran.used), (call, offsets[call]));
    }
}

/// Room for fewer calls: full, and what lies beyond stays as it was.
fn little_room(random: &mut Random) {
    let (list, offsets) = list_with_offsets(random);
    let calls = random.below(CALLS);
    let cells = calls * ANSWER_CELLS + random.below(ANSWER_CELLS);
    let mut answers = [77; CALLS * ANSWER_CELLS];
    let (mut keys, mut values) = ([77; CALLS * CALL_PLACES], [77; CALLS * CALL_PLACES]);
    let ran = new_map().run(list.bytes(), false, &mut answers[..cells], &mut keys, &mut values);
    assert_eq!((ran.end, ran.calls, ran.used), (End::Full, calls, offsets[calls]));
    assert!(answers[calls * ANSWER_CELLS..].iter().all(|&cell| cell == 77));
    assert!(keys[ran.pairs..].iter().chain(&values[ran.pairs..]).all(|&cell| cell == 77));
    let ran =
        new_map().run(list.bytes(), false, &mut answers, &mut keys, &mut [0; CALL_PLACES - 1]);
    assert_eq!((ran.end, ran.calls, ran.used), (End::Full, 0, 0));
}
