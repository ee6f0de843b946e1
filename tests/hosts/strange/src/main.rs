//! The wrapper over the archive of archive.c: a refusal that nobody knows is an error and no panic. Where
//! that archive has another version of the interface, nothing is called: the first line panics and says so.

use lopresnik::{End, List, Map, Node, Refusal, Tables, Version};

const UNKNOWN: Refusal = Refusal::Unknown(99);

fn main() {
    let mut map = Map::over(Tables::sized(64).expect("a capacity of the table"));
    assert_eq!(Map::new(64).map(|_| ()), Err(UNKNOWN));
    assert_eq!(map.lookup(1), Err(UNKNOWN));
    assert_eq!(map.insert(1, 1), Err(UNKNOWN));
    assert_eq!(map.remove(1), Err(UNKNOWN));
    assert_eq!(map.hand_over(Node(1)), Err(UNKNOWN));
    assert_eq!(map.ceil(1), Err(UNKNOWN));
    assert_eq!(map.floor(1), Err(UNKNOWN));
    assert_eq!(map.succ(1), Err(UNKNOWN));
    assert_eq!(map.pred(1), Err(UNKNOWN));
    assert_eq!(map.fast_range(1, 2, &mut [], &mut []), Err(UNKNOWN));
    assert_eq!(map.open_range(1, 2), Err(UNKNOWN));
    assert_eq!(map.step_range(Version(1), &mut [], &mut []), Err(UNKNOWN));
    assert_eq!(map.close_range(Version(1)), Err(UNKNOWN));
    assert_eq!(map.sweep(), Err(UNKNOWN));
    assert_eq!(map.tally(), Err(UNKNOWN));
    assert!(!map.sound());
    assert_eq!(map.range(1, 2).map(|_| ()).map_err(|refusal| refusal.number()), Err(99));
    let mut list = List::new();
    list.tally();
    assert_eq!(map.run_list(&list).map(|_| ()), Err(UNKNOWN));
    for more in [false, true] {
        let ran = map.run(list.bytes(), more, &mut [], &mut [], &mut []);
        assert_eq!(ran.end, End::Refused(UNKNOWN));
    }
    println!("{UNKNOWN}");
}
