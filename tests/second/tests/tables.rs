//! The check of raw tables: hand-made tables that are sound, and each condition of docs/SOUND.md
//! broken once. And the comparison of verdicts: what it takes for a difference or for no answer.

use second::tables::{Condition, Tables, Ticket};
use second::verdicts::compare;

const CAPACITY: usize = 64;
const HEAD: usize = 64;
const TAIL: usize = 65;

const HEIGHT: usize = 0;
const INSERTED: usize = 1;
const REMOVED: usize = 2;
const PLACE: usize = 3;
const SEAT: usize = 4;
const CHAIN: usize = 5;
const FREE: usize = 6;
const RING: usize = 7;

const PRESENT: u32 = 1;
const PENDING: u32 = 2;
const RETIRED: u32 = 3;

fn rank(key: i64) -> u64 {
    (i128::from(key) + (1 << 63)) as u64
}

fn set(tables: &mut Tables, row: usize, column: usize, value: u32) {
    let place = second::tables::address(tables.rows.len() / 32, row, column);
    tables.rows[place] = value;
}

fn after(level: usize) -> usize {
    8 + 2 * level
}

/// Links nodes of these heights in their order, and makes them no longer free.
fn link(tables: &mut Tables, nodes: &[(usize, u32)]) {
    for level in 0..6 {
        let mut line = vec![HEAD];
        line.extend(nodes.iter().filter(|node| node.1 as usize > level).map(|node| node.0));
        line.push(TAIL);
        for two in line.windows(2) {
            set(tables, two[0], after(level), two[1] as u32);
            set(tables, two[1], after(level) + 1, two[0] as u32);
        }
    }
    for &(node, height) in nodes {
        set(tables, node, HEIGHT, height);
    }
    set(tables, HEAD, FREE, (CAPACITY - nodes.len()) as u32);
}

/// Node 0 with key 5, 1 with 102 and 2 with 199 are present, in one bucket; 3 with key 102 is
/// pending, in front of 1. 4 with 300 is due, 5 with 400 on the list of version 6. The ring goes
/// over its end. Ranges of version 6 and 8 are open, the first rests on node 1, the second on the
/// tail.
fn tables() -> Tables {
    let mut tables = Tables::empty(CAPACITY, 9);
    link(&mut tables, &[(0, 1), (3, 6), (1, 2), (2, 1), (4, 3), (5, 2)]);
    for (node, key) in [5, 102, 199, 102, 300, 400].into_iter().enumerate() {
        tables.keys[node] = rank(key);
        set(&mut tables, node, INSERTED, 2);
    }
    for (node, next) in [(0, 1), (1, 2), (2, CAPACITY)] {
        set(&mut tables, node, PLACE, PRESENT);
        set(&mut tables, node, CHAIN, next as u32);
    }
    tables.buckets[5] = 0;
    set(&mut tables, TAIL, FREE, 3);
    set(&mut tables, 3, PLACE, PENDING);
    set(&mut tables, 3, REMOVED, 9);
    set(&mut tables, HEAD, RING, 63);
    set(&mut tables, TAIL, RING, 2);
    for (node, seat, removed) in [(4, 63, 5), (5, 0, 7)] {
        set(&mut tables, node, PLACE, RETIRED);
        set(&mut tables, node, SEAT, seat);
        set(&mut tables, node, REMOVED, removed);
        set(&mut tables, seat as usize, RING, node as u32);
    }
    let (low, high) = (rank(50), rank(500));
    tables.tickets[0] = Ticket { version: 6, low, high, rest: 1, held: 1 };
    tables.tickets[1] = Ticket { version: 8, low, high, rest: TAIL as u32, held: 0 };
    tables.coordinator.ranges = 2;
    tables.coordinator.due = 1;
    tables
}

fn broken_by(condition: Condition, damage: impl Fn(&mut Tables)) {
    let mut damaged = tables();
    damage(&mut damaged);
    assert_eq!(damaged.check(), Err(condition));
}

#[test]
fn empty_tables_are_sound_at_every_capacity() {
    for capacity in [64, 128, 256, 512, 1024, 2048, 4096] {
        assert_eq!(Tables::empty(capacity, 0).check(), Ok(()));
    }
}

#[test]
fn tables_made_by_hand_are_sound() {
    assert_eq!(tables().check(), Ok(()));
}

#[test]
fn cells_that_no_condition_speaks_of_are_free() {
    let mut other = tables();
    for row in 6..CAPACITY {
        for column in [HEIGHT, INSERTED, REMOVED, CHAIN, after(0), after(5) + 1] {
            set(&mut other, row, column, u32::MAX);
        }
    }
    set(&mut other, 0, after(1), u32::MAX);
    set(&mut other, 0, REMOVED, u32::MAX);
    other.tickets[2].version = u32::MAX;
    other.values[0] = 7;
    assert_eq!(other.check(), Ok(()));
}

#[test]
fn lengths() {
    broken_by(Condition::Lengths, |t| t.keys.push(0));
    broken_by(Condition::Lengths, |t| t.values.truncate(63));
    broken_by(Condition::Lengths, |t| t.rows.push(0));
    broken_by(Condition::Lengths, |t| t.buckets.push(64));
    broken_by(Condition::Lengths, |t| t.tickets.truncate(15));
}

#[test]
fn links() {
    broken_by(Condition::LevelsLinked, |t| set(t, 1, after(1) + 1, 0));
    broken_by(Condition::LevelsLinked, |t| set(t, 3, after(1), 4));
    broken_by(Condition::LevelsLinked, |t| set(t, TAIL, after(0) + 1, 4));
    broken_by(Condition::NodesOnce, |t| set(t, 5, after(0), 0));
    broken_by(Condition::NodesOnce, |t| set(t, 5, after(0), HEAD as u32));
    broken_by(Condition::NodesOnce, |t| set(t, 5, after(0), 66));
    broken_by(Condition::Heights, |t| set(t, 2, HEIGHT, 0));
    broken_by(Condition::Heights, |t| set(t, 3, HEIGHT, 7));
}

#[test]
fn places() {
    broken_by(Condition::Used, |t| set(t, 3, PLACE, 0));
    broken_by(Condition::Used, |t| set(t, 3, PLACE, 4));
    broken_by(Condition::FreeStack, |t| set(t, HEAD, FREE, 65));
    broken_by(Condition::FreeStack, |t| set(t, 10, FREE, 11));
    broken_by(Condition::FreeStack, |t| set(t, 63, PLACE, PENDING));
    broken_by(Condition::AllThere, |t| set(t, HEAD, FREE, 57));
    broken_by(Condition::Ring, |t| set(t, HEAD, RING, 64));
    broken_by(Condition::Ring, |t| set(t, TAIL, RING, 65));
    broken_by(Condition::Ring, |t| set(t, 4, SEAT, 1));
    broken_by(Condition::AllRetiredInTheRing, |t| set(t, TAIL, RING, 1));
    broken_by(Condition::AllRetiredInTheRing, |t| set(t, 3, PLACE, RETIRED));
    broken_by(Condition::PresentsCounted, |t| set(t, TAIL, FREE, 4));
}

#[test]
fn buckets() {
    broken_by(Condition::Buckets, |t| t.buckets[5] = 1);
    broken_by(Condition::Buckets, |t| t.buckets[6] = 2);
    broken_by(Condition::Buckets, |t| t.buckets[6] = 65);
    broken_by(Condition::Buckets, |t| set(t, 2, CHAIN, 0));
    broken_by(Condition::Buckets, |t| set(t, 2, CHAIN, 4));
}

#[test]
fn keys_and_versions() {
    broken_by(Condition::KeysInOrder, |t| t.keys[3] = rank(103));
    broken_by(Condition::KeysInOrder, |t| t.keys[4] = rank(199));
    broken_by(Condition::KeysInOrder, |t| t.keys[5] = rank(-400));
    broken_by(Condition::Versions, |t| set(t, 0, INSERTED, 10));
    broken_by(Condition::Versions, |t| set(t, 3, REMOVED, 10));
    broken_by(Condition::Versions, |t| t.tickets[1].version = 10);
}

#[test]
fn ranges() {
    broken_by(Condition::Lists, |t| t.coordinator.due = 2);
    broken_by(Condition::Lists, |t| t.tickets[1].held = u32::MAX);
    broken_by(Condition::RemovedBefore, |t| set(t, 4, REMOVED, 6));
    broken_by(Condition::RemovedBefore, |t| set(t, 5, REMOVED, 8));
    broken_by(Condition::TicketsRise, |t| t.tickets[0].version = 8);
    broken_by(Condition::TicketsRise, |t| t.tickets[0].version = 9);
    broken_by(Condition::OpenCount, |t| t.coordinator.ranges = 17);
    broken_by(Condition::Rest, |t| t.tickets[0].rest = HEAD as u32);
    broken_by(Condition::Rest, |t| t.tickets[0].rest = 66);
    broken_by(Condition::Rest, |t| t.tickets[0].rest = 0);
    broken_by(Condition::Rest, |t| t.tickets[0].rest = 4);
    broken_by(Condition::Rest, |t| t.tickets[0].rest = 63);
    broken_by(Condition::Rest, |t| set(t, 1, INSERTED, 6));
}

/// What `hosts verdicts` writes of the tables, with one line of a cell between.
fn written(tables: &Tables, cell: &str) -> String {
    fn line<T: ToString>(name: &str, cells: &[T]) -> String {
        let words: Vec<String> = cells.iter().map(|cell| cell.to_string()).collect();
        format!("{name} {}\n", words.join(" "))
    }
    let fields: Vec<u64> = tables
        .tickets
        .iter()
        .flat_map(|t| [t.version.into(), t.low, t.high, t.rest.into(), t.held.into()])
        .collect();
    let coordinator = tables.coordinator;
    let text = [
        line("keys", &tables.keys),
        line("values", &tables.values),
        line("rows", &tables.rows),
        line("buckets", &tables.buckets),
        line("tickets", &fields),
        line("coordinator", &[coordinator.counter, coordinator.ranges, coordinator.due]),
        "sound 1\n".to_string(),
    ]
    .concat();
    format!("{text}{cell}\n{text}end\n")
}

#[test]
fn every_cell_has_an_address_of_its_own() {
    let rows = 66;
    let mut places: Vec<usize> = (0..rows)
        .flat_map(|row| (0..32).map(move |column| second::tables::address(rows, row, column)))
        .collect();
    places.sort_unstable();
    assert!(places.into_iter().eq(0..rows * 32));
}

#[test]
fn verdicts_are_compared_one_by_one() {
    // The height of node 0, at 4 * 66, which is 1 and on one level only.
    let right = compare(&written(&tables(), "rows 264 010000000")).unwrap();
    assert_eq!((right.cells, right.sound, right.damaged), (1, 1, 8));
    assert!(right.differences.is_empty());
    let wrong = compare(&written(&tables(), "rows 264 011000001")).unwrap();
    assert_eq!(wrong.differences.len(), 2);
}

#[test]
fn other_texts_are_no_answer() {
    let whole = written(&tables(), "rows 264 010000000");
    assert!(compare("").is_err());
    assert!(compare(whole.strip_suffix("end\n").unwrap()).is_err());
    assert!(compare(&whole.replace("sound 1", "sound 0")).is_err());
    for cell in
        ["rows 2112 010000000", "rows 264 01000000", "rows 264 010000002", "rows", "tail 0 1"]
    {
        assert!(compare(&written(&tables(), cell)).is_err(), "{cell}");
    }
    let mut broken = tables();
    broken.coordinator.due = 2;
    assert!(compare(&written(&broken, "rows 264 010000000")).is_err());
}
