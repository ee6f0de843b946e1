//! The methods that only read allocate nothing: counted by the allocator of this program.

use std::alloc::{GlobalAlloc, Layout, System};
use std::cell::Cell;

use lopresnik::{Map, Refusal, Version};

thread_local! {
    /// How often this thread has asked for memory.
    static ASKED: Cell<usize> = const { Cell::new(0) };
}

struct Counting;

// SAFETY: everything is left to the system's allocator.
unsafe impl GlobalAlloc for Counting {
    unsafe fn alloc(&self, layout: Layout) -> *mut u8 {
        ASKED.with(|asked| asked.set(asked.get() + 1));
        System.alloc(layout)
    }

    unsafe fn dealloc(&self, memory: *mut u8, layout: Layout) {
        System.dealloc(memory, layout)
    }
}

#[global_allocator]
static ALLOCATOR: Counting = Counting;

/// How often memory is asked for meanwhile.
fn asked(make: impl FnOnce()) -> usize {
    let before = ASKED.with(Cell::get);
    make();
    ASKED.with(Cell::get) - before
}

fn filled() -> Map {
    let mut map = Map::new(64).expect("a capacity of the table");
    for key in 0..20 {
        map.insert(10 * key, key).expect("a node is free");
    }
    map
}

fn read(map: &Map) {
    let (mut keys, mut values) = ([0; 64], [0; 64]);
    assert_eq!(map.lookup(50), Ok(5));
    assert_eq!(map.lookup(51), Err(Refusal::KeyAbsent));
    assert_eq!((map.ceil(51), map.floor(51)), (Ok(60), Ok(50)));
    assert_eq!((map.succ(50), map.pred(50)), (Ok(60), Ok(40)));
    assert_eq!(map.fast_range(50, 80, &mut keys, &mut values), Ok(4));
    assert_eq!(map.tally().map(|tally| tally.present), Ok(20));
    assert!(map.sound());
    assert_eq!(map.open_versions().count(), 1);
}

fn step(map: &mut Map) {
    let (mut keys, mut values) = ([0; 8], [0; 8]);
    let version = map.open_range(0, 99).expect("a ticket is free");
    assert_eq!(map.step_range(version, &mut keys, &mut values).map(|step| step.count), Ok(8));
    assert_eq!(map.close_range(version), Ok(0));
    let node = map.remove(50).expect("the key is present");
    map.hand_over(node).expect("the node is pending");
    map.insert(50, 5).expect("a node is free");
}

#[test]
fn the_allocator_counts() {
    assert!(asked(|| drop(std::hint::black_box(vec![0u8; 100]))) > 0);
}

#[test]
fn reading_allocates_nothing() {
    let mut map = filled();
    assert_eq!(map.open_range(0, 99), Ok(Version(1)));
    assert_eq!(asked(|| read(&map)), 0);
}

#[test]
fn nor_do_the_other_calls() {
    let mut map = filled();
    assert_eq!(asked(|| step(&mut map)), 0);
}

#[test]
fn another_number_of_tickets_is_refused_by_reading() {
    for tickets in [0, 15, 17] {
        let mut map = filled();
        map.tables_mut().tickets.resize(tickets, Default::default());
        assert_eq!(map.lookup(50), Err(Refusal::NotSound));
        assert_eq!(map.tables().tickets.len(), tickets);
    }
}
