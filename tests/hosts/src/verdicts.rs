//! Sound tables of capacity 64 with every cell damaged in turn, and the verdict of the soundness test on
//! each, as lines for the second program's `verdicts`, which has a check of its own. Cells are raw: nothing
//! here knows where a field of a node lies.

use std::fmt::{Display, Write};

use lopresnik::{HandedOver, Map, Node, Tables, Ticket, Version};

const CAPACITY: u32 = 64;

/// In how many ways each cell is damaged.
const WAYS: usize = 9;

/// The keys that are inserted, in this order. 5, 102, 199, 296 and 393 share a bucket, and so do 0, 97, 194
/// and 291.
const KEYS: [i64; 36] = [
    5,
    102,
    199,
    296,
    393,
    0,
    97,
    194,
    291,
    1000,
    -5,
    -102,
    -199,
    7,
    8,
    9,
    104,
    105,
    i64::MIN,
    i64::MAX,
    50,
    51,
    148,
    245,
    -1,
    -98,
    1 << 32,
    -1 << 32,
    60,
    61,
    62,
    157,
    158,
    159,
    2000,
    -2000,
];

/// The coins, one after another: heights 1 to 6, then 1 and 2.
const COINS: [u64; 8] = [0, 1, 3, 7, 15, u64::MAX, 2, 5];

/// The tables, a line for each cell with a digit for each way of damage, the tables again, and `end`.
pub fn lines() -> String {
    let tables = build();
    let mut text = tables_text(&tables);
    let mut map = Map::over(tables.clone());
    for (part, cells) in parts(&tables) {
        for cell in 0..cells {
            write!(text, "{part} {cell} ").expect("a string takes all");
            for way in 0..WAYS {
                hurt(map.tables_mut(), part, cell, way);
                text.push(if map.sound() { '1' } else { '0' });
                map.tables_mut().clone_from(&tables);
            }
            text.push('\n');
        }
    }
    text + &tables_text(map.tables()) + "end\n"
}

// ---- Sound tables to begin with.

/// Present, pending, held, due and free nodes, and three open ranges: one has been stepped, one has nothing
/// before it any more, one has not been stepped. What no call has stored is 7.
fn build() -> Tables {
    let mut tables = Tables::sized(CAPACITY).expect("a capacity of the table");
    tables.rows.fill(7);
    tables.buckets.fill(7);
    Map::set_up(&mut tables, CAPACITY, Version(3)).expect("a capacity of the table");
    let mut map = Map::over(tables);
    turn_queue(&mut map, 61);
    insert(&mut map, 0..24);
    remove(&mut map, 0..2, Some(HandedOver::Freed));
    let first = open(&mut map, 300, 4);
    insert(&mut map, 24..28);
    remove(&mut map, 2..5, Some(HandedOver::Held));
    open(&mut map, 300, 2);
    remove(&mut map, 5..8, Some(HandedOver::Held));
    remove(&mut map, 8..10, None);
    assert_eq!(map.close_range(first), Ok(3), "the nodes of its list are due");
    map.sweep().expect("the tables are sound");
    open(&mut map, i64::MAX, 64);
    remove(&mut map, 10..12, Some(HandedOver::Held));
    insert(&mut map, 28..36);
    open(&mut map, 300, 0);
    remove(&mut map, 13..14, None);
    insert(&mut map, 8..9);
    check_kinds(&map);
    map.into_tables()
}

/// So many nodes wait for a range one after another and are swept, so that the queue of nodes that wait
/// begins near the end of its places and goes over it later.
fn turn_queue(map: &mut Map, times: usize) {
    for _ in 0..times {
        insert(map, 0..1);
        let range = open(map, 300, 0);
        remove(map, 0..1, Some(HandedOver::Held));
        assert_eq!(map.close_range(range), Ok(1));
        assert!(map.sweep().expect("the tables are sound").freed);
    }
}

fn insert(map: &mut Map, numbers: std::ops::Range<usize>) {
    for number in numbers {
        let key = KEYS[number];
        map.insert_with_coin(key, key, COINS[number % COINS.len()]).expect("a node is free");
    }
}

/// The keys are removed, and their nodes handed over where something shall become of them.
fn remove(map: &mut Map, numbers: std::ops::Range<usize>, becomes: Option<HandedOver>) {
    for number in numbers {
        let node: Node = map.remove(KEYS[number]).expect("the key is present");
        if let Some(becomes) = becomes {
            assert_eq!(map.hand_over(node), Ok(becomes));
        }
    }
}

/// A range is opened, and stepped where there is room.
fn open(map: &mut Map, high: i64, room: usize) -> Version {
    let version = map.open_range(-200, high).expect("a ticket is free");
    if room > 0 {
        let (mut keys, mut values) = (vec![0; room], vec![0; room]);
        map.step_range(version, &mut keys, &mut values).expect("the range is open");
    }
    version
}

/// Nodes of every kind are there.
fn check_kinds(map: &Map) {
    let tally = map.tally().expect("the tables are sound");
    let due = map.tables().coordinator.due as usize;
    let pending = map.capacity() - tally.present - tally.held - due - tally.free;
    assert!(tally.present > 0 && tally.held > 0 && tally.free > 0 && due > 0 && pending > 0);
    assert_eq!(map.open_versions().count(), 3);
}

// ---- Damage.

/// The parts with the number of their cells. A ticket has five, the coordinator three.
fn parts(tables: &Tables) -> [(&'static str, usize); 6] {
    [
        ("rows", tables.rows.len()),
        ("keys", tables.keys.len()),
        ("values", tables.values.len()),
        ("buckets", tables.buckets.len()),
        ("tickets", 5 * tables.tickets.len()),
        ("coordinator", 3),
    ]
}

fn hurt(tables: &mut Tables, part: &str, cell: usize, way: usize) {
    let Tables { keys, values, rows, buckets, tickets, coordinator } = tables;
    match part {
        "rows" => hurt_small(&mut rows[cell], way),
        "keys" => hurt_wide(&mut keys[cell], way),
        "values" => {
            let mut rank = rank_of(values[cell]);
            hurt_wide(&mut rank, way);
            values[cell] = (rank ^ (1 << 63)) as i64;
        }
        "buckets" => hurt_small(&mut buckets[cell], way),
        "tickets" => {
            let Ticket { version, low, high, rest, held } = &mut tickets[cell / 5];
            match cell % 5 {
                0 => hurt_small(version, way),
                1 => hurt_wide(low, way),
                2 => hurt_wide(high, way),
                3 => hurt_small(rest, way),
                _ => hurt_small(held, way),
            }
        }
        _ => match cell {
            0 => hurt_small(&mut coordinator.counter, way),
            1 => hurt_small(&mut coordinator.ranges, way),
            _ => hurt_small(&mut coordinator.due, way),
        },
    }
}

fn hurt_small(cell: &mut u32, way: usize) {
    *cell = match way {
        2 => cell.wrapping_add(1),
        3 => cell.wrapping_sub(1),
        8 => cell.wrapping_add(97),
        _ => fixed(way),
    }
}

fn hurt_wide(cell: &mut u64, way: usize) {
    *cell = match way {
        2 => cell.wrapping_add(1),
        3 => cell.wrapping_sub(1),
        8 => cell.wrapping_add(97),
        _ => u64::from(fixed(way)),
    }
}

/// The ways that do not look at the cell: none, one, a sentinel, past both, the greatest.
fn fixed(way: usize) -> u32 {
    [0, 1, 0, 0, CAPACITY, CAPACITY + 1, CAPACITY + 2, u32::MAX][way]
}

// ---- Text.

/// Unsigned, in the order of the signed numbers, as keys are stored.
fn rank_of(number: i64) -> u64 {
    number as u64 ^ (1 << 63)
}

fn tables_text(tables: &Tables) -> String {
    let tickets = tables.tickets.iter().map(|ticket| {
        let Ticket { version, low, high, rest, held } = ticket;
        format!("{version} {low} {high} {rest} {held}")
    });
    let coordinator = tables.coordinator;
    let sound = Map::over(tables.clone()).sound();
    [
        line("keys", tables.keys.iter()),
        line("values", tables.values.iter().map(|&value| rank_of(value))),
        line("rows", tables.rows.iter()),
        line("buckets", tables.buckets.iter()),
        line("tickets", tickets),
        line("coordinator", [coordinator.counter, coordinator.ranges, coordinator.due]),
        line("sound", [u8::from(sound)]),
    ]
    .concat()
}

fn line<Number: Display>(name: &str, numbers: impl IntoIterator<Item = Number>) -> String {
    let words: Vec<String> = numbers.into_iter().map(|number| number.to_string()).collect();
    format!("{name} {}\n", words.join(" "))
}
