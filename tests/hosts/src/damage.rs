//! Damaged tables: where the independent check of the second program finds them not sound, every call
//! refuses with 1 and changes nothing; else every call is right, by a model read from the cells.

use lopresnik::{End, Map, Node, Refusal, Tables, Ticket, Version, SIZES, TICKETS};
use second::tables as judge;

use crate::calls::{Answer, Call};
use crate::lists::random_list;
use crate::model::Model;
use crate::random::{random_call, universe, Mix, Random};

pub fn run(rounds: usize) -> String {
    let mut random = Random(15);
    let (mut refused, mut right) = (0, 0);
    for round in 0..rounds {
        let capacity = if round % 50 == 49 { SIZES[1].0 } else { SIZES[0].0 };
        let (keys, mut tables) = random_tables(&mut random, capacity);
        assert!(judged(&tables).is_sound(), "tables that calls made");
        damage(&mut random, &mut tables);
        if judged(&tables).is_sound() {
            makes_right_calls(&mut random, &keys, tables);
            right += 1;
        } else {
            refuses_every_call(&mut random, tables);
            refused += 1;
        }
    }
    assert!(rounds < 100 || (refused > rounds / 4 && right > rounds / 50), "{refused} {right}");
    format!("{rounds} rounds, {refused} tables refused, {right} still sound")
}

/// Tables that random calls have made, with open ranges, pending, held and due nodes.
fn random_tables(random: &mut Random, capacity: u32) -> (Vec<i64>, Tables) {
    let keys = universe(random, 2 * capacity as usize);
    let mut map = Map::new(capacity).expect("a capacity of the table");
    let mut model = Model::new(capacity, 0);
    let mix = Mix { opens: 60, inserts: 60 };
    let length = 1 + random.below(4 * capacity as usize);
    let (list, _) = random_list(random, &keys, &mut model, mix, length);
    map.run_list(&list).expect("the tables are sound");
    (keys, map.into_tables())
}

/// The tables as the second program's check takes them; it looks at no value.
fn judged(tables: &Tables) -> judge::Tables {
    let ticket = |ticket: &Ticket| judge::Ticket {
        version: ticket.version,
        low: ticket.low,
        high: ticket.high,
        rest: ticket.rest,
        held: ticket.held,
    };
    judge::Tables {
        keys: tables.keys.clone(),
        values: vec![0; tables.values.len()],
        rows: tables.rows.clone(),
        buckets: tables.buckets.clone(),
        tickets: tables.tickets.iter().map(ticket).collect(),
        coordinator: judge::Coordinator {
            counter: tables.coordinator.counter,
            ranges: tables.coordinator.ranges,
            due: tables.coordinator.due,
        },
    }
}

/// A few cells overwritten, and rarely a part of another length.
fn damage(random: &mut Random, tables: &mut Tables) {
    if random.below(8) == 0 {
        resize(random, tables);
    }
    for _ in 0..1 + random.below(3) {
        damage_cell(random, tables);
    }
}

fn resize(random: &mut Random, tables: &mut Tables) {
    let by = |random: &mut Random, length: usize| match random.below(4) {
        0 => 0,
        1 => length - 1,
        2 => length + 1,
        _ => random.below(2 * length),
    };
    match random.below(6) {
        0 => tables.keys.resize(by(random, tables.keys.len()), 0),
        1 => tables.values.resize(by(random, tables.values.len()), 0),
        2 => tables.rows.resize(by(random, tables.rows.len()), 0),
        3 => tables.buckets.resize(by(random, tables.buckets.len()), 0),
        4 => tables.tickets.resize(by(random, TICKETS), Ticket::default()),
        // The lengths of another capacity, the contents being of the old one.
        _ => {
            let (capacity, buckets) = SIZES[random.below(3)];
            tables.keys.resize(capacity as usize, 0);
            tables.values.resize(capacity as usize, 0);
            tables.rows.resize((capacity as usize + 2) * lopresnik::ROW, 0);
            tables.buckets.resize(buckets, 0);
        }
    }
}

/// A number that may well pass for another: small, a sentinel, greatest, one off, or any.
fn likely(random: &mut Random, old: u32, capacity: usize) -> u32 {
    match random.below(8) {
        0 => random.below(5) as u32,
        1 => capacity as u32 + random.below(3) as u32,
        2 => u32::MAX,
        3 => old.wrapping_add(1),
        4 => old.wrapping_sub(1),
        5 => random.next() as u32,
        _ => random.below(capacity.max(1)) as u32,
    }
}

fn damage_cell(random: &mut Random, tables: &mut Tables) {
    let capacity = tables.keys.len();
    let part = random.below(20);
    let Tables { keys, values, rows, buckets, tickets, coordinator } = tables;
    let number = |random: &mut Random, cell: &mut u32| *cell = likely(random, *cell, capacity);
    let wide = |random: &mut Random, cell: &mut u64| {
        *cell = match random.below(3) {
            0 => random.next(),
            1 => cell.wrapping_add(1),
            _ => cell.wrapping_sub(1),
        }
    };
    match part {
        0 | 1 if !keys.is_empty() => wide(random, &mut keys[random.clone().below(capacity)]),
        2 if !values.is_empty() => {
            let place = random.below(values.len());
            values[place] = random.next() as i64;
        }
        3 | 4 if !buckets.is_empty() => {
            let place = random.below(buckets.len());
            number(random, &mut buckets[place]);
        }
        5..=7 if !tickets.is_empty() => {
            let place = random.below(tickets.len());
            let ticket = &mut tickets[place];
            match random.below(5) {
                0 => number(random, &mut ticket.version),
                1 => wide(random, &mut ticket.low),
                2 => wide(random, &mut ticket.high),
                3 => number(random, &mut ticket.rest),
                _ => number(random, &mut ticket.held),
            }
        }
        8 => match random.below(3) {
            0 => number(random, &mut coordinator.counter),
            1 => number(random, &mut coordinator.ranges),
            _ => number(random, &mut coordinator.due),
        },
        _ if !rows.is_empty() => {
            // Half of the time a field or a link of the lowest levels, else any cell.
            let row = random.below(rows.len() / lopresnik::ROW + 1);
            let column = random.below([12, lopresnik::ROW][random.clone().below(2)]);
            let place =
                judge::address(rows.len() / lopresnik::ROW, row, column).min(rows.len() - 1);
            number(random, &mut rows[place]);
        }
        _ => {}
    }
}

/// One call of each kind.
fn each_call(random: &mut Random) -> [Call; 14] {
    let (key, node) = (random.below(100) as i64, Node(random.below(64) as u32));
    let version = Version(random.below(5) as u32);
    [
        Call::Lookup(key),
        Call::Insert(key, 1, random.next()),
        Call::Remove(key),
        Call::HandOver(node),
        Call::Ceil(key),
        Call::Floor(key),
        Call::Succ(key),
        Call::Pred(key),
        Call::FastRange(key, key + 30),
        Call::OpenRange(i64::MIN, i64::MAX),
        Call::StepRange(version, 10),
        Call::CloseRange(version),
        Call::Sweep,
        Call::Tally,
    ]
}

fn refuses_every_call(random: &mut Random, tables: Tables) {
    let mut map = Map::over(tables.clone());
    assert!(!map.sound(), "the second program says that these are not sound");
    for call in each_call(random) {
        assert_eq!(call.make(&mut map, 64, 64), Answer::refused(Refusal::NotSound), "{call:?}");
        assert_eq!(*map.tables(), tables, "{call:?} changed tables that it refused");
    }
    let (mut answers, mut keys, mut values) = ([77; 50], [77; 640], [77; 640]);
    let ran = map.run(&[13, 12, 0, 0], false, &mut answers, &mut keys, &mut values);
    assert_eq!(ran.end, End::Refused(Refusal::NotSound));
    assert_eq!((ran.used, ran.calls, ran.pairs), (0, 0, 0));
    assert!(answers.iter().chain(&keys).chain(&values).all(|&cell| cell == 77));
    assert_eq!(*map.tables(), tables, "a list changed tables that it refused");
    sets_up(tables);
}

/// Set-up takes any contents, and only the lengths of its capacity.
fn sets_up(mut tables: Tables) {
    for capacity in [0, 64, 100, 128, 4096, u32::MAX] {
        let right = Tables::sized(capacity).is_some_and(|right| {
            let lengths = |tables: &Tables| {
                let Tables { keys, values, rows, buckets, tickets, .. } = tables;
                (keys.len(), values.len(), rows.len(), buckets.len(), tickets.len())
            };
            lengths(&right) == lengths(&tables)
        });
        let expected = match (Tables::sized(capacity).is_some(), right) {
            (false, _) => Err(Refusal::NoSuchCapacity),
            (true, false) => Err(Refusal::NotSound),
            (true, true) => Ok(()),
        };
        let before = tables.clone();
        assert_eq!(Map::set_up(&mut tables, capacity, Version(9)), expected);
        if expected.is_ok() {
            let map = Map::over(tables);
            let tally = map.tally().expect("set up, so sound");
            assert_eq!((tally.present, tally.held, tally.free), (0, 0, capacity as usize));
            assert_eq!(map.tables().coordinator.counter, 9);
            return;
        }
        assert_eq!(tables, before, "a refused set-up changed something");
    }
}

fn makes_right_calls(random: &mut Random, keys: &[i64], tables: Tables) {
    let mut model = Model::of_tables(&tables);
    let mut map = Map::over(tables);
    assert!(map.sound(), "the second program says that these are sound");
    for _ in 0..40 {
        let call = random_call(random, keys, &model, Mix { opens: 30, inserts: 50 });
        let expected = model.make(call, 64, 64);
        assert_eq!(call.make(&mut map, 64, 64), expected, "{call:?}");
    }
    assert!(judged(map.tables()).is_sound(), "sound after calls on sound tables");
}
