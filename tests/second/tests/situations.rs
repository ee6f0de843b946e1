//! The situations of document 01, P1 to P10 and the two that are run, through schedule files.

mod support;

use second::map::{Map, NodeNumber, Version};
use second::program::Run;
use second::transaction::Transaction::{self, *};
use support::{results, schedule_file};

fn insert(key: i64, value: i64) -> Transaction {
    Insert { key, value, coin: 0 }
}

fn hand_over(node: u32) -> Transaction {
    HandOver { node: NodeNumber(node) }
}

fn open(low: i64, high: i64) -> Transaction {
    Open { low, high }
}

fn step(version: u32, room: u32) -> Transaction {
    Step { version: Version(version), room }
}

fn close(version: u32) -> Transaction {
    Close { version: Version(version) }
}

/// The results behind the insertion of 10, 20, 30 with 1, 2, 3 as nodes 0, 1, 2.
fn results_after_three(start: u32, transactions: &[Transaction]) -> Vec<String> {
    let mut all = vec![insert(10, 1), insert(20, 2), insert(30, 3)];
    all.extend(transactions);
    let mut results = results(64, start, &all);
    let rest = results.split_off(3);
    assert_eq!(results, ["0 0", "0 1", "0 2"]);
    rest
}

#[test]
fn p1_neighbours_pass_over_a_removed_node() {
    let transactions = [open(10, 30), Remove { key: 20 }, Succ { key: 10 }, Pred { key: 30 }];
    assert_eq!(results_after_three(0, &transactions), ["0 1", "0 1", "0 30", "0 10"]);
}

#[test]
fn p2_a_range_gives_the_pairs_of_its_opening() {
    let transactions = [
        open(10, 30),
        Remove { key: 20 },
        hand_over(1),
        insert(20, 9),
        insert(25, 5),
        step(1, 8),
        FastRange { low: 10, high: 30 },
    ];
    let expected =
        ["0 1", "0 1", "0 0", "0 3", "0 4", "0 3 1 10 1 20 2 30 3", "0 4 10 1 20 9 25 5 30 3"];
    assert_eq!(results_after_three(0, &transactions), expected);
}

#[test]
fn p3_a_node_removed_before_the_opening_is_held_but_not_given() {
    let transactions = [Remove { key: 20 }, open(10, 30), hand_over(1), step(1, 8), close(1)];
    let expected = ["0 1", "0 1", "0 0", "0 2 1 10 1 30 3", "0 1"];
    assert_eq!(results_after_three(0, &transactions), expected);
}

#[test]
fn p4_closing_the_younger_range_first() {
    let transactions =
        [open(10, 30), open(10, 30), Remove { key: 20 }, hand_over(1), close(2), close(1)];
    let expected = ["0 1", "0 2", "0 1", "0 0", "0 0", "0 1"];
    assert_eq!(results_after_three(0, &transactions), expected);
}

#[test]
fn p5_closing_the_older_range_first() {
    let transactions =
        [open(10, 30), open(10, 30), Remove { key: 20 }, hand_over(1), close(1), close(2)];
    let expected = ["0 1", "0 2", "0 1", "0 0", "0 0", "0 1"];
    assert_eq!(results_after_three(0, &transactions), expected);
}

#[test]
fn p6_a_node_younger_than_the_range_is_freed_at_once() {
    let transactions = [open(10, 30), insert(25, 5), Remove { key: 25 }, hand_over(3)];
    assert_eq!(results_after_three(0, &transactions), ["0 1", "0 3", "0 3", "0 1"]);
}

#[test]
fn p7_the_keys_at_both_ends() {
    let (least, greatest) = (i64::MIN, i64::MAX);
    let transactions = [
        insert(least, 1),
        insert(greatest, 2),
        FastRange { low: least, high: greatest },
        open(least, greatest),
        step(1, 64),
        Succ { key: greatest },
    ];
    let both = "-9223372036854775808 1 9223372036854775807 2";
    let (fast, stepped) = (format!("0 2 {both}"), format!("0 2 1 {both}"));
    let expected = ["0 0", "0 1", fast.as_str(), "0 1", stepped.as_str(), "13"];
    assert_eq!(results(64, 0, &transactions), expected);
}

#[test]
fn p8_the_last_version_is_given_once() {
    let transactions = [open(10, 30), open(10, 30)];
    assert_eq!(results_after_three(4_294_967_294, &transactions), ["0 4294967295", "10"]);
}

#[test]
fn p9_sixteen_ranges_and_no_more() {
    let mut transactions = vec![open(10, 30); 17];
    transactions.extend([close(5), open(10, 30)]);
    let mut expected: Vec<String> = (1..=16).map(|version| format!("0 {version}")).collect();
    expected.extend(["9", "0 0", "0 17"].map(String::from));
    assert_eq!(results_after_three(0, &transactions), expected);
}

/// Heights are in no answer, so the map behind the run is looked at.
#[test]
fn p10_heights_from_coins() {
    let coins = [(0, 1), (u64::MAX, 6), (0b0111, 4), (0b1011, 3), (1 << 63, 1)];
    let inserts = (1..).zip(coins).map(|(key, (coin, _))| Insert { key, value: 0, coin });
    let file = schedule_file(64, 0, &inserts.collect::<Vec<_>>());
    let mut run = Run::new(file.as_slice());
    while run.next_line().expect("memory does not fail").is_some() {}
    let map: &Map = run.map().expect("the set-up was taken");
    for (node, (_, height)) in (0..).zip(coins) {
        assert_eq!(map.height(NodeNumber(node)), height);
    }
}

#[test]
fn run_a_full_table_waits_for_close_and_sweep() {
    let mut transactions: Vec<Transaction> = (0..64).map(|key| insert(key, key)).collect();
    transactions.extend([
        open(i64::MIN, i64::MAX),
        Remove { key: 40 },
        hand_over(40),
        insert(1000, 0),
        close(1),
        insert(1000, 0),
        Sweep,
        insert(1000, 0),
        Tally,
    ]);
    let expected = ["0 1", "0 40", "0 0", "5", "0 1", "5", "0 1 0", "0 40", "0 64 0 0"];
    assert_eq!(results(64, 0, &transactions)[64..], expected);
}

#[test]
fn run_the_limits_at_capacity_128() {
    let mut transactions: Vec<Transaction> = (1..=64).map(|key| insert(key, -key)).collect();
    transactions.extend([
        FastRange { low: 1, high: 64 },
        insert(65, -65),
        FastRange { low: 1, high: 65 },
        FastRange { low: 65, high: 65 },
        open(7, 7),
        step(1, 0),
        step(1, 1),
        step(1, 0),
        Remove { key: 7 },
        hand_over(6),
        hand_over(6),
        close(1),
        Remove { key: 8 },
        hand_over(7),
        hand_over(7),
    ]);
    let pairs: Vec<String> = (1..=64).map(|key| format!("{key} {}", -key)).collect();
    let sixty_four = format!("0 64 {}", pairs.join(" "));
    let expected = [
        sixty_four.as_str(),
        "0 64",
        "7",
        "0 1 65 -65",
        "0 1",
        "8",
        "0 1 1 7 -7",
        "8",
        "0 6",
        "0 0",
        "12",
        "0 1",
        "0 7",
        "0 1",
        "12",
    ];
    assert_eq!(results(128, 0, &transactions)[64..], expected);
}

#[test]
fn a_room_above_64_counts_as_64() {
    let mut transactions: Vec<Transaction> = (1..=70).map(|key| insert(key, 0)).collect();
    let rooms = [63, 64, 65, 256, 257, 65_536, u32::MAX];
    for (version, room) in (1..).zip(rooms) {
        transactions.extend([open(1, 70), step(version, room)]);
    }
    let results = results(128, 0, &transactions);
    for (stepped, room) in results[71..].iter().step_by(2).zip(rooms) {
        let count = room.min(64);
        assert!(stepped.starts_with(&format!("0 {count} 0 1 0 2 0 ")), "{stepped}");
        assert!(stepped.ends_with(&format!(" {count} 0")), "{stepped}");
    }
}
