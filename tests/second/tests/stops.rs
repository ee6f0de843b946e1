//! Where reading stops and what a refused set-up prints: the rules of docs/DECISIONS.md 1 to 5 with their bytes,
//! and damage of every cause at every position.

mod support;

use second::generator::corpus;
use second::generator::damage::{damage, damage_far_out};
use second::number::MORE_FOLLOWS;
use second::program::{Line, Run};
use second::reader::Cause;
use second::transaction::header_bytes;
use support::{bytes_of, output_of};

/// Asserts what the program writes, its lines written with a slash between, for these bytes.
fn assert_writes(hexadecimal: &str, lines: &str) {
    let expected = lines.replace(" / ", "\n") + "\n";
    assert_eq!(output_of(&bytes_of(hexadecimal)), expected, "for {hexadecimal:?}");
}

#[test]
fn b1_a_capacity_not_in_the_table_is_not_out_of_range() {
    assert_writes("41 00", "set-up 2");
    assert_writes("FF FF FF FF 0F 00", "set-up 2");
    assert_writes("80 80 80 80 10 00", "stop 0");
}

#[test]
fn b2_the_header_is_read_whole_before_the_set_up() {
    assert_writes("41 80 00", "stop 1");
    assert_writes("41", "stop 1");
    assert_writes("80 04", "stop 2");
    assert_writes("80 04 80 80 80 80 10", "stop 2");
}

#[test]
fn b3_nothing_follows_a_refused_set_up() {
    assert_writes("41 00 FF", "set-up 2");
    assert_writes("41 00 0D", "set-up 2");
    assert_writes("80 04 00 0E", "set-up 1");
}

#[test]
fn b4_the_result_of_set_up_by_capacity() {
    let capacities = [
        ("00", 2),
        ("3F", 2),
        ("40", 0),
        ("41", 2),
        ("80 01", 0),
        ("80 02", 0),
        ("81 02", 2),
        ("80 04", 1),
        ("80 08", 1),
        ("80 10", 1),
        ("80 20", 1),
        ("80 40", 2),
        ("FF FF FF FF 0F", 2),
    ];
    for (capacity, result) in capacities {
        let end = if result == 0 { " / end" } else { "" };
        assert_writes(&format!("{capacity} 00"), &format!("set-up {result}{end}"));
    }
}

#[test]
fn b5_the_first_bad_number_counts() {
    assert_writes("40 00 0A 80 80 80 80 10", "set-up 0 / stop 3");
    assert_writes("40 00 0A 00 80 80 80 80 10", "set-up 0 / stop 4");
    assert_writes("80 80 80 80 10 80 00", "stop 0");
}

#[test]
fn b6_an_unknown_code_stops_at_its_own_first_byte() {
    assert_writes("40 00 0E", "set-up 0 / stop 2");
    assert_writes("40 00 0D 0E 80", "set-up 0 / 1 13 0 0 0 64 / stop 3");
    assert_writes("40 00 7F 00 00", "set-up 0 / stop 2");
}

#[test]
fn b7_the_code_is_a_number_under_the_same_rules() {
    assert_writes("40 00 8C 00", "set-up 0 / stop 2");
    assert_writes("40 00 8C 01", "set-up 0 / stop 2");
    // 2^32 + 13 and 256 + 13 are no tally.
    assert_writes("40 00 8D 80 80 80 10", "set-up 0 / stop 2");
    assert_writes("40 00 8D 02", "set-up 0 / stop 2");
}

#[test]
fn b8_only_the_place_of_a_code_gives_end() {
    assert_writes("", "stop 0");
    assert_writes("40", "stop 1");
    assert_writes("40 00", "set-up 0 / end");
    assert_writes("40 00 01", "set-up 0 / stop 3");
    assert_writes("40 00 01 02 03", "set-up 0 / stop 5");
}

#[test]
fn b9_a_number_cut_in_its_middle_has_the_offset_of_its_first_byte() {
    assert_writes("40 00 00 80 80", "set-up 0 / stop 3");
    assert_writes("C0", "stop 0");
    assert_writes("40 00 8C", "set-up 0 / stop 2");
}

#[test]
fn b10_every_cause_gives_the_same_offset() {
    let nine = "FF FF FF FF FF FF FF FF FF";
    // The largest form: 2^64 - 1 is the key -2^63.
    assert_writes(&format!("40 00 00 {nine} 01"), "set-up 0 / 1 0 4 / end");
    for last in ["00", "02", "7F", "81 00", "81 01", "FF 7F"] {
        assert_writes(&format!("40 00 00 {nine} {last}"), "set-up 0 / stop 3");
    }
    assert_writes("40 00 00 80 80 80 80 80 80 80 80 80 01", "set-up 0 / 1 0 4 / end");
    assert_writes("40 00 00 80 80 80 80 80 80 80 80 80 80 00", "set-up 0 / stop 3");
    assert_writes("40 00 00 80 00", "set-up 0 / stop 3");
}

#[test]
fn b11_useless_numbers_below_two_to_32_are_not_out_of_range() {
    assert_writes("40 00 03 40", "set-up 0 / 1 3 12 / end");
    assert_writes("40 00 03 FF FF FF FF 0F", "set-up 0 / 1 3 12 / end");
    assert_writes("40 00 0B 00 0B FF FF FF FF 0F", "set-up 0 / 1 11 11 / 2 11 11 / end");
    let room = "FF FF FF FF 0F";
    assert_writes(
        &format!("40 00 01 02 04 00 09 00 04 0A 01 {room}"),
        "set-up 0 / 1 1 0 0 / 2 9 0 1 / 3 10 0 1 1 1 2 / end",
    );
}

#[test]
fn b12_two_to_32_stops_at_versions_nodes_and_rooms() {
    assert_writes("40 00 0A 01 80 80 80 80 10", "set-up 0 / stop 4");
    assert_writes("40 00 03 80 80 80 80 10", "set-up 0 / stop 3");
    assert_writes("40 00 0B 80 80 80 80 10", "set-up 0 / stop 3");
    assert_writes("40 80 80 80 80 10", "stop 1");
}

#[test]
fn b13_a_coin_is_a_plain_number_of_64_bits() {
    let largest = "FF FF FF FF FF FF FF FF FF 01";
    assert_writes(&format!("40 00 01 00 00 {largest}"), "set-up 0 / 1 1 0 0 / end");
    assert_writes("40 00 01 00 00 80 80 80 80 80 80 80 80 80 02", "set-up 0 / stop 5");
}

#[test]
fn b14_the_start_version_may_be_the_last_one() {
    let (reversed, straight) = ("09 02 00", "09 00 02");
    assert_writes(
        &format!("40 FF FF FF FF 0F {reversed} {straight}"),
        "set-up 0 / 1 9 6 / 2 9 10 / end",
    );
}

/// Runs a file and writes the header and the transactions that were run again; with the last line.
fn written_again(file: &[u8]) -> (Vec<u8>, Line) {
    let mut run = Run::new(file);
    let mut bytes = Vec::new();
    loop {
        match run.next_line().expect("memory does not fail").expect("the last line is known") {
            Line::SetUp(Ok(())) => {
                let map = run.map().expect("the set-up was taken");
                bytes.extend(header_bytes(map.sizes().capacity, map.counter()));
            }
            Line::Transaction { transaction, .. } => bytes.extend(transaction.bytes()),
            last => return (bytes, last),
        }
    }
}

#[test]
fn damage_is_found_where_it_was_done() {
    for cause in Cause::ALL {
        for seed in 0..200 {
            let damaged = damage(cause, seed);
            let Line::Stop(stop) = written_again(&damaged.bytes).1 else {
                panic!("{cause:?} with seed {seed} does not stop");
            };
            assert_eq!(stop.offset, damaged.offset as u64, "{cause:?} with seed {seed}");
            assert_eq!((stop.position, stop.cause), (damaged.position, cause));
        }
    }
}

#[test]
fn damage_behind_many_buffers_is_found_where_it_was_done() {
    for seed in 0..7 {
        let damaged = damage_far_out(seed);
        assert!(damaged.offset > 150_000);
        let Line::Stop(stop) = written_again(&damaged.bytes).1 else {
            panic!("seed {seed} does not stop");
        };
        assert_eq!(stop.offset, damaged.offset as u64);
        assert_eq!(stop.position, damaged.position);
    }
}

/// Cut anywhere, a file is run up to the last whole transaction, and the offset is that of the
/// number that was cut: from there to the cut, all bytes say that more follow.
#[test]
fn a_cut_is_found_at_every_place() {
    for (kind, seed) in corpus(100, 5).filter(|(kind, _)| kind.valid) {
        let mut file = (kind.file)(seed);
        file.truncate(400);
        for place in 0..file.len() {
            let (run, last) = written_again(&file[..place]);
            match last {
                Line::End => assert_eq!(run, file[..place]),
                Line::Stop(stop) => {
                    let offset = stop.offset as usize;
                    assert!(offset <= place);
                    assert!(file[..offset].starts_with(&run), "more was run than read");
                    assert!(file[offset..place].iter().all(|byte| byte & MORE_FOLLOWS != 0));
                }
                Line::SetUp(Err(_)) => assert_eq!(kind.name, "refused-set-up"),
                other => panic!("{other:?} is no last line"),
            }
        }
    }
}
