//! What the wrapper adds to the archive: sizes, refusals, the bytes of a list.

use lopresnik::{End, List, Map, Node, Refusal, Tables, Version, SIZES};

#[test]
fn refusals_have_the_numbers_of_the_document() {
    for (index, refusal) in Refusal::ALL.into_iter().enumerate() {
        assert_eq!(refusal.number() as usize, index + 1);
        assert_eq!(Refusal::of_number(refusal.number()), Some(refusal));
        assert!(refusal.to_string().ends_with(&format!("(refusal {})", index + 1)));
    }
    assert_eq!(Refusal::of_number(0), None);
    for unknown in [14, 99, u32::MAX] {
        let refusal = Refusal::of_number(unknown).expect("a refusal, if an unknown one");
        assert_eq!((refusal, refusal.number()), (Refusal::Unknown(unknown), unknown));
    }
}

#[test]
fn every_capacity_of_the_table_is_set_up_and_no_other() {
    for capacity in 0..5000 {
        let in_table = SIZES.iter().any(|size| size.0 == capacity);
        match Map::new(capacity) {
            Ok(map) => assert!(in_table && map.sound() && map.capacity() == capacity as usize),
            Err(refusal) => assert!(!in_table && refusal == Refusal::NoSuchCapacity),
        }
        assert_eq!(Tables::sized(capacity).is_some(), in_table);
    }
}

/// The 32 bytes of document 01 without their header.
#[test]
fn the_list_of_the_document_has_its_bytes() {
    let mut list = List::new();
    list.insert(10, 1, 0).insert(20, 2, 0).open_range(10, 20).remove(20).hand_over(Node(1));
    list.insert(20, -7, 0).step_range(Version(1), 8).fast_range(10, 20);
    list.close_range(Version(1)).sweep().lookup(21);
    let bytes = [
        0x01, 0x14, 0x02, 0x00, 0x01, 0x28, 0x04, 0x00, 0x09, 0x14, 0x28, 0x02, 0x28, 0x03, 0x01,
        0x01, 0x28, 0x0D, 0x00, 0x0A, 0x01, 0x08, 0x08, 0x14, 0x28, 0x0B, 0x01, 0x0C, 0x00, 0x2A,
    ];
    assert_eq!(list.bytes(), bytes);
    assert_eq!(list.calls(), 11);

    let mut map = Map::new(64).expect("a capacity of the table");
    let answers = map.run_list(&list).expect("the tables are sound");
    let numbers: Vec<_> = answers.iter().map(|answer| answer.numbers).collect();
    let expected = [
        Ok([0, 0, 0]),
        Ok([1, 0, 0]),
        Ok([1, 0, 0]),
        Ok([1, 0, 0]),
        Ok([0, 0, 0]),
        Ok([2, 0, 0]),
        Ok([2, 1, 0]),
        Ok([2, 0, 0]),
        Ok([1, 0, 0]),
        Ok([1, 0, 0]),
        Err(Refusal::KeyAbsent),
    ];
    assert_eq!(numbers, expected);
    let pairs: Vec<_> = answers.iter().filter(|answer| !answer.keys.is_empty()).collect();
    assert_eq!((pairs[0].keys, pairs[0].values), (&[10, 20][..], &[1, 2][..]));
    assert_eq!((pairs[1].keys, pairs[1].values), (&[10, 20][..], &[1, -7][..]));
}

#[test]
fn numbers_are_written_at_both_ends() {
    for (key, bytes) in [
        (0, &[0x00][..]),
        (-1, &[0x01]),
        (63, &[0x7E]),
        (64, &[0x80, 0x01]),
        (i64::MAX, &[0xFE, 0xFF, 0xFF, 0xFF, 0xFF, 0xFF, 0xFF, 0xFF, 0xFF, 0x01]),
        (i64::MIN, &[0xFF, 0xFF, 0xFF, 0xFF, 0xFF, 0xFF, 0xFF, 0xFF, 0xFF, 0x01]),
    ] {
        let mut list = List::new();
        list.ceil(key);
        assert_eq!(list.bytes()[1..], *bytes, "{key}");
    }
}

#[test]
fn extreme_keys_are_keys() {
    let mut map = Map::new(64).expect("a capacity of the table");
    map.insert(i64::MIN, i64::MAX).expect("a node is free");
    map.insert(i64::MAX, i64::MIN).expect("a node is free");
    assert_eq!(map.succ(i64::MIN), Ok(i64::MAX));
    assert_eq!(map.succ(i64::MAX), Err(Refusal::NoPresentKey));
    let pairs: Vec<_> = map.range(i64::MIN, i64::MAX).expect("a ticket is free").collect();
    assert_eq!(pairs, [(i64::MIN, i64::MAX), (i64::MAX, i64::MIN)]);
}

extern "C" {
    /// The archive's own writer, which is proved.
    fn lopresnik_write_call(
        buffer: *mut u8,
        buffer_length: usize,
        code: u32,
        first: i64,
        second: i64,
        third: u64,
    ) -> usize;
}

fn written_by_the_archive(code: u32, first: i64, second: i64, third: u64) -> Vec<u8> {
    let mut buffer = [0; 31];
    // SAFETY: the buffer has this length; the function is proved for any numbers.
    let length = unsafe {
        lopresnik_write_call(buffer.as_mut_ptr(), buffer.len(), code, first, second, third)
    };
    buffer[..length].to_vec()
}

#[test]
fn calls_are_written_as_the_archive_writes_them() {
    let mut numbers = vec![i64::MIN, i64::MAX];
    for bits in 0..63 {
        numbers.extend([-1, 0, 1].map(|by| (1i64 << bits) + by));
        numbers.extend([-1, 0, 1].map(|by| -(1i64 << bits) + by));
    }
    for &first in &numbers {
        for &second in &numbers {
            let (coin, small, room) = (second as u64, first as u32, second as u32);
            let mut list = List::new();
            list.lookup(first).insert(first, second, coin).remove(first).hand_over(Node(small));
            list.ceil(first).floor(first).succ(first).pred(first);
            list.fast_range(first, second).open_range(first, second);
            list.step_range(Version(small), room).close_range(Version(small)).sweep().tally();
            let mut bytes = Vec::new();
            for code in 0..14 {
                let (first, second) = match code {
                    3 | 10 | 11 => (i64::from(small), i64::from(room)),
                    _ => (first, second),
                };
                bytes.extend(written_by_the_archive(code, first, second, coin));
            }
            assert_eq!(list.bytes(), bytes, "{first} {second}");
        }
    }
}

#[test]
fn room_that_can_never_suffice_is_full_with_nothing_used() {
    let mut map = Map::new(64).expect("a capacity of the table");
    let mut list = List::new();
    list.tally();
    for (cells, places) in [(4, 64), (5, 63), (0, 0)] {
        let (mut answers, mut keys) = (vec![0; cells], vec![0; places]);
        let ran = map.run(list.bytes(), false, &mut answers, &mut keys, &mut [0; 64]);
        assert_eq!((ran.end, ran.used, ran.calls), (End::Full, 0, 0));
    }
    let ran = map.run(list.bytes(), false, &mut [0; 5], &mut [0; 64], &mut [0; 64]);
    assert_eq!((ran.end, ran.calls), (End::Ended, 1));
}
