//! The numbers of the schedule file, at the ends of every length.

use second::number::{from_signed, number_bytes, to_signed};

#[test]
fn a_number_takes_a_byte_more_with_each_seven_bits() {
    assert_eq!(number_bytes(0), [0]);
    assert_eq!(number_bytes(300), [0xAC, 0x02]);
    for groups in 1..10 {
        let first_longer = 1_u64 << (7 * groups);
        assert_eq!(number_bytes(first_longer - 1).len(), groups);
        assert_eq!(number_bytes(first_longer).len(), groups + 1);
    }
    let mut largest = vec![0xFF; 9];
    largest.push(1);
    assert_eq!(number_bytes(u64::MAX), largest);
}

#[test]
fn signed_numbers_are_right_at_both_ends() {
    let written =
        [(0, 0), (-1, 1), (1, 2), (-2, 3), (i64::MAX, u64::MAX - 1), (i64::MIN, u64::MAX)];
    for (signed, number) in written {
        assert_eq!(from_signed(signed), number);
        assert_eq!(to_signed(number), signed);
    }
}
