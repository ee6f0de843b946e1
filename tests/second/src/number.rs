//! The numbers of the schedule file: groups of seven bits, the lowest group first.

/// The bits of a byte that carry its group.
pub const GROUP: u8 = 0x7F;

/// Set on every byte of a number but the last.
pub const MORE_FOLLOWS: u8 = 0x80;

/// A number takes at most so many bytes.
pub const MOST_BYTES: usize = 10;

/// The shortest form of a number.
pub fn number_bytes(mut number: u64) -> Vec<u8> {
    let mut bytes = Vec::new();
    while number > u64::from(GROUP) {
        bytes.push((number & u64::from(GROUP)) as u8 | MORE_FOLLOWS);
        number >>= 7;
    }
    bytes.push(number as u8);
    bytes
}

/// n ≥ 0 is written as 2 × n, n < 0 as −2 × n − 1.
pub fn from_signed(signed: i64) -> u64 {
    let wide = i128::from(signed);
    let number = if wide >= 0 { 2 * wide } else { -2 * wide - 1 };
    number as u64
}

/// The signed number that is written as this one.
pub fn to_signed(number: u64) -> i64 {
    let wide = i128::from(number);
    let signed = if wide % 2 == 0 { wide / 2 } else { -(wide + 1) / 2 };
    signed as i64
}
