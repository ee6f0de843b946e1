//! Damaged files: a number cut off, in a wrong form or past its limit at a chosen position, cuts
//! at every place, changed bytes, random bytes.

use crate::generator::author::Author;
use crate::generator::styles::{begin, draw_file, go_on, ALMOST_EMPTY, BUFFERS, MIXED};
use crate::map::{NodeNumber, Version};
use crate::number::{number_bytes, GROUP, MORE_FOLLOWS, MOST_BYTES};
use crate::random::Random;
use crate::reader::{Cause, Position};
use crate::transaction::{header_bytes, Transaction};

/// A file with one damaged number, and the offset of that number's first byte.
pub struct Damaged {
    pub bytes: Vec<u8>,
    pub offset: usize,
    pub position: Position,
}

/// Damages one number of a small file by this cause. The position follows the seed, so that as
/// many seeds in a row as there are positions reach every one of them.
pub fn damage(cause: Cause, seed: u64) -> Damaged {
    let mut author = begin(&ALMOST_EMPTY, Random::new(seed));
    let transactions = author.random.below(12);
    go_on(&mut author, &ALMOST_EMPTY, transactions);
    let mut positions = Position::all();
    positions.retain(|&position| cause.can_stop(position));
    damage_at(positions[seed as usize % positions.len()], cause, author)
}

/// Damages a number behind more bytes than any buffer holds, by any cause.
pub fn damage_far_out(seed: u64) -> Damaged {
    let mut author = begin(&BUFFERS, Random::new(seed));
    go_on(&mut author, &BUFFERS, BUFFERS.transactions.0);
    let cause = Cause::ALL[seed as usize % Cause::ALL.len()];
    let mut positions = Position::all();
    positions.retain(|&position| cause.can_stop(position) && !position.is_in_header());
    let position = author.random.choose(&positions);
    damage_at(position, cause, author)
}

/// Puts a damaged number, at this position, behind what is written; often with more behind it.
fn damage_at(position: Position, cause: Cause, mut author: Author) -> Damaged {
    let (mut bytes, number) = sound_part(position, &mut author);
    let offset = bytes.len();
    bytes.extend(broken_number(cause, number, &mut author.random));
    let is_cut = matches!(cause, Cause::CutBeforeFirstByte | Cause::CutInTheMiddle);
    if !is_cut && author.random.chance(50) {
        bytes.extend(Transaction::Tally.bytes().repeat(3));
    }
    Damaged { bytes, offset, position }
}

/// The bytes before the number at this position, and the number itself.
fn sound_part(position: Position, author: &mut Author) -> (Vec<u8>, u64) {
    match position {
        Position::Capacity => (Vec::new(), 64),
        Position::StartVersion => (number_bytes(64), author.random.below(1000)),
        Position::Code => (author.bytes.clone(), author.random.below(14)),
        Position::Operand { code, index } => {
            let numbers = author.draw(code, true).numbers();
            // The code stands before the operands.
            let before = numbers[..=index].iter().copied().flat_map(number_bytes);
            (author.bytes.iter().copied().chain(before).collect(), numbers[index + 1])
        }
    }
}

/// The bytes of a number broken by this cause, with the given number in them where it can be.
fn broken_number(cause: Cause, number: u64, random: &mut Random) -> Vec<u8> {
    match cause {
        Cause::CutBeforeFirstByte => Vec::new(),
        Cause::CutInTheMiddle => {
            let mut bytes = number_bytes(number | 1 << random.between(7, 63));
            bytes.truncate(random.between(1, bytes.len() as u64 - 1) as usize);
            bytes
        }
        Cause::NotShortest => {
            let mut bytes = number_bytes(number);
            bytes.truncate(MOST_BYTES - 1);
            let length = random.between(bytes.len() as u64 + 1, MOST_BYTES as u64);
            *bytes.last_mut().expect("a number has a byte") |= MORE_FOLLOWS;
            bytes.resize(length as usize - 1, MORE_FOLLOWS);
            bytes.push(0);
            bytes
        }
        Cause::MoreThanTenBytes => {
            let mut bytes = full_groups(MOST_BYTES, random);
            bytes.extend(random.choose(&[None, Some(0), Some(1), Some(GROUP)]));
            bytes
        }
        Cause::PastSixtyFourBits => {
            let mut bytes = full_groups(MOST_BYTES - 1, random);
            let any = random.between(2, u64::from(GROUP)) as u8;
            bytes.push(random.choose(&[2, 3, any, GROUP]));
            bytes
        }
        Cause::PastThirtyTwoBits => {
            let past = random.between(1 << 32, u64::MAX);
            number_bytes(random.choose(&[1 << 32, (1 << 32) + number, past, u64::MAX]))
        }
        Cause::UnknownCode => {
            let any = random.bits_of_any_length().max(14);
            let around = [14, 15, 127, 128, 140, 255, 256 + number, (1 << 32) + number, u64::MAX];
            number_bytes(if random.chance(80) { random.choose(&around) } else { any })
        }
    }
}

/// So many bytes that all say that more follow.
fn full_groups(count: usize, random: &mut Random) -> Vec<u8> {
    match random.below(3) {
        0 => vec![MORE_FOLLOWS; count],
        1 => vec![0xFF; count],
        _ => (0..count).map(|_| random.bits() as u8 | MORE_FOLLOWS).collect(),
    }
}

/// One file with every code and numbers of several bytes, cut at the place the seed says: as
/// many seeds in a row as it has bytes cut it at every place.
pub fn cut_in_order(seed: u64) -> Vec<u8> {
    let mut bytes = header_bytes(64, Version(300));
    let (key, low, high) = (-500, -1000, 1000);
    let transactions = [
        Transaction::Insert { key, value: i64::MIN, coin: 1 << 20 },
        Transaction::Lookup { key },
        Transaction::Ceil { key: low },
        Transaction::Floor { key: high },
        Transaction::Open { low, high },
        Transaction::Remove { key },
        Transaction::HandOver { node: NodeNumber(0) },
        Transaction::Step { version: Version(301), room: 200 },
        Transaction::FastRange { low, high },
        Transaction::Close { version: Version(301) },
        Transaction::Sweep,
        Transaction::Tally,
        Transaction::Succ { key },
        Transaction::Pred { key },
    ];
    bytes.extend(transactions.iter().flat_map(Transaction::bytes));
    bytes.truncate(seed as usize % (bytes.len() + 1));
    bytes
}

/// A drawn file cut at a random place.
pub fn cut_anywhere(seed: u64) -> Vec<u8> {
    let mut bytes = draw_file(&MIXED, seed);
    let place = Random::new(!seed).below(bytes.len() as u64 + 1);
    bytes.truncate(place as usize);
    bytes
}

/// A drawn file with one byte changed, early or anywhere.
pub fn byte_changed(seed: u64) -> Vec<u8> {
    let mut bytes = draw_file(&MIXED, seed);
    let mut random = Random::new(!seed);
    let reach = random.choose(&[10, bytes.len()]).min(bytes.len());
    let place = random.below(reach as u64) as usize;
    bytes[place] ^= random.between(1, 255) as u8;
    bytes
}

/// Random bytes, mostly behind a good header and mostly small, so that some transactions run.
pub fn random_bytes(seed: u64) -> Vec<u8> {
    let mut random = Random::new(seed);
    let mut bytes = if random.chance(80) { header_bytes(64, Version(0)) } else { Vec::new() };
    let limit = random.choose(&[14, 16, 130, 256]);
    for _ in 0..random.below(300) {
        bytes.push(random.below(limit) as u8);
    }
    bytes
}
