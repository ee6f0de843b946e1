//! The transactions of the schedule file: their codes, operands and plain numbers.

use crate::map::{NodeNumber, Version};
use crate::number::{from_signed, number_bytes, to_signed};

/// What an operand stands for.
#[derive(Clone, Copy, Debug, PartialEq, Eq)]
pub enum Operand {
    Key,
    Value,
    Coin,
    Low,
    High,
    Node,
    Version,
    Room,
}

impl Operand {
    /// Versions, nodes and rooms must be below 2^32; the others may take all 64 bits.
    pub fn is_below_two_to_32(self) -> bool {
        matches!(self, Operand::Node | Operand::Version | Operand::Room)
    }
}

/// How one kind of transaction is written behind its code.
pub struct Shape {
    pub name: &'static str,
    pub operands: &'static [Operand],
}

const fn shape(name: &'static str, operands: &'static [Operand]) -> Shape {
    Shape { name, operands }
}

/// No transaction has more operands than insert.
pub const MOST_OPERANDS: usize = 3;

/// The place in this table is the code.
pub const SHAPES: [Shape; 14] = [
    shape("lookup", &[Operand::Key]),
    shape("insert", &[Operand::Key, Operand::Value, Operand::Coin]),
    shape("remove", &[Operand::Key]),
    shape("hand over", &[Operand::Node]),
    shape("ceil", &[Operand::Key]),
    shape("floor", &[Operand::Key]),
    shape("succ", &[Operand::Key]),
    shape("pred", &[Operand::Key]),
    shape("fast range", &[Operand::Low, Operand::High]),
    shape("open", &[Operand::Low, Operand::High]),
    shape("step", &[Operand::Version, Operand::Room]),
    shape("close", &[Operand::Version]),
    shape("sweep", &[]),
    shape("tally", &[]),
];

#[derive(Clone, Copy, Debug, PartialEq, Eq)]
pub enum Transaction {
    Lookup { key: i64 },
    Insert { key: i64, value: i64, coin: u64 },
    Remove { key: i64 },
    HandOver { node: NodeNumber },
    Ceil { key: i64 },
    Floor { key: i64 },
    Succ { key: i64 },
    Pred { key: i64 },
    FastRange { low: i64, high: i64 },
    Open { low: i64, high: i64 },
    Step { version: Version, room: u32 },
    Close { version: Version },
    Sweep,
    Tally,
}

use Transaction::*;

impl Transaction {
    pub fn code(&self) -> u8 {
        match self {
            Lookup { .. } => 0,
            Insert { .. } => 1,
            Remove { .. } => 2,
            HandOver { .. } => 3,
            Ceil { .. } => 4,
            Floor { .. } => 5,
            Succ { .. } => 6,
            Pred { .. } => 7,
            FastRange { .. } => 8,
            Open { .. } => 9,
            Step { .. } => 10,
            Close { .. } => 11,
            Sweep => 12,
            Tally => 13,
        }
    }

    /// The code and the operands as the plain numbers that stand in the file.
    pub fn numbers(&self) -> Vec<u64> {
        let mut numbers = vec![u64::from(self.code())];
        match *self {
            Lookup { key } | Remove { key } => numbers.push(from_signed(key)),
            Ceil { key } | Floor { key } | Succ { key } | Pred { key } => {
                numbers.push(from_signed(key));
            }
            Insert { key, value, coin } => {
                numbers.extend([from_signed(key), from_signed(value), coin]);
            }
            FastRange { low, high } | Open { low, high } => {
                numbers.extend([from_signed(low), from_signed(high)]);
            }
            HandOver { node } => numbers.push(u64::from(node.0)),
            Step { version, room } => numbers.extend([u64::from(version.0), u64::from(room)]),
            Close { version } => numbers.push(u64::from(version.0)),
            Sweep | Tally => {}
        }
        numbers
    }

    /// The transaction of a code of the table, from its operands' plain numbers; each number
    /// that must be below 2^32 is so, and numbers behind the code's own are not looked at.
    pub fn from_numbers(code: u8, numbers: [u64; MOST_OPERANDS]) -> Transaction {
        let signed = |index: usize| to_signed(numbers[index]);
        let narrow = |index: usize| u32::try_from(numbers[index]).expect("below 2^32");
        match code {
            0 => Lookup { key: signed(0) },
            1 => Insert { key: signed(0), value: signed(1), coin: numbers[2] },
            2 => Remove { key: signed(0) },
            3 => HandOver { node: NodeNumber(narrow(0)) },
            4 => Ceil { key: signed(0) },
            5 => Floor { key: signed(0) },
            6 => Succ { key: signed(0) },
            7 => Pred { key: signed(0) },
            8 => FastRange { low: signed(0), high: signed(1) },
            9 => Open { low: signed(0), high: signed(1) },
            10 => Step { version: Version(narrow(0)), room: narrow(1) },
            11 => Close { version: Version(narrow(0)) },
            12 => Sweep,
            13 => Tally,
            _ => panic!("code {code} is not in the table"),
        }
    }

    pub fn bytes(&self) -> Vec<u8> {
        self.numbers().into_iter().flat_map(number_bytes).collect()
    }
}

/// The bytes of the file's first two numbers.
pub fn header_bytes(capacity: u32, start: Version) -> Vec<u8> {
    [capacity, start.0].into_iter().flat_map(|number| number_bytes(u64::from(number))).collect()
}
