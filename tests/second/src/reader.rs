//! Reads a schedule file number by number, in constant memory, and tells where and why it stops.

use std::io::{self, BufRead, BufReader, Read};

use crate::map::Version;
use crate::number::{GROUP, MORE_FOLLOWS, MOST_BYTES};
use crate::transaction::{Transaction, MOST_OPERANDS, SHAPES};

/// Which number of the file is meant.
#[derive(Clone, Copy, Debug, PartialEq, Eq, PartialOrd, Ord)]
pub enum Position {
    Capacity,
    StartVersion,
    Code,
    Operand { code: u8, index: usize },
}

impl Position {
    /// Every position a file has, in the order of the codes.
    pub fn all() -> Vec<Position> {
        let mut positions = vec![Position::Capacity, Position::StartVersion, Position::Code];
        for (code, shape) in (0..).zip(&SHAPES) {
            let indices = 0..shape.operands.len();
            positions.extend(indices.map(|index| Position::Operand { code, index }));
        }
        positions
    }

    pub fn is_in_header(self) -> bool {
        matches!(self, Position::Capacity | Position::StartVersion)
    }

    /// Whether the number there must be below 2^32.
    pub fn is_below_two_to_32(self) -> bool {
        match self {
            Position::Capacity | Position::StartVersion => true,
            Position::Code => false,
            Position::Operand { code, index } => {
                SHAPES[usize::from(code)].operands[index].is_below_two_to_32()
            }
        }
    }
}

/// Why a number or code stops the reading.
#[derive(Clone, Copy, Debug, PartialEq, Eq, PartialOrd, Ord)]
pub enum Cause {
    CutBeforeFirstByte,
    CutInTheMiddle,
    NotShortest,
    MoreThanTenBytes,
    PastSixtyFourBits,
    PastThirtyTwoBits,
    UnknownCode,
}

impl Cause {
    pub const ALL: [Cause; 7] = [
        Cause::CutBeforeFirstByte,
        Cause::CutInTheMiddle,
        Cause::NotShortest,
        Cause::MoreThanTenBytes,
        Cause::PastSixtyFourBits,
        Cause::PastThirtyTwoBits,
        Cause::UnknownCode,
    ];

    /// Whether a file can stop at this position for this cause.
    pub fn can_stop(self, position: Position) -> bool {
        match self {
            // An input that ends where a code would stand gives `end`.
            Cause::CutBeforeFirstByte => position != Position::Code,
            Cause::PastThirtyTwoBits => position.is_below_two_to_32(),
            Cause::UnknownCode => position == Position::Code,
            _ => true,
        }
    }
}

/// The offset of the first byte of the number or code at fault, with its position and cause.
#[derive(Clone, Copy, Debug, PartialEq, Eq)]
pub struct Stop {
    pub offset: u64,
    pub position: Position,
    pub cause: Cause,
}

/// Why nothing was read: the file stops there, or the input itself failed.
#[derive(Debug)]
pub enum Unread {
    Stop(Stop),
    Failed(io::Error),
}

impl From<io::Error> for Unread {
    fn from(error: io::Error) -> Unread {
        Unread::Failed(error)
    }
}

pub struct FileReader<R: Read> {
    input: BufReader<R>,
    offset: u64,
}

impl<R: Read> FileReader<R> {
    pub fn new(input: R) -> FileReader<R> {
        FileReader { input: BufReader::new(input), offset: 0 }
    }

    /// Reads capacity and start version.
    pub fn header(&mut self) -> Result<(u32, Version), Unread> {
        let capacity = self.number(Position::Capacity)?;
        let start = self.number(Position::StartVersion)?;
        let narrow = |number: u64| u32::try_from(number).expect("below 2^32");
        Ok((narrow(capacity), Version(narrow(start))))
    }

    /// Reads one transaction; None where the input ends in its place.
    pub fn transaction(&mut self) -> Result<Option<Transaction>, Unread> {
        if self.input.fill_buf()?.is_empty() {
            return Ok(None);
        }
        let code_offset = self.offset;
        let number = self.number(Position::Code)?;
        let code = u8::try_from(number).ok().filter(|&code| usize::from(code) < SHAPES.len());
        let Some(code) = code else {
            return Err(stop(code_offset, Position::Code, Cause::UnknownCode));
        };
        let mut numbers = [0; MOST_OPERANDS];
        let operands = SHAPES[usize::from(code)].operands.len();
        for (index, number) in numbers[..operands].iter_mut().enumerate() {
            *number = self.number(Position::Operand { code, index })?;
        }
        Ok(Some(Transaction::from_numbers(code, numbers)))
    }

    /// Reads the number at this position and holds it against the position's limit.
    fn number(&mut self, position: Position) -> Result<u64, Unread> {
        let offset = self.offset;
        let mut number = 0;
        for index in 0..MOST_BYTES {
            let Some(byte) = self.next_byte()? else {
                let whole = index == 0;
                let cause = if whole { Cause::CutBeforeFirstByte } else { Cause::CutInTheMiddle };
                return Err(stop(offset, position, cause));
            };
            let group = byte & GROUP;
            number |= u64::from(group) << (7 * index);
            if byte & MORE_FOLLOWS != 0 {
                continue;
            }
            // Nine groups are 63 bits, so the tenth may only be 1.
            let past_64_bits = index == MOST_BYTES - 1 && group > 1;
            return if group == 0 && index > 0 {
                Err(stop(offset, position, Cause::NotShortest))
            } else if past_64_bits {
                Err(stop(offset, position, Cause::PastSixtyFourBits))
            } else if position.is_below_two_to_32() && number >= 1 << 32 {
                Err(stop(offset, position, Cause::PastThirtyTwoBits))
            } else {
                Ok(number)
            };
        }
        Err(stop(offset, position, Cause::MoreThanTenBytes))
    }

    fn next_byte(&mut self) -> io::Result<Option<u8>> {
        let byte = self.input.fill_buf()?.first().copied();
        if byte.is_some() {
            self.input.consume(1);
            self.offset += 1;
        }
        Ok(byte)
    }
}

fn stop(offset: u64, position: Position, cause: Cause) -> Unread {
    Unread::Stop(Stop { offset, position, cause })
}
