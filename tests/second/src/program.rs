//! The program `schedule`: from a schedule file to its lines.

use std::fmt;
use std::io::{self, Read, Write};

use crate::map::{Map, Refusal, FAST_RANGE_LIMIT};
use crate::reader::{FileReader, Stop, Unread};
use crate::transaction::Transaction;

/// The program has memory for this capacity.
pub const PROGRAM_CAPACITY: u32 = 256;

/// The program's pair buffers have so many places, so a greater room counts as this one.
pub const PAIR_PLACES: usize = FAST_RANGE_LIMIT;

/// The answer's numbers in the document's order, then any pairs as key, value; or the refusal.
pub type Outcome = Result<Vec<i64>, Refusal>;

/// One line of the output.
#[derive(Debug)]
pub enum Line {
    SetUp(Result<(), Refusal>),
    Transaction { number: u64, transaction: Transaction, outcome: Outcome },
    End,
    Stop(Stop),
}

impl fmt::Display for Line {
    fn fmt(&self, formatter: &mut fmt::Formatter) -> fmt::Result {
        match self {
            Line::SetUp(result) => write!(formatter, "set-up {}", result_number(result)),
            Line::Transaction { number, transaction, outcome } => {
                write!(formatter, "{number} {} {}", transaction.code(), result_number(outcome))?;
                for answer in outcome.iter().flatten() {
                    write!(formatter, " {answer}")?;
                }
                Ok(())
            }
            Line::End => write!(formatter, "end"),
            Line::Stop(stop) => write!(formatter, "stop {}", stop.offset),
        }
    }
}

/// 0, or the number of the refusal.
pub fn result_number<T>(result: &Result<T, Refusal>) -> u8 {
    match result {
        Ok(_) => 0,
        Err(refusal) => refusal.number(),
    }
}

/// A run over one file that gives its lines one after another.
pub struct Run<R: Read> {
    reader: FileReader<R>,
    /// None before the set-up and after a refused one.
    map: Option<Map>,
    transactions: u64,
    over: bool,
}

impl<R: Read> Run<R> {
    pub fn new(input: R) -> Run<R> {
        Run { reader: FileReader::new(input), map: None, transactions: 0, over: false }
    }

    /// The map as the lines given so far have left it.
    pub fn map(&self) -> Option<&Map> {
        self.map.as_ref()
    }

    /// The next line; None after the last.
    pub fn next_line(&mut self) -> io::Result<Option<Line>> {
        if self.over {
            return Ok(None);
        }
        let line = match self.map {
            None => self.set_up(),
            Some(_) => self.transact(),
        };
        let line = match line {
            Ok(line) => line,
            Err(Unread::Stop(stop)) => Line::Stop(stop),
            Err(Unread::Failed(error)) => return Err(error),
        };
        self.over = matches!(line, Line::SetUp(Err(_)) | Line::End | Line::Stop(_));
        Ok(Some(line))
    }

    fn set_up(&mut self) -> Result<Line, Unread> {
        let (capacity, start) = self.reader.header()?;
        let result = match Map::set_up(capacity, start) {
            Err(refusal) => Err(refusal),
            Ok(_) if capacity > PROGRAM_CAPACITY => Err(Refusal::WrongLength),
            Ok(map) => {
                self.map = Some(map);
                Ok(())
            }
        };
        Ok(Line::SetUp(result))
    }

    fn transact(&mut self) -> Result<Line, Unread> {
        let Some(transaction) = self.reader.transaction()? else {
            return Ok(Line::End);
        };
        let map = self.map.as_mut().expect("transactions follow a set-up");
        self.transactions += 1;
        let outcome = perform(map, transaction);
        Ok(Line::Transaction { number: self.transactions, transaction, outcome })
    }
}

/// Runs one transaction with the program's pair buffers.
pub fn perform(map: &mut Map, transaction: Transaction) -> Outcome {
    let mut keys = [0; PAIR_PLACES];
    let mut values = [0; PAIR_PLACES];
    Ok(match transaction {
        Transaction::Lookup { key } => vec![map.lookup(key)?],
        Transaction::Insert { key, value, coin } => {
            vec![i64::from(map.insert(key, value, coin)?.0)]
        }
        Transaction::Remove { key } => vec![i64::from(map.remove(key)?.0)],
        Transaction::HandOver { node } => vec![map.hand_over(node)? as i64],
        Transaction::Ceil { key } => vec![map.ceil(key)?],
        Transaction::Floor { key } => vec![map.floor(key)?],
        Transaction::Succ { key } => vec![map.succ(key)?],
        Transaction::Pred { key } => vec![map.pred(key)?],
        Transaction::FastRange { low, high } => {
            let count = map.fast_range(low, high, &mut keys, &mut values)?;
            with_pairs(vec![count as i64], &keys[..count], &values[..count])
        }
        Transaction::Open { low, high } => vec![i64::from(map.open(low, high)?.0)],
        Transaction::Step { version, room } => {
            let room = PAIR_PLACES.min(room as usize);
            let stepped = map.step(version, &mut keys[..room], &mut values[..room])?;
            let answer = vec![stepped.count as i64, i64::from(stepped.finished)];
            with_pairs(answer, &keys[..stepped.count], &values[..stepped.count])
        }
        Transaction::Close { version } => vec![map.close(version)? as i64],
        Transaction::Sweep => {
            let swept = map.sweep();
            vec![swept.freed as i64, swept.still_due as i64]
        }
        Transaction::Tally => {
            let tally = map.tally();
            vec![tally.present as i64, tally.held as i64, tally.free as i64]
        }
    })
}

fn with_pairs(mut answer: Vec<i64>, keys: &[i64], values: &[i64]) -> Vec<i64> {
    for (&key, &value) in keys.iter().zip(values) {
        answer.extend([key, value]);
    }
    answer
}

/// The whole program. The caller buffers the output.
pub fn run(input: impl Read, mut output: impl Write) -> io::Result<()> {
    let mut run = Run::new(input);
    while let Some(line) = run.next_line()? {
        writeln!(output, "{line}")?;
    }
    output.flush()
}
