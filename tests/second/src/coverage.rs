//! Which cases of the program a set of schedule files reaches, and which it leaves out.

use std::collections::BTreeMap;
use std::fmt;
use std::io::{self, Read};

use crate::map::{Map, Refusal, Version, TICKETS};
use crate::program::{result_number, Line, Outcome, Run, PAIR_PLACES};
use crate::reader::{Cause, Position};
use crate::transaction::{Transaction, SHAPES};

/// The results that the program can give, by code. Refusal 1 and refusal 8 of the fast range
/// are not among them: the program's tables are sound and its pair buffers have 64 places.
const RESULTS: [&[u8]; 14] = [
    &[0, 4],
    &[0, 3, 5],
    &[0, 4],
    &[0, 12],
    &[0, 13],
    &[0, 13],
    &[0, 13],
    &[0, 13],
    &[0, 6, 7],
    &[0, 6, 9, 10],
    &[0, 8, 11],
    &[0, 11],
    &[0],
    &[0],
];

/// The results of set-up that the program can give.
const SET_UP_RESULTS: [u8; 3] = [0, 1, 2];

/// A transaction with its outcome and the map as it was left.
struct Seen<'run> {
    transaction: Transaction,
    outcome: &'run Outcome,
    map: &'run Map,
}

impl Seen<'_> {
    /// The answer's numbers if this is a call with that code and not refused, or none.
    fn answer(&self, code: u8) -> &[i64] {
        match self.outcome {
            Ok(answer) if self.transaction.code() == code => answer,
            _ => &[],
        }
    }

    fn is_refused(&self, code: u8, refusal: Refusal) -> bool {
        self.transaction.code() == code && *self.outcome == Err(refusal)
    }

    fn open_count(&self) -> usize {
        self.map.open_versions().len()
    }

    fn is_at_last_version(&self) -> bool {
        self.map.counter() == Version(u32::MAX)
    }

    /// Whether a step has handed out a pair that a lookup does not give.
    fn hands_out_a_past_pair(&self) -> bool {
        let pairs = self.answer(10).get(2..).unwrap_or(&[]);
        pairs.chunks(2).any(|pair| self.map.lookup(pair[0]) != Ok(pair[1]))
    }

    fn steps_a_finished_range(&self) -> bool {
        match self.transaction {
            Transaction::Step { version, .. } => self.map.pairs_left(version) == Some(0),
            _ => false,
        }
    }

    fn has_room_in(&self, rooms: std::ops::RangeInclusive<u32>) -> bool {
        matches!(self.transaction, Transaction::Step { room, .. } if rooms.contains(&room))
    }
}

/// Whether a transaction is the case meant.
type Test = fn(&Seen) -> bool;

/// Cases within one result: the kinds of answers, and refusals where another one was due as
/// well, so that their order decides. (A refusal leaves the map as the call found it.)
const CASES: [(&str, Test); 24] = [
    ("insert refused 3 with no node free", |seen| {
        seen.is_refused(1, Refusal::KeyPresent) && seen.map.tally().free == 0
    }),
    ("hand over: held", |seen| seen.answer(3) == [0]),
    ("hand over: freed with no range open", |seen| seen.answer(3) == [1] && seen.open_count() == 0),
    ("hand over: freed under a range", |seen| seen.answer(3) == [1] && seen.open_count() > 0),
    ("fast range: no pair", |seen| seen.answer(8) == [0]),
    ("fast range: 64 pairs", |seen| seen.answer(8).starts_with(&[PAIR_PLACES as i64])),
    ("open refused 6 with sixteen open", |seen| {
        seen.is_refused(9, Refusal::BoundsReversed) && seen.open_count() == TICKETS
    }),
    ("open refused 6 at the last version", |seen| {
        seen.is_refused(9, Refusal::BoundsReversed) && seen.is_at_last_version()
    }),
    ("open refused 9 at the last version", |seen| {
        seen.is_refused(9, Refusal::AllTicketsOpen) && seen.is_at_last_version()
    }),
    ("open: the last version", |seen| !seen.answer(9).is_empty() && seen.is_at_last_version()),
    ("step: pairs left", |seen| seen.answer(10).get(1) == Some(&0)),
    ("step: the last pairs", |seen| matches!(seen.answer(10), [count, 1, ..] if *count > 0)),
    ("step: no pair", |seen| seen.answer(10) == [0, 1]),
    ("step: 64 pairs", |seen| seen.answer(10).starts_with(&[PAIR_PLACES as i64])),
    ("step: a pair no longer present", |seen| seen.hands_out_a_past_pair()),
    ("step: room above 64", |seen| {
        !seen.answer(10).is_empty() && seen.has_room_in(PAIR_PLACES as u32 + 1..=u32::MAX)
    }),
    ("step refused 8 when finished", |seen| {
        seen.is_refused(10, Refusal::TooFewPlaces) && seen.steps_a_finished_range()
    }),
    ("step refused 11 with room 0", |seen| {
        seen.is_refused(10, Refusal::NoSuchOpenRange) && seen.has_room_in(0..=0)
    }),
    ("close: none due, some held", |seen| seen.answer(11) == [0] && seen.map.tally().held > 0),
    ("close: some due", |seen| matches!(seen.answer(11), [due] if *due > 0)),
    ("close: some due under a range", |seen| {
        matches!(seen.answer(11), [due] if *due > 0) && seen.open_count() > 0
    }),
    ("sweep: nothing due", |seen| seen.answer(12) == [0, 0]),
    ("sweep: the last due node", |seen| seen.answer(12) == [1, 0]),
    ("sweep: more due", |seen| matches!(seen.answer(12), [1, due] if *due > 0)),
];

/// Something that the program may come to.
#[derive(Clone, Copy, Debug, PartialEq, Eq, PartialOrd, Ord)]
enum Item {
    SetUp { result: u8 },
    Code { code: u8 },
    Result { code: u8, result: u8 },
    Case { name: &'static str },
    End,
    Stop { position: Position, cause: Cause },
}

impl fmt::Display for Item {
    fn fmt(&self, formatter: &mut fmt::Formatter) -> fmt::Result {
        match *self {
            Item::SetUp { result } => write!(formatter, "set-up {result}"),
            Item::Code { code } => write!(formatter, "code {code} ({})", name_of(code)),
            Item::Result { code, result } => {
                write!(formatter, "code {code} ({}) result {result}", name_of(code))
            }
            Item::Case { name } => write!(formatter, "case: {name}"),
            Item::End => write!(formatter, "end"),
            Item::Stop { position: Position::Operand { code, index }, cause } => {
                let operand = SHAPES[usize::from(code)].operands[index];
                write!(formatter, "stop at {operand:?} of {}: {cause:?}", name_of(code))
            }
            Item::Stop { position, cause } => write!(formatter, "stop at {position:?}: {cause:?}"),
        }
    }
}

fn name_of(code: u8) -> &'static str {
    SHAPES[usize::from(code)].name
}

/// Every item that the program can give.
fn possible_items() -> Vec<Item> {
    let mut items = vec![Item::End];
    items.extend(SET_UP_RESULTS.map(|result| Item::SetUp { result }));
    for (code, results) in (0..).zip(RESULTS) {
        items.push(Item::Code { code });
        items.extend(results.iter().map(|&result| Item::Result { code, result }));
    }
    items.extend(CASES.iter().map(|&(name, _)| Item::Case { name }));
    for position in Position::all() {
        let causes = Cause::ALL.into_iter().filter(|cause| cause.can_stop(position));
        items.extend(causes.map(|cause| Item::Stop { position, cause }));
    }
    items
}

/// How often each item was reached.
pub struct Coverage {
    possible: BTreeMap<Item, u64>,
    /// Items that the program should never give.
    impossible: BTreeMap<Item, u64>,
}

impl Coverage {
    /// The coverage of no file.
    pub fn empty() -> Coverage {
        let possible = possible_items().into_iter().map(|item| (item, 0)).collect();
        Coverage { possible, impossible: BTreeMap::new() }
    }

    /// Runs one file and counts what it reaches.
    pub fn add_file(&mut self, input: impl Read) -> io::Result<()> {
        let mut run = Run::new(input);
        while let Some(line) = run.next_line()? {
            match line {
                Line::SetUp(result) => {
                    self.count(Item::SetUp { result: result_number(&result) });
                }
                Line::Transaction { transaction, ref outcome, .. } => {
                    let map = run.map().expect("transactions follow a set-up");
                    self.count_transaction(&Seen { transaction, outcome, map });
                }
                Line::End => self.count(Item::End),
                Line::Stop(stop) => {
                    self.count(Item::Stop { position: stop.position, cause: stop.cause });
                }
            }
        }
        Ok(())
    }

    fn count_transaction(&mut self, seen: &Seen) {
        let code = seen.transaction.code();
        self.count(Item::Code { code });
        self.count(Item::Result { code, result: result_number(seen.outcome) });
        for (name, is_met) in CASES {
            if is_met(seen) {
                self.count(Item::Case { name });
            }
        }
    }

    fn count(&mut self, item: Item) {
        match self.possible.get_mut(&item) {
            Some(count) => *count += 1,
            None => *self.impossible.entry(item).or_default() += 1,
        }
    }

    /// The items that no file reached.
    fn unreached(&self) -> Vec<Item> {
        let unreached = self.possible.iter().filter(|&(_, &count)| count == 0);
        unreached.map(|(&item, _)| item).collect()
    }

    /// Whether everything possible was reached, and nothing else.
    pub fn is_full(&self) -> bool {
        self.unreached().is_empty() && self.impossible.is_empty()
    }
}

impl fmt::Display for Coverage {
    fn fmt(&self, formatter: &mut fmt::Formatter) -> fmt::Result {
        for (item, count) in &self.possible {
            let mark = if *count == 0 { "  NOT REACHED" } else { "" };
            writeln!(formatter, "{count:>9}  {item}{mark}")?;
        }
        for (item, count) in &self.impossible {
            writeln!(formatter, "{count:>9}  {item}  IMPOSSIBLE")?;
        }
        let reached = self.possible.len() - self.unreached().len();
        let impossible = self.impossible.len();
        let all = self.possible.len();
        write!(formatter, "{reached} of {all} items reached, {impossible} impossible ones")
    }
}
