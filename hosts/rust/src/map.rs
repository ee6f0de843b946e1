//! The map with a method for every call.

use crate::archive::{self, Answer};
use crate::coins::Coins;
use crate::list::{Answers, End, List, Ran};
use crate::range::Range;
use crate::refusal::Refusal;
use crate::tables::{Coordinator, Tables, Ticket, TICKETS};

/// The number of a node.
#[derive(Clone, Copy, Debug, PartialEq, Eq, Hash)]
pub struct Node(pub u32);

/// A version. It names an open range.
#[derive(Clone, Copy, Debug, PartialEq, Eq, PartialOrd, Ord, Hash)]
pub struct Version(pub u32);

/// What became of a node that was handed over.
#[derive(Clone, Copy, Debug, PartialEq, Eq)]
pub enum HandedOver {
    /// It joined the list of the latest open range.
    Held,
    /// It is free.
    Freed,
}

/// What a step handed out.
#[derive(Clone, Copy, Debug, PartialEq, Eq)]
pub struct Stepped {
    /// How many pairs.
    pub count: usize,
    /// Whether none is left.
    pub finished: bool,
}

/// What a sweep did.
#[derive(Clone, Copy, Debug, PartialEq, Eq)]
pub struct Swept {
    /// Whether a node was freed.
    pub freed: bool,
    /// How many nodes stay due.
    pub still_due: usize,
}

/// How many nodes are present, on the list of an open range, and free.
#[derive(Clone, Copy, Debug, PartialEq, Eq)]
pub struct Tally {
    /// Present nodes.
    pub present: usize,
    /// Nodes on the list of an open range.
    pub held: usize,
    /// Free nodes.
    pub free: usize,
}

/// An ordered map from `i64` to `i64` that owns its memory. Each method is one call of document 01.
///
/// Every single call first tests whether the tables are sound, which takes time in proportion to the
/// capacity. [`Map::run`] makes a whole list of calls and tests once: use it where speed matters.
///
/// ```
/// use lopresnik::{Map, Refusal};
///
/// let mut map = Map::new(64)?;
/// map.insert(10, 1)?;
/// map.insert(20, 2)?;
/// assert_eq!(map.lookup(20), Ok(2));
/// assert_eq!(map.succ(10), Ok(20));
/// assert_eq!(map.insert(10, 3), Err(Refusal::KeyPresent));
/// # Ok::<(), Refusal>(())
/// ```
#[derive(Clone, Debug)]
pub struct Map {
    tables: Tables,
    coins: Coins,
}

/// Lends the tables to a function that may change all of them.
macro_rules! change {
    ($tables:expr, $function:ident $(, $argument:expr)*) => {{
        let tables: &mut Tables = $tables;
        // SAFETY: every pointer comes from a Vec or a reference of this length, all borrowed
        // exclusively and none overlapping; the function is proved for any contents and lengths.
        unsafe {
            archive::$function(
                tables.keys.as_mut_ptr(), tables.keys.len(),
                tables.values.as_mut_ptr(), tables.values.len(),
                tables.rows.as_mut_ptr(), tables.rows.len(),
                tables.buckets.as_mut_ptr(), tables.buckets.len(),
                tables.tickets.as_mut_ptr(), tables.tickets.len(),
                &mut tables.coordinator,
                $($argument),*
            )
        }
    }};
}

/// Lends the tables to a function that changes at most the tickets and the coordinator given.
macro_rules! read {
    ($tables:expr, $tickets:expr, $coordinator:expr, $function:ident $(, $argument:expr)*) => {{
        let tables: &Tables = $tables;
        let tickets: &mut [Ticket] = $tickets;
        let coordinator: &mut Coordinator = $coordinator;
        // SAFETY: as in `change`; what is only shared is only read.
        unsafe {
            archive::$function(
                tables.keys.as_ptr(), tables.keys.len(),
                tables.values.as_ptr(), tables.values.len(),
                tables.rows.as_ptr(), tables.rows.len(),
                tables.buckets.as_ptr(), tables.buckets.len(),
                tickets.as_mut_ptr(), tickets.len(),
                coordinator,
                $($argument),*
            )
        }
    }};
}

/// A call that changes nothing: tickets and coordinator are lent as copies, since the archive's
/// functions take all of them to change. Another number of tickets than sixteen is refused, and so is
/// none at all.
macro_rules! ask {
    ($map:expr, $function:ident $(, $argument:expr)*) => {{
        let tables = &$map.tables;
        let mut copies = [Ticket::default(); TICKETS];
        let tickets = match tables.tickets.len() {
            TICKETS => {
                copies.copy_from_slice(&tables.tickets);
                &mut copies[..]
            }
            _ => &mut [],
        };
        let mut coordinator = tables.coordinator;
        read!(tables, tickets, &mut coordinator, $function $(, $argument)*)
    }};
}

/// A call that changes the tickets and the coordinator alone.
macro_rules! turn {
    ($map:expr, $function:ident $(, $argument:expr)*) => {{
        let mut tickets = std::mem::take(&mut $map.tables.tickets);
        let mut coordinator = $map.tables.coordinator;
        let answer = read!(&$map.tables, &mut tickets, &mut coordinator, $function $(, $argument)*);
        $map.tables.tickets = tickets;
        $map.tables.coordinator = coordinator;
        answer
    }};
}

/// The answer of a call that was made, or its refusal.
fn made(answer: Answer) -> Result<Answer, Refusal> {
    match answer.refusal {
        0 => Ok(answer),
        number => Err(refusal_of(number as usize)),
    }
}

/// The refusal of a number that is not 0.
fn refusal_of(number: usize) -> Refusal {
    let number = number as u32;
    Refusal::of_number(number).unwrap_or(Refusal::Unknown(number))
}

/// The calls, one by one.
impl Map {
    /// An empty map of this capacity whose versions begin at 0.
    pub fn new(capacity: u32) -> Result<Map, Refusal> {
        Map::starting_at(capacity, Version(0))
    }

    /// An empty map of this capacity whose versions begin at `start`.
    pub fn starting_at(capacity: u32, start: Version) -> Result<Map, Refusal> {
        let mut tables = Tables::sized(capacity).ok_or(Refusal::NoSuchCapacity)?;
        Map::set_up(&mut tables, capacity, start)?;
        Ok(Map::over(tables))
    }

    /// Sets up tables that the caller has: an empty map, every node free.
    ///
    /// # Panics
    ///
    /// Where the archive that was linked has another version of the interface than this wrapper.
    pub fn set_up(tables: &mut Tables, capacity: u32, start: Version) -> Result<(), Refusal> {
        archive::check_version();
        match change!(tables, lopresnik_set_up, capacity, start.0) {
            0 => Ok(()),
            number => Err(refusal_of(number as usize)),
        }
    }

    /// The map over tables that the caller has. They may be anything: every call tests them.
    ///
    /// # Panics
    ///
    /// Where the archive that was linked has another version of the interface than this wrapper.
    pub fn over(tables: Tables) -> Map {
        archive::check_version();
        Map { tables, coins: Coins::new() }
    }

    /// The value of the key.
    pub fn lookup(&self, key: i64) -> Result<i64, Refusal> {
        made(ask!(self, lopresnik_lookup, key)).map(|answer| answer.first)
    }

    /// Inserts the key, which must be absent, with a coin of the map's own; answers its node.
    pub fn insert(&mut self, key: i64, value: i64) -> Result<Node, Refusal> {
        let coin = self.coins.next();
        self.insert_with_coin(key, value, coin)
    }

    /// Inserts the key, which must be absent. The node's height is 1 plus the number of trailing one
    /// bits of the coin, at most the level count.
    pub fn insert_with_coin(&mut self, key: i64, value: i64, coin: u64) -> Result<Node, Refusal> {
        made(change!(&mut self.tables, lopresnik_insert, key, value, coin))
            .map(|answer| Node(answer.first as u32))
    }

    /// Removes the key. Its node is pending from now on: hand it over, at once or later.
    pub fn remove(&mut self, key: i64) -> Result<Node, Refusal> {
        made(change!(&mut self.tables, lopresnik_remove, key))
            .map(|answer| Node(answer.first as u32))
    }

    /// Hands a pending node over: it is free at once, or held while an open range may need it.
    pub fn hand_over(&mut self, node: Node) -> Result<HandedOver, Refusal> {
        made(change!(&mut self.tables, lopresnik_hand_over, node.0)).map(|answer| {
            match answer.first {
                0 => HandedOver::Held,
                _ => HandedOver::Freed,
            }
        })
    }

    /// Removes the key and hands its node over.
    pub fn remove_and_hand_over(&mut self, key: i64) -> Result<HandedOver, Refusal> {
        let node = self.remove(key)?;
        self.hand_over(node)
    }

    /// The nearest present key at or above.
    pub fn ceil(&self, key: i64) -> Result<i64, Refusal> {
        made(ask!(self, lopresnik_ceil, key)).map(|answer| answer.first)
    }

    /// The nearest present key at or below.
    pub fn floor(&self, key: i64) -> Result<i64, Refusal> {
        made(ask!(self, lopresnik_floor, key)).map(|answer| answer.first)
    }

    /// The nearest present key above.
    pub fn succ(&self, key: i64) -> Result<i64, Refusal> {
        made(ask!(self, lopresnik_succ, key)).map(|answer| answer.first)
    }

    /// The nearest present key below.
    pub fn pred(&self, key: i64) -> Result<i64, Refusal> {
        made(ask!(self, lopresnik_pred, key)).map(|answer| answer.first)
    }

    /// All pairs with low ≤ key ≤ high, at most 64, rising, to the front of the buffers; answers
    /// their count.
    pub fn fast_range(
        &self,
        low: i64,
        high: i64,
        keys: &mut [i64],
        values: &mut [i64],
    ) -> Result<usize, Refusal> {
        let (keys_room, values_room) = (keys.len(), values.len());
        let (keys, values) = (keys.as_mut_ptr(), values.as_mut_ptr());
        let answer =
            ask!(self, lopresnik_fast_range, low, high, keys, keys_room, values, values_room);
        made(answer).map(|answer| answer.first as usize)
    }

    /// Opens a range: its steps will hand out the pairs that are present now. Others may change the
    /// map between its steps. Close it by its version; sixteen may be open.
    ///
    /// ```
    /// let mut map = lopresnik::Map::new(64)?;
    /// map.insert(10, 1)?;
    /// map.insert(20, 2)?;
    /// let version = map.open_range(0, 99)?;
    /// map.remove_and_hand_over(20)?;
    /// map.insert(15, 3)?;
    /// let (mut keys, mut values) = ([0; 8], [0; 8]);
    /// let stepped = map.step_range(version, &mut keys, &mut values)?;
    /// assert!(stepped.finished);
    /// assert_eq!(keys[..stepped.count], [10, 20]);
    /// map.close_range(version)?;
    /// assert_eq!(map.sweep_all()?, 1);
    /// # Ok::<(), lopresnik::Refusal>(())
    /// ```
    pub fn open_range(&mut self, low: i64, high: i64) -> Result<Version, Refusal> {
        made(turn!(self, lopresnik_open_range, low, high))
            .map(|answer| Version(answer.first as u32))
    }

    /// Hands out the next pairs of an open range, as many as both buffers have places for.
    pub fn step_range(
        &mut self,
        version: Version,
        keys: &mut [i64],
        values: &mut [i64],
    ) -> Result<Stepped, Refusal> {
        let (keys_room, values_room) = (keys.len(), values.len());
        let (keys, values) = (keys.as_mut_ptr(), values.as_mut_ptr());
        let answer =
            turn!(self, lopresnik_step_range, version.0, keys, keys_room, values, values_room);
        made(answer)
            .map(|answer| Stepped { count: answer.first as usize, finished: answer.second == 1 })
    }

    /// Closes an open range, finished or not; answers how many nodes this made due.
    pub fn close_range(&mut self, version: Version) -> Result<usize, Refusal> {
        made(turn!(self, lopresnik_close_range, version.0)).map(|answer| answer.first as usize)
    }

    /// Frees the first due node, if any.
    pub fn sweep(&mut self) -> Result<Swept, Refusal> {
        made(change!(&mut self.tables, lopresnik_sweep))
            .map(|answer| Swept { freed: answer.first == 1, still_due: answer.second as usize })
    }

    /// How many nodes are present, held and free.
    pub fn tally(&self) -> Result<Tally, Refusal> {
        made(ask!(self, lopresnik_tally)).map(|answer| Tally {
            present: answer.first as usize,
            held: answer.second as usize,
            free: answer.third as usize,
        })
    }

    /// Whether the tables have the right lengths and are sound: just then a tally is not refused.
    pub fn sound(&self) -> bool {
        self.tally().is_ok()
    }
}

/// Lists of calls.
impl Map {
    /// Makes the calls that the bytes hold, one after another, and tests once whether the tables are
    /// sound. The bytes are those of a schedule file without its header ([`List`] writes them);
    /// `more` says that others may follow. Each call takes five cells of `answers` and needs 64 free
    /// places in both pair buffers. A refused call does not end the list.
    ///
    /// [`End::Full`] with nothing used means that the room can never suffice: lend five cells and 64
    /// places at least.
    pub fn run(
        &mut self,
        bytes: &[u8],
        more: bool,
        answers: &mut [i64],
        keys: &mut [i64],
        values: &mut [i64],
    ) -> Ran {
        let (answers_room, keys_room, values_room) = (answers.len(), keys.len(), values.len());
        let ran = change!(
            &mut self.tables,
            lopresnik_run_list,
            bytes.as_ptr(),
            bytes.len(),
            more,
            answers.as_mut_ptr(),
            answers_room,
            keys.as_mut_ptr(),
            keys_room,
            values.as_mut_ptr(),
            values_room
        );
        let end = match ran.end {
            0 => End::Ended,
            1 => End::Stop(ran.at),
            2 => End::More,
            3 => End::Full,
            4 => End::Refused(refusal_of(ran.at)),
            unknown => End::Refused(Refusal::Unknown(unknown)),
        };
        Ran { end, used: ran.used, calls: ran.calls, pairs: ran.pairs }
    }

    /// Makes every call of the list, with room of its own, which grows as far as the answers need: so
    /// the list never ends as [`End::Full`] with nothing used, where the room can never suffice
    /// ([`Map::run`] has the caller's room, and may).
    ///
    /// ```
    /// use lopresnik::{List, Map};
    ///
    /// let mut map = Map::new(64)?;
    /// let mut list = List::new();
    /// list.insert(10, 1, 0).insert(20, 2, 1).fast_range(0, 99);
    /// let answers = map.run_list(&list)?;
    /// let range = answers.iter().last().expect("three calls were made");
    /// assert_eq!(range.keys, [10, 20]);
    /// assert_eq!(range.values, [1, 2]);
    /// # Ok::<(), lopresnik::Refusal>(())
    /// ```
    pub fn run_list(&mut self, list: &List) -> Result<Answers, Refusal> {
        let mut answers = Answers::with_room(list.calls());
        let mut bytes = list.bytes();
        loop {
            let ran = answers.run(self, bytes);
            match ran.end {
                End::Ended => return Ok(answers),
                End::Refused(refusal) => return Err(refusal),
                End::Full => bytes = &bytes[ran.used..],
                End::Stop(_) | End::More => unreachable!("a list is written by the rules"),
            }
        }
    }

    /// Frees every due node, in one list of sweeps; answers how many.
    pub fn sweep_all(&mut self) -> Result<usize, Refusal> {
        let mut list = List::new();
        for _ in 0..self.tables.coordinator.due.min(self.tables.keys.len() as u32) {
            list.sweep();
        }
        let answers = self.run_list(&list)?;
        Ok(answers.iter().filter(|answer| matches!(answer.numbers, Ok([1, ..]))).count())
    }
}

/// More than the calls.
impl Map {
    /// The pairs within the bounds, as they are now, by an iterator that takes steps of 64 pairs and
    /// closes its range when it is dropped. It borrows the map, so nobody changes it meanwhile: where
    /// others shall, see [`Map::open_range`] and [`Shared`](crate::Shared).
    ///
    /// ```
    /// let mut map = lopresnik::Map::new(64)?;
    /// map.insert(20, 2)?;
    /// map.insert(10, 1)?;
    /// assert_eq!(map.range(0, 99)?.collect::<Vec<_>>(), [(10, 1), (20, 2)]);
    /// # Ok::<(), lopresnik::Refusal>(())
    /// ```
    pub fn range(&mut self, low: i64, high: i64) -> Result<Range<'_>, Refusal> {
        Range::open(self, low, high)
    }

    /// The versions of the open ranges, the oldest first.
    pub fn open_versions(&self) -> impl Iterator<Item = Version> + '_ {
        let open = (self.tables.coordinator.ranges as usize).min(TICKETS);
        self.tables.tickets.iter().take(open).map(|ticket| Version(ticket.version))
    }

    /// How many nodes there are.
    pub fn capacity(&self) -> usize {
        self.tables.keys.len()
    }

    /// The memory, to look at or to save.
    pub fn tables(&self) -> &Tables {
        &self.tables
    }

    /// The memory, to change: what is not sound afterwards is refused by every call.
    pub fn tables_mut(&mut self) -> &mut Tables {
        &mut self.tables
    }

    /// Gives the memory back.
    pub fn into_tables(self) -> Tables {
        self.tables
    }
}
