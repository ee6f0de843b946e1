//! Lopresnik's batch and single entry points, and the plain skip hash over the same bytes.

use lopresnik::{End, List, Map, ANSWER_CELLS, CALL_PLACES};

use crate::skip_hash::SkipHash;
use crate::subjects::{Out, Subject};
use crate::work::{calls_of, Call, Kind, Op, Work, ABSENT};

/// The calls of the work's lists, and as bytes.
pub struct Calls {
    lists: Vec<Vec<Call>>,
    bytes: Vec<List>,
    fill: List,
}

impl Calls {
    pub fn of_work(work: &Work) -> Calls {
        let mut map = SkipHash::new(work.capacity);
        let fill = written(&calls_of(&work.fill, &mut map));
        let lists: Vec<_> = work.lists.iter().map(|ops| calls_of(ops, &mut map)).collect();
        let bytes = lists.iter().map(|calls| written(calls)).collect();
        Calls { lists, bytes, fill }
    }

    pub fn bytes(&self) -> usize {
        self.bytes.iter().map(|list| list.bytes().len()).sum()
    }
}

fn written(calls: &[Call]) -> List {
    let mut list = List::new();
    calls.iter().for_each(|call| call.write(&mut list));
    list
}

/// The answers of operations by the cells of their calls.
fn folded(ops: &[Op], cells: &[i64]) -> Vec<i64> {
    let mut calls = cells.chunks_exact(ANSWER_CELLS).peekable();
    let fold = |op: &Op| {
        let cells = calls.next().expect("each operation has a call");
        let made = cells[1] == 0;
        let answer = match op.kind {
            Kind::Lookup if !made => ABSENT,
            Kind::Lookup | Kind::Step => cells[2],
            Kind::Insert | Kind::Remove => i64::from(made),
            Kind::Range if made => cells[2],
            Kind::Range => stepped(&mut calls),
            Kind::Open | Kind::Close => 0,
        };
        while calls.peek().is_some_and(|cells| matches!(cells[0], 3 | 12)) {
            assert_eq!(calls.next().expect("it was seen")[1], 0, "hand over and sweep are made");
        }
        answer
    };
    ops.iter().map(fold).collect()
}

/// The pairs of a range in steps that stands for a refused fast range: open, steps, close.
fn stepped<'cells>(calls: &mut impl Iterator<Item = &'cells [i64]>) -> i64 {
    let mut next = |code| {
        let cells = calls.next().expect("a range in steps has all of its calls");
        assert_eq!((cells[0], cells[1]), (code, 0));
        cells
    };
    next(9);
    let mut count = 0;
    loop {
        let cells = next(10);
        count += cells[2];
        if cells[3] == 1 {
            break;
        }
    }
    next(11);
    count
}

/// Lopresnik's batch: the bytes of each list are ready, or are written within the time.
pub struct Batch<'work> {
    work: &'work Work,
    calls: &'work Calls,
    writes: bool,
    list: List,
    filled: Map,
    map: Map,
}

impl<'work> Batch<'work> {
    pub fn new(work: &'work Work, calls: &'work Calls, writes: bool) -> Batch<'work> {
        let filled = filled(work, calls);
        Batch { work, calls, writes, list: List::new(), map: filled.clone(), filled }
    }
}

/// Lopresnik's map with what the work begins with.
pub fn filled(work: &Work, calls: &Calls) -> Map {
    let mut map = Map::new(work.capacity as u32).expect("a capacity of the table");
    map.run_list(&calls.fill).expect("the tables are sound");
    map
}

impl Subject for Batch<'_> {
    fn name(&self) -> &'static str {
        if self.writes {
            "batch, written"
        } else {
            "batch"
        }
    }

    fn reset(&mut self) {
        *self.map.tables_mut() = self.filled.tables().clone();
    }

    fn run(&mut self, list: usize, out: &mut Out) {
        let bytes = if self.writes {
            self.list.clear();
            self.calls.lists[list].iter().for_each(|call| call.write(&mut self.list));
            self.list.bytes()
        } else {
            self.calls.bytes[list].bytes()
        };
        let ran = self.map.run(bytes, false, &mut out.answers, &mut out.keys, &mut out.values);
        assert_eq!(ran.end, End::Ended);
        out.pairs = ran.pairs;
    }

    fn answers(&self, list: usize, out: &Out) -> Vec<i64> {
        folded(&self.work.lists[list], &out.answers[..self.calls.lists[list].len() * ANSWER_CELLS])
    }
}

/// Lopresnik's single entry points, each of which tests the tables.
pub struct Single<'work> {
    work: &'work Work,
    calls: &'work Calls,
    filled: Map,
    map: Map,
}

impl<'work> Single<'work> {
    pub fn new(work: &'work Work, calls: &'work Calls) -> Single<'work> {
        let filled = filled(work, calls);
        Single { work, calls, map: filled.clone(), filled }
    }

    /// Code, refusal and numbers of one call.
    fn call(&mut self, call: Call, out: &mut Out) -> [i64; ANSWER_CELLS] {
        let map = &mut self.map;
        let places = out.pairs..out.pairs + CALL_PLACES;
        let (keys, values) = (&mut out.keys[places.clone()], &mut out.values[places]);
        let (code, answer) = match call {
            Call::Lookup(key) => (0, map.lookup(key).map(|value| (value, 0))),
            Call::Insert(key, value, coin) => {
                (1, map.insert_with_coin(key, value, coin).map(|node| (i64::from(node.0), 0)))
            }
            Call::Remove(key) => (2, map.remove(key).map(|node| (i64::from(node.0), 0))),
            Call::HandOver(node) => (3, map.hand_over(node).map(|handed| (handed as i64, 0))),
            Call::FastRange(low, high) => {
                (8, map.fast_range(low, high, keys, values).map(|count| (count as i64, 0)))
            }
            Call::OpenRange(low, high) => {
                (9, map.open_range(low, high).map(|version| (i64::from(version.0), 0)))
            }
            Call::StepRange(version) => (
                10,
                map.step_range(version, keys, values)
                    .map(|stepped| (stepped.count as i64, i64::from(stepped.finished))),
            ),
            Call::CloseRange(version) => (11, map.close_range(version).map(|due| (due as i64, 0))),
            Call::Sweep => {
                (12, map.sweep().map(|swept| (i64::from(swept.freed), swept.still_due as i64)))
            }
        };
        if let (8 | 10, Ok((count, _))) = (code, answer) {
            out.pairs += count as usize;
        }
        match answer {
            Ok((first, second)) => [code, 0, first, second, 0],
            Err(refusal) => [code, i64::from(refusal.number()), 0, 0, 0],
        }
    }
}

impl Subject for Single<'_> {
    fn name(&self) -> &'static str {
        "single"
    }

    fn reset(&mut self) {
        *self.map.tables_mut() = self.filled.tables().clone();
    }

    fn run(&mut self, list: usize, out: &mut Out) {
        out.pairs = 0;
        let calls = self.calls;
        for (index, &call) in calls.lists[list].iter().enumerate() {
            let cells = self.call(call, out);
            out.answers[index * ANSWER_CELLS..][..ANSWER_CELLS].copy_from_slice(&cells);
        }
    }

    fn answers(&self, list: usize, out: &Out) -> Vec<i64> {
        folded(&self.work.lists[list], &out.answers[..self.calls.lists[list].len() * ANSWER_CELLS])
    }
}

/// The plain skip hash over the same bytes as Lopresnik's batch, with the same cells.
pub struct PlainBatch<'work> {
    work: &'work Work,
    calls: &'work Calls,
    filled: SkipHash,
    map: SkipHash,
}

impl<'work> PlainBatch<'work> {
    pub fn new(work: &'work Work, calls: &'work Calls) -> PlainBatch<'work> {
        let mut filled = SkipHash::new(work.capacity);
        calls_of(&work.fill, &mut filled);
        PlainBatch { work, calls, map: filled.clone(), filled }
    }
}

impl Subject for PlainBatch<'_> {
    fn name(&self) -> &'static str {
        "plain batch"
    }

    fn reset(&mut self) {
        self.map = self.filled.clone();
    }

    fn run(&mut self, list: usize, out: &mut Out) {
        let bytes = self.calls.bytes[list].bytes();
        let pairs = self.map.run(bytes, &mut out.answers, &mut out.keys, &mut out.values);
        out.pairs = pairs.expect("the bytes are written by the rules");
    }

    fn answers(&self, list: usize, out: &Out) -> Vec<i64> {
        folded(&self.work.lists[list], &out.answers[..self.calls.lists[list].len() * ANSWER_CELLS])
    }
}
