//! Iterators over a range that close it when they are dropped.

use std::cell::{RefCell, RefMut};

use crate::map::{Map, Version};
use crate::refusal::Refusal;

/// Pairs that a range takes at once.
const STEP: usize = 64;

/// The pairs of one step, handed on one by one.
#[derive(Debug)]
struct Step {
    keys: [i64; STEP],
    values: [i64; STEP],
    next: usize,
    count: usize,
    finished: bool,
}

impl Step {
    fn new() -> Step {
        Step { keys: [0; STEP], values: [0; STEP], next: 0, count: 0, finished: false }
    }

    /// The next pair, after a further step of the range where it is needed.
    fn next(&mut self, map: &mut Map, version: Version) -> Option<(i64, i64)> {
        if self.next == self.count {
            if self.finished {
                return None;
            }
            let stepped = map
                .step_range(version, &mut self.keys, &mut self.values)
                .expect("the range is open, its room is not 0 and the tables are sound");
            (self.next, self.count, self.finished) = (0, stepped.count, stepped.finished);
        }
        let next = self.next;
        (next < self.count).then(|| {
            self.next += 1;
            (self.keys[next], self.values[next])
        })
    }
}

/// The pairs of a range of a map that nobody else can change meanwhile. See [`Map::range`].
#[derive(Debug)]
pub struct Range<'map> {
    map: &'map mut Map,
    version: Version,
    step: Step,
}

impl<'map> Range<'map> {
    pub(crate) fn open(map: &'map mut Map, low: i64, high: i64) -> Result<Range<'map>, Refusal> {
        let version = map.open_range(low, high)?;
        Ok(Range { map, version, step: Step::new() })
    }
}

impl Iterator for Range<'_> {
    type Item = (i64, i64);

    fn next(&mut self) -> Option<(i64, i64)> {
        self.step.next(self.map, self.version)
    }
}

impl Drop for Range<'_> {
    fn drop(&mut self) {
        // A refusal changes nothing, and there is nobody to tell: the next call will say the same.
        let _ = self.map.close_range(self.version);
    }
}

/// A map that several parts of one thread share: ranges stay open while others change it.
///
/// ```
/// use lopresnik::{Map, Shared};
///
/// let shared = Shared::new(Map::new(64)?);
/// shared.with(|map| map.insert(10, 1))?;
/// shared.with(|map| map.insert(20, 2))?;
/// let mut range = shared.range(0, 99)?;
/// assert_eq!(range.next(), Some((10, 1)));
/// shared.with(|map| map.remove_and_hand_over(20))?;
/// assert_eq!(range.next(), Some((20, 2)), "as it was when the range was opened");
/// drop(range);
/// assert_eq!(shared.with(|map| map.sweep_all())?, 1);
/// # Ok::<(), lopresnik::Refusal>(())
/// ```
#[derive(Debug)]
pub struct Shared {
    map: RefCell<Map>,
    /// Ranges that were dropped within [`Shared::with`], to be closed when the map is free again.
    left_open: RefCell<Vec<Version>>,
}

impl Shared {
    /// Shares the map.
    pub fn new(map: Map) -> Shared {
        Shared { map: RefCell::new(map), left_open: RefCell::new(Vec::new()) }
    }

    /// Makes calls on the map. Within `make` the map is taken: a further `with`, `range` or a step of
    /// a shared range there panics. Dropping a shared range there is fine.
    pub fn with<Made>(&self, make: impl FnOnce(&mut Map) -> Made) -> Made {
        let made = make(&mut self.map());
        drop(self.map());
        made
    }

    /// The pairs within the bounds as they are now, while others may change the map.
    pub fn range(&self, low: i64, high: i64) -> Result<SharedRange<'_>, Refusal> {
        let version = self.map().open_range(low, high)?;
        Ok(SharedRange { shared: self, version, step: Step::new() })
    }

    /// Gives the map back.
    pub fn into_map(self) -> Map {
        drop(self.map());
        self.map.into_inner()
    }

    /// The map, with the ranges closed that were left open.
    fn map(&self) -> RefMut<'_, Map> {
        let mut map = self.map.borrow_mut();
        for version in self.left_open.borrow_mut().drain(..) {
            let _ = map.close_range(version);
        }
        map
    }
}

/// The pairs of a range of a shared map, as they were when it was opened. See [`Shared`].
#[derive(Debug)]
pub struct SharedRange<'shared> {
    shared: &'shared Shared,
    version: Version,
    step: Step,
}

impl SharedRange<'_> {
    /// The version that names the range.
    pub fn version(&self) -> Version {
        self.version
    }
}

impl Iterator for SharedRange<'_> {
    type Item = (i64, i64);

    /// # Panics
    ///
    /// Within [`Shared::with`], and where a caller of it has closed this range by its version or
    /// damaged the tables.
    fn next(&mut self) -> Option<(i64, i64)> {
        self.step.next(&mut self.shared.map(), self.version)
    }
}

impl Drop for SharedRange<'_> {
    fn drop(&mut self) {
        match self.shared.map.try_borrow_mut() {
            Ok(mut map) => {
                let _ = map.close_range(self.version);
            }
            Err(_) => self.shared.left_open.borrow_mut().push(self.version),
        }
    }
}
