//! The soundness test against a plain pass over the same cells. A tally makes the test, and besides
//! reads three counts.

use std::hint::black_box;
use std::time::Duration;

use lopresnik::Tables;

use crate::clock;
use crate::lists::{filled, Calls};
use crate::work::Work;

/// Tests, and passes, that are timed together.
const TOGETHER: u32 = 20;

/// Microseconds of the test and of the pass, at so many keys: the fastest of so many turns of each.
pub fn measure(capacity: usize, present: usize, turns: usize) -> (f64, f64) {
    let work = Work::filled(capacity, present);
    let map = filled(&work, &Calls::of_work(&work));
    let tally = map.tally().expect("the tables are sound");
    assert_eq!(tally.present as usize, present, "every key was inserted");
    let (mut test, mut pass) = (Duration::MAX, Duration::MAX);
    for _ in 0..turns {
        test = test.min(spent(|| {
            black_box(black_box(&map).tally()).expect("the tables are sound");
        }));
        pass = pass.min(spent(|| {
            black_box(sum(black_box(map.tables())));
        }));
    }
    let microseconds = |time: Duration| time.as_nanos() as f64 / 1000.0 / f64::from(TOGETHER);
    (microseconds(test), microseconds(pass))
}

fn spent(work: impl Fn()) -> Duration {
    let start = clock::spent();
    (0..TOGETHER).for_each(|_| work());
    clock::spent() - start
}

/// Every cell that the test may look at, read once; it looks at no cell of `values`.
fn sum(tables: &Tables) -> u64 {
    let narrow = tables.rows.iter().chain(&tables.buckets).map(|&cell| u64::from(cell));
    let wide = tables.keys.iter().copied();
    narrow.fold(0, u64::wrapping_add).wrapping_add(wide.fold(0, u64::wrapping_add))
}
