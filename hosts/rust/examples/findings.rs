//! A map of findings: keys are addresses in a firmware image, values are what was found there. One
//! worker reports all findings in steps while another goes on scanning.
//!
//!     cargo run --release --example findings

use std::error::Error;

use lopresnik::{List, Map, Refusal, Shared};

fn main() -> Result<(), Box<dyn Error>> {
    let mut map = Map::new(256)?;
    // A scan comes as a list of calls: the tables are tested once for all of them.
    let mut scan = List::new();
    for finding in 0..100 {
        scan.insert(finding * 4096, finding % 7, coin(finding));
    }
    let answers = map.run_list(&scan)?;
    println!("{} findings inserted", answers.calls());
    println!("the first at or above 10000: {}", map.ceil(10_000)?);
    match map.insert(4096, 0) {
        Err(refusal @ Refusal::KeyPresent) => println!("insert 4096: {refusal}"),
        other => println!("insert 4096: {other:?}"),
    }

    // The report sees the findings as they are now, whatever the scanner does meanwhile.
    let shared = Shared::new(map);
    let mut report = shared.range(0, i64::MAX)?;
    let mut reported = 0;
    while let Some((address, _)) = report.next() {
        reported += 1;
        shared.with(|map| map.remove_and_hand_over(address))?;
    }
    println!("{reported} findings reported and removed meanwhile");
    drop(report);

    let mut map = shared.into_map();
    println!("{} nodes swept", map.sweep_all()?);
    let tally = map.tally()?;
    println!("{} present, {} held, {} free", tally.present, tally.held, tally.free);

    // Tables that were damaged are refused by every call.
    map.tables_mut().buckets[5] = 77;
    println!("damaged: sound {}, lookup {:?}", map.sound(), map.lookup(4096));
    Ok(())
}

/// In earnest: a random number.
fn coin(number: i64) -> u64 {
    (number as u64 + 1).wrapping_mul(0x9E37_79B9_7F4A_7C15) >> 7
}
