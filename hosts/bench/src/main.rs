//! Times Lopresnik against other maps and prints tables. See tests/bench/hosts.sh.

mod clock;
mod lists;
#[cfg(lmdb)]
mod lmdb;
mod shims;
mod skip_hash;
mod soundness;
mod subjects;
mod work;

use std::ops::Range;
use std::time::Duration;

use lists::{Batch, Calls, PlainBatch, Single};
use shims::StdMap;
use subjects::{Directly, Out, Plain, QuickHash, SlowHash, Subject, Tree};
use work::{Mix, Work, MIXES};

/// So many runs of each subject.
const RUNS: usize = 15;

/// Operations in a list, and lists in a run.
const LENGTH: usize = 10_000;
const LISTS: usize = 20;

/// A single entry point tests the tables each time, so it gets fewer operations.
const SINGLE_LENGTH: usize = 500;

const CAPACITY: usize = 4096;

/// Runs under callgrind at most.
const COUNTED: usize = 3;

/// Long ranges in a list, one after another, and updates before each of their steps.
const RANGES: usize = 16;
const UPDATES: usize = 16;

fn main() {
    let words: Vec<String> = std::env::args().skip(1).collect();
    let words: Vec<&str> = words.iter().map(String::as_str).collect();
    match words[..] {
        [] => {
            print_workloads();
            print_growth();
            print_lengths();
            print_soundness();
        }
        ["short"] => {
            print_workloads();
            print_soundness();
        }
        ["soundness"] => print_soundness(),
        ["count", subject, mix, runs] => count(subject, mix, runs.parse().expect("a number")),
        _ => panic!("usage: bench [short | soundness | count SUBJECT WORKLOAD RUNS]"),
    }
}

/// Nanoseconds an operation of each subject. A first run compares every answer and pair with those of
/// the first subject. Then all take turns so many times; each part of a run counts with its fastest
/// time, since other work on the machine only ever slows it down.
fn measure(work: &Work, subjects: &mut [Box<dyn Subject + '_>], runs: usize) -> Vec<f64> {
    let mut out = Out::for_work(work);
    compare(work, subjects, &mut out);
    let parts = parts(work);
    let mut fastest = vec![vec![Duration::MAX; parts.len()]; subjects.len()];
    for _ in 0..runs {
        for (subject, fastest) in subjects.iter_mut().zip(&mut fastest) {
            subject.reset();
            for (lists, fastest) in parts.iter().zip(fastest) {
                let start = clock::spent();
                lists.clone().for_each(|list| subject.run(list, &mut out));
                *fastest = (clock::spent() - start).min(*fastest);
            }
        }
    }
    let operations = work.operations() as f64;
    let total = |parts: &Vec<Duration>| parts.iter().sum::<Duration>().as_nanos() as f64;
    fastest.iter().map(|parts| total(parts) / operations).collect()
}

/// Lists that are timed together, so that the clock itself does not count.
fn parts(work: &Work) -> Vec<Range<usize>> {
    let longest = work.lists.iter().map(Vec::len).max().unwrap_or(1);
    let together = LENGTH.div_ceil(longest);
    (0..work.lists.len())
        .step_by(together)
        .map(|first| first..(first + together).min(work.lists.len()))
        .collect()
}

/// Panics unless every subject hands out and answers the same.
fn compare(work: &Work, subjects: &mut [Box<dyn Subject + '_>], out: &mut Out) {
    subjects.iter_mut().for_each(|subject| subject.reset());
    for list in 0..work.lists.len() {
        let mut expected = None;
        for subject in subjects.iter_mut() {
            subject.run(list, out);
            let answers = subject.answers(list, out);
            let pairs = (out.keys[..out.pairs].to_vec(), out.values[..out.pairs].to_vec());
            let given = (answers, pairs);
            let first = expected.get_or_insert_with(|| given.clone());
            assert!(*first == given, "{} answers list {list} differently", subject.name());
        }
    }
}

/// Every subject that can do the mix.
fn subjects_of<'work>(
    work: &'work Work,
    calls: &'work Calls,
    has_ranges: bool,
) -> Vec<Box<dyn Subject + 'work>> {
    let mut subjects: Vec<Box<dyn Subject>> = vec![
        Box::new(Batch::new(work, calls, false)),
        Box::new(Batch::new(work, calls, true)),
        Box::new(PlainBatch::new(work, calls)),
        Box::new(Directly::<Plain>::new("plain direct", work)),
        Box::new(Directly::<Tree>::new("BTreeMap", work)),
        Box::new(StdMap::new(work)),
    ];
    #[cfg(lmdb)]
    subjects.push(Box::new(lmdb::Lmdb::new(work)));
    if !has_ranges {
        subjects.push(Box::new(Directly::<SlowHash>::new("HashMap", work)));
        subjects.push(Box::new(Directly::<QuickHash>::new(QUICK_HASH, work)));
    }
    subjects
}

const QUICK_HASH: &str = "HashMap, quick hash";

const NAMES: [&str; 10] = [
    "batch",
    "single",
    "batch, written",
    "plain batch",
    "plain direct",
    "BTreeMap",
    "std::map",
    "LMDB",
    "HashMap",
    QUICK_HASH,
];

/// Whose time is divided by whose in the summary.
const RATIOS: [(&str, &str); 8] = [
    ("BTreeMap", "batch"),
    ("BTreeMap", "batch, written"),
    ("std::map", "batch"),
    ("std::map", "batch, written"),
    ("LMDB", "batch"),
    ("HashMap", "batch"),
    (QUICK_HASH, "batch"),
    ("plain batch", "batch"),
];

/// One line of a table: the workload, and what was measured by name.
struct Line<'names> {
    workload: String,
    measured: Vec<(&'names str, f64)>,
}

impl Line<'_> {
    fn of(&self, name: &str) -> Option<f64> {
        self.measured.iter().find(|(measured, _)| *measured == name).map(|&(_, time)| time)
    }
}

fn measure_mix(mix: Mix, scattered: bool) -> Line<'static> {
    let work = Work::mixed(CAPACITY, scattered, mix, LISTS, LENGTH);
    let calls = Calls::of_work(&work);
    let mut subjects = subjects_of(&work, &calls, mix.ranges > 0);
    let times = measure(&work, &mut subjects, RUNS);
    let mut measured: Vec<_> = subjects.iter().map(|subject| subject.name()).zip(times).collect();
    let few = Work::mixed(CAPACITY, scattered, mix, 1, SINGLE_LENGTH);
    let few_calls = Calls::of_work(&few);
    let mut single: Vec<Box<dyn Subject>> = vec![
        Box::new(Directly::<Tree>::new("BTreeMap", &few)),
        Box::new(Single::new(&few, &few_calls)),
    ];
    measured.push(("single", measure(&few, &mut single, 5)[1]));
    Line { workload: mix.name.to_string(), measured }
}

/// Every workload with both kinds of keys, the long range, and the summary of ratios.
fn print_workloads() {
    if !cfg!(lmdb) {
        println!("\nLMDB is not installed, so its columns are empty.");
    }
    let kinds = [("keys 0 to 4095", false), ("64-bit keys, scattered", true)];
    let lines = kinds.map(|(keys, scattered)| {
        let lines: Vec<Line> = MIXES.iter().map(|&mix| measure_mix(mix, scattered)).collect();
        println!("\n### Workloads, {keys}: nanoseconds an operation\n");
        print_table(&lines, &NAMES, |line, name| line.of(name), 1);
        lines
    });
    let long = print_long_ranges();
    let [mut lines, scattered] = lines;
    lines.push(long);
    print_ratios(kinds[0].0, &lines);
    print_ratios(kinds[1].0, &scattered);
}

/// A line for each ratio, a column for each workload.
fn print_ratios<'lines>(keys: &str, measured: &'lines [Line]) {
    let line = |&(other, ours): &(&str, &str)| {
        let ratio = |line: &Line| Some(line.of(other)? / line.of(ours)?);
        let of_workload = |line: &'lines Line| ratio(line).map(|ratio| (&line.workload[..], ratio));
        Line {
            workload: format!("{other} / {ours}"),
            measured: measured.iter().filter_map(of_workload).collect(),
        }
    };
    let lines: Vec<Line> = RATIOS.iter().map(line).collect();
    let names: Vec<&str> = measured.iter().map(|line| &line.workload[..]).collect();
    println!("\n### Ratios, {keys}: time of the one divided by that of the other\n");
    print_table(&lines, &names, |line, name| line.of(name), 2);
}

fn print_table(
    lines: &[Line],
    names: &[&str],
    cell: impl Fn(&Line, &str) -> Option<f64>,
    digits: usize,
) {
    println!("| | {} |", names.join(" | "));
    println!("|---|{}", "---:|".repeat(names.len()));
    for line in lines {
        let cells: Vec<String> = names
            .iter()
            .map(|name| cell(line, name).map_or("-".into(), |number| format!("{number:.digits$}")))
            .collect();
        println!("| {} | {} |", line.workload, cells.join(" | "));
    }
}

/// A long range over everything in steps of 64, with updates between the steps.
fn print_long_ranges() -> Line<'static> {
    let work = Work::long_ranges(CAPACITY, 3, RANGES, UPDATES);
    let calls = Calls::of_work(&work);
    let mut subjects = subjects_of(&work, &calls, true);
    let times = measure(&work, &mut subjects, RUNS);
    let operations = work.lists[0].len() / RANGES;
    let each = operations as f64 / 1000.0;
    let measured = subjects.iter().map(|s| s.name()).zip(times.iter().map(|time| time * each));
    let line = Line { workload: "long range".into(), measured: measured.collect() };
    println!(
        "\n### A long range over all keys in steps of 64, {UPDATES} updates before each step ({operations} operations), {RANGES} such ranges a list: microseconds a range\n"
    );
    let names =
        ["batch", "batch, written", "plain batch", "plain direct", "BTreeMap", "std::map", "LMDB"];
    print_table(std::slice::from_ref(&line), &names, |line, name| line.of(name), 2);
    line
}

/// The soundness test at half of the nodes present and at all.
fn print_soundness() {
    let line = |&(workload, present): &(&str, usize)| {
        let (test, pass) = soundness::measure(CAPACITY, present, RUNS);
        let measured = vec![("test", test), ("plain pass", pass), ("ratio", test / pass)];
        Line { workload: workload.into(), measured }
    };
    let lines: Vec<Line> = [("half", CAPACITY / 2), ("full", CAPACITY)].iter().map(line).collect();
    println!("\n### The soundness test against a plain pass over the same cells: microseconds\n");
    print_table(&lines, &["test", "plain pass", "ratio"], |line, name| line.of(name), 2);
}

/// The batch and a BTreeMap beside each other.
fn batch_and_tree<'work>(work: &'work Work, calls: &'work Calls) -> Vec<Box<dyn Subject + 'work>> {
    vec![
        Box::new(Batch::new(work, calls, false)),
        Box::new(Directly::<Tree>::new("BTreeMap", work)),
    ]
}

/// Cost an operation by the capacity.
fn print_growth() {
    const NAMES: [[&str; 2]; 2] =
        [["lookups: batch", "lookups: BTreeMap"], ["updates: batch", "updates: BTreeMap"]];
    let line = |&capacity: &usize| {
        let of_mix = |(mix, names): (&Mix, [&'static str; 2])| {
            let work = Work::mixed(capacity, false, *mix, LISTS, LENGTH);
            let calls = Calls::of_work(&work);
            let times = measure(&work, &mut batch_and_tree(&work, &calls), 9);
            names.into_iter().zip(times).collect::<Vec<_>>()
        };
        let measured = MIXES.iter().zip(NAMES).flat_map(of_mix).collect();
        Line { workload: capacity.to_string(), measured }
    };
    let lines: Vec<Line> = [64, 128, 256, 512, 1024, 2048, 4096].iter().map(line).collect();
    println!("\n### Growth with the capacity: nanoseconds an operation\n");
    print_table(&lines, NAMES.as_flattened(), |line, name| line.of(name), 1);
}

/// Cost an operation by the length of a list: the soundness test is made once a list.
fn print_lengths() {
    let line = |&length: &usize| {
        let work = Work::mixed(CAPACITY, false, MIXES[0], (100_000 / length).min(1000), length);
        let calls = Calls::of_work(&work);
        let mut subjects = batch_and_tree(&work, &calls);
        let times = measure(&work, &mut subjects, 9);
        let measured = subjects.iter().map(|s| s.name()).zip(times).collect();
        Line { workload: length.to_string(), measured }
    };
    let lines: Vec<Line> = [1, 10, 100, 1000, 10_000, 100_000].iter().map(line).collect();
    println!("\n### Lookups by the length of a list: nanoseconds an operation\n");
    print_table(&lines, &["batch", "BTreeMap"], |line, name| line.of(name), 1);
}

/// Resets one subject `COUNTED` times and runs it after the first so many of them, to be counted by
/// callgrind: the difference of two counts is that of the runs alone. Prints the operations of one run.
fn count(subject: &str, mix: &str, runs: usize) {
    let mix = *MIXES.iter().find(|known| known.name == mix).expect("a workload of the table");
    let work = Work::mixed(CAPACITY, false, mix, 2, LENGTH);
    let calls = Calls::of_work(&work);
    let mut subjects = subjects_of(&work, &calls, mix.ranges > 0);
    subjects.retain(|known| known.name() == subject);
    let subject = subjects.first_mut().expect("a subject of the table");
    let mut out = Out::for_work(&work);
    for run in 0..COUNTED {
        subject.reset();
        if run < runs {
            (0..work.lists.len()).for_each(|list| subject.run(list, &mut out));
        }
    }
    println!("{} operations a run, {} bytes as calls", work.operations(), calls.bytes());
}
