//! Tests of the static library through its Rust wrapper. Each panics on the first difference.
//!
//!     hosts lists CALLS       random lists of calls against a BTreeMap
//!     hosts single CALLS      random calls, one entry point each, against a BTreeMap
//!     hosts ranges ROUNDS     long ranges while others change the map, against clones of a BTreeMap
//!     hosts bytes ROUNDS      lists that are cut, malformed, or have too little room
//!     hosts damage ROUNDS     damaged tables: every call refuses, or is right
//!     hosts verdicts          every cell damaged in turn, as lines for the second program's `verdicts`
//!     hosts stack CALLS       as `single` and `lists`, on the stack that docs/OPERATOR.md promises to suffice

mod bytes;
mod calls;
mod damage;
mod lists;
mod model;
mod random;
mod ranges;
mod single;
mod verdicts;

fn main() {
    let words: Vec<String> = std::env::args().skip(1).collect();
    let (test, count) = match &words[..] {
        [test] if test == "verdicts" => return print!("{}", verdicts::lines()),
        [test, count] => (test, count),
        _ => panic!("usage: hosts TEST COUNT"),
    };
    let count: usize = count.parse().expect("a number");
    let done = match test.as_str() {
        "lists" => lists::run(count),
        "single" => single::run(count),
        "ranges" => ranges::run(count),
        "bytes" => bytes::run(count),
        "damage" => damage::run(count),
        "stack" => on_little_stack(count),
        _ => panic!("no such test"),
    };
    println!("{test}: {done}");
}

/// Runs on a thread with a stack of 64 KB; a call that needs more ends the program.
fn on_little_stack(calls: usize) -> String {
    let run = move || format!("{}; {}", single::run(calls), lists::run(calls));
    let thread = std::thread::Builder::new().stack_size(64 << 10).spawn(run);
    thread.expect("a thread starts").join().expect("the test passes")
}
