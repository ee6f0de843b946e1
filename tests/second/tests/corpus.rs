//! The generator and the coverage report: seeds, kinds, corpora, and input in small pieces.

mod support;

use std::collections::BTreeSet;
use std::fs;
use std::io::{self, Read};
use std::path::PathBuf;
use std::process::Command;

use second::coverage::Coverage;
use second::generator::scripts::permutation;
use second::generator::{corpus, kinds, write_long};
use second::program::run;
use second::random::Random;
use support::{bytes_of, output_of};

#[test]
fn a_corpus_reaches_everything_the_program_can_give() {
    for seed in [1, 2, 12_345] {
        let mut coverage = Coverage::empty();
        for (kind, file_seed) in corpus(1000, seed) {
            coverage.add_file((kind.file)(file_seed).as_slice()).expect("memory does not fail");
        }
        assert!(coverage.is_full(), "{coverage}");
    }
}

#[test]
fn a_corpus_has_every_kind_and_no_file_of_another_seed() {
    let files = |seed| -> BTreeSet<(&str, u64)> {
        corpus(1000, seed).map(|(kind, file_seed)| (kind.name, file_seed)).collect()
    };
    assert_eq!(files(1).len(), 1000);
    assert!(files(1).is_disjoint(&files(2)));
    let names: BTreeSet<&str> = files(1).into_iter().map(|(name, _)| name).collect();
    assert_eq!(names, kinds().map(|kind| kind.name).collect());
}

#[test]
fn a_seed_gives_one_file_and_another_seed_another() {
    for kind in kinds() {
        assert_eq!((kind.file)(3), (kind.file)(3));
        assert!(kind.name == "empty" || (kind.file)(3) != (kind.file)(4), "{}", kind.name);
    }
}

#[test]
fn files_of_a_valid_kind_are_read_to_their_end() {
    for (kind, seed) in corpus(500, 9).filter(|(kind, _)| kind.valid) {
        let output = output_of(&(kind.file)(seed));
        let expected = if kind.name == "refused-set-up" { "set-up " } else { "end" };
        let last = output.lines().last().expect("a line");
        assert!(last.starts_with(expected), "{} with seed {seed} ends with {last}", kind.name);
    }
}

/// Gives its bytes in pieces of random length, as a pipe may do.
struct Pieces<'file> {
    file: &'file [u8],
    random: Random,
}

impl Read for Pieces<'_> {
    fn read(&mut self, buffer: &mut [u8]) -> io::Result<usize> {
        let piece = self.random.between(1, 40).min(buffer.len() as u64) as usize;
        let count = piece.min(self.file.len());
        let (now, later) = self.file.split_at(count);
        buffer[..count].copy_from_slice(now);
        self.file = later;
        Ok(count)
    }
}

#[test]
fn input_in_pieces_gives_the_same_output() {
    for (kind, seed) in corpus(300, 4) {
        let file = (kind.file)(seed);
        let mut output = Vec::new();
        run(Pieces { file: &file, random: Random::new(seed) }, &mut output).expect("no failure");
        assert_eq!(String::from_utf8_lossy(&output), output_of(&file), "{}", kind.name);
    }
}

#[test]
fn a_long_file_has_as_many_transactions_as_asked_for() {
    let mut with_one = Vec::new();
    let mut with_many = Vec::new();
    write_long(8, 1, &mut with_one).expect("memory does not fail");
    write_long(8, 50_001, &mut with_many).expect("memory does not fail");
    let lines = |file: &[u8]| output_of(file).lines().count();
    assert_eq!(lines(&with_many) - lines(&with_one), 50_000);
}

#[test]
fn every_order_comes_once() {
    let orders: BTreeSet<Vec<usize>> = (0..24).map(|number| permutation(number, 4)).collect();
    assert_eq!(orders.len(), 24);
    for order in orders {
        assert_eq!(order.into_iter().collect::<BTreeSet<_>>(), (0..4).collect());
    }
}

/// A folder of its own for this test, empty at first.
fn folder(name: &str) -> PathBuf {
    let folder = PathBuf::from(env!("CARGO_TARGET_TMPDIR")).join(name);
    fs::remove_dir_all(&folder).ok();
    fs::create_dir_all(&folder).expect("the target folder can be written");
    folder
}

fn coverage_code(folder: &PathBuf) -> Option<i32> {
    let coverage = Command::new(env!("CARGO_BIN_EXE_coverage")).arg(folder).output();
    coverage.expect("the program starts").status.code()
}

#[test]
fn the_coverage_program_exits_with_1_if_something_is_left_out() {
    let poor = folder("poor");
    fs::write(poor.join("listing"), bytes_of(include_str!("../../listing.hex"))).expect("written");
    assert_eq!(coverage_code(&poor), Some(1));

    let rich = folder("rich");
    let generate = Command::new(env!("CARGO_BIN_EXE_generate"))
        .arg("--corpus")
        .arg(&rich)
        .args(["1000", "1"])
        .status();
    assert!(generate.expect("the program starts").success());
    assert_eq!(fs::read_dir(&rich).expect("the corpus").count(), 1000);
    assert_eq!(coverage_code(&rich), Some(0));
}

#[test]
fn the_generate_program_gives_the_file_of_a_kind() {
    for kind in kinds() {
        let file = Command::new(env!("CARGO_BIN_EXE_generate")).args(["6", kind.name]).output();
        assert_eq!(file.expect("the program starts").stdout, (kind.file)(6));
    }
}
