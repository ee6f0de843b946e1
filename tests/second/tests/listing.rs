//! The listing of document 01, byte for byte, through the library and through the program.

mod support;

use std::io::Write;
use std::process::{Command, Stdio};

use support::{bytes_of, output_of};

const INPUT: &str = include_str!("../../listing.hex");
const OUTPUT: &str = include_str!("../../listing.txt");

#[test]
fn the_listing_is_met_byte_for_byte() {
    let input = bytes_of(INPUT);
    assert_eq!(input.len(), 32);
    assert_eq!(output_of(&input), OUTPUT);
}

#[test]
fn the_program_reads_standard_input_and_writes_standard_output() {
    let mut program = Command::new(env!("CARGO_BIN_EXE_second"))
        .stdin(Stdio::piped())
        .stdout(Stdio::piped())
        .spawn()
        .expect("the program starts");
    let mut input = program.stdin.take().expect("the input is piped");
    input.write_all(&bytes_of(INPUT)).expect("the program reads");
    drop(input);
    let finished = program.wait_with_output().expect("the program ends");
    assert!(finished.status.success());
    assert_eq!(String::from_utf8_lossy(&finished.stdout), OUTPUT);
}
