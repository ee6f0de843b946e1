//! What several tests need: files from hexadecimal or from transactions, and their output.

// Each test program uses only a part of this module.
#![allow(dead_code)]

use second::map::Version;
use second::program::run;
use second::transaction::{header_bytes, Transaction};

/// The bytes written as hexadecimal pairs with spaces between.
pub fn bytes_of(hexadecimal: &str) -> Vec<u8> {
    let pairs = hexadecimal.split_whitespace();
    pairs.map(|pair| u8::from_str_radix(pair, 16).expect("a hexadecimal pair")).collect()
}

/// What the program writes for this file.
pub fn output_of(file: &[u8]) -> String {
    let mut output = Vec::new();
    run(file, &mut output).expect("memory does not fail");
    String::from_utf8(output).expect("the output is plain text")
}

pub fn schedule_file(capacity: u32, start: u32, transactions: &[Transaction]) -> Vec<u8> {
    let mut file = header_bytes(capacity, Version(start));
    file.extend(transactions.iter().flat_map(Transaction::bytes));
    file
}

/// Runs a schedule file of these transactions and gives, for each, what its line says behind
/// number and code. The other lines are checked here.
pub fn results(capacity: u32, start: u32, transactions: &[Transaction]) -> Vec<String> {
    let output = output_of(&schedule_file(capacity, start, transactions));
    let lines: Vec<&str> = output.lines().collect();
    assert_eq!(lines.len(), transactions.len() + 2);
    assert_eq!(lines[0], "set-up 0");
    assert_eq!(lines[lines.len() - 1], "end");
    let result = |(number, transaction): (usize, &Transaction)| {
        let prefix = format!("{number} {} ", transaction.code());
        let line = lines[number];
        line.strip_prefix(&prefix).unwrap_or_else(|| panic!("{line:?} lacks {prefix:?}")).into()
    };
    (1..).zip(transactions).map(result).collect()
}
